//! The settings of a recovery: pairs of pointer and value, at times with a flaw that 21 is for.

use crate::random::Random;

/// The most settings that a recovery takes.
pub const MOST: usize = 6;

/// What is wrong with settings.
#[derive(Clone, Copy, Debug, PartialEq, Eq)]
pub enum Flaw {
    /// They are not pairs.
    Odd,
    /// They are more than six.
    TooMany,
    /// One is of a register that cannot be set so.
    Register,
}

/// Settings that are taken: none to six.
pub fn well_formed(random: &mut Random) -> Vec<u8> {
    // Often none: a job then begins on a controller as after reset.
    let any = random.below(MOST + 1);
    let pairs = random.pick(&[0, 0, 1, MOST, any]);
    (0..pairs).flat_map(|_| setting(random)).collect()
}

/// Settings with one thing wrong.
pub fn flawed(random: &mut Random) -> Vec<u8> {
    let mut settings = well_formed(random);
    match random.pick(&[Flaw::Odd, Flaw::TooMany, Flaw::Register]) {
        Flaw::Odd if settings.is_empty() => settings.push(random.byte()),
        Flaw::Odd => settings.truncate(settings.len() - 1),
        Flaw::TooMany => {
            let pairs = random.pick(&[7, 7, 8, 100]);
            settings = (0..pairs).flat_map(|_| setting(random)).collect();
        }
        Flaw::Register => {
            settings.truncate(2 * (MOST - 1));
            let place = 2 * random.below(settings.len() / 2 + 1);
            let pointer = random.pick(&[5, 7, 8, 0x0D, 0x80, 0xFF]);
            settings.splice(place..place, [pointer, random.byte()]);
        }
    }
    settings
}

/// The first thing that is wrong with settings.
pub fn flaw(settings: &[u8]) -> Option<Flaw> {
    let (pairs, rest) = settings.as_chunks::<2>();
    if !rest.is_empty() {
        Some(Flaw::Odd)
    } else if pairs.len() > MOST {
        Some(Flaw::TooMany)
    } else if pairs.iter().any(|[pointer, _]| !can_be_set(*pointer)) {
        Some(Flaw::Register)
    } else {
        None
    }
}

/// I2CCOUNT, I2CADR, I2CSCLL, I2CSCLH, I2CTO and I2CMODE.
const fn can_be_set(pointer: u8) -> bool {
    matches!(pointer, 0..=4 | 6)
}

/// A pointer and a value; I2CTO often without TE, so that events 12 and 13 are refused.
fn setting(random: &mut Random) -> [u8; 2] {
    let pointer = random.pick(&[0, 1, 2, 3, 4, 4, 6]);
    let value = match pointer {
        4 => random.pick_or_any(&[0x00, 0x7F, 0x80, 0xFF]),
        _ => random.byte(),
    };
    [pointer, value]
}

#[cfg(test)]
mod tests {
    use super::{flaw, flawed, well_formed};
    use crate::random::Random;

    #[test]
    fn flaws_are_flaws() {
        let mut random = Random::new(1);
        for _ in 0..1000 {
            assert_eq!(flaw(&well_formed(&mut random)), None);
            assert!(flaw(&flawed(&mut random)).is_some());
        }
    }
}
