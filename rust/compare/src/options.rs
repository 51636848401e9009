//! The arguments of a comparison.

use std::env;

/// From which random numbers, and how much.
#[derive(Clone, Copy, Debug, PartialEq, Eq)]
pub struct Options {
    /// What the random numbers begin with.
    pub seed: u64,
    /// The least to be compared.
    pub least: u64,
}

/// The program's arguments, `[--seed N] [--millions M]`; none if they are others.
pub fn options() -> Option<Options> {
    parsed(env::args().skip(1))
}

fn parsed(mut words: impl Iterator<Item = String>) -> Option<Options> {
    let (mut seed, mut millions) = (9665, 1_u64);
    while let Some(word) = words.next() {
        let number = words.next()?.parse().ok()?;
        match word.as_str() {
            "--seed" => seed = number,
            "--millions" => millions = number,
            _ => return None,
        }
    }
    let least = millions.saturating_mul(1_000_000);
    Some(Options { seed, least })
}

#[cfg(test)]
mod tests {
    use super::{Options, parsed};

    fn of(words: &str) -> Option<Options> {
        parsed(words.split_whitespace().map(str::to_owned))
    }

    #[test]
    fn words() {
        let options = |seed, least| Some(Options { seed, least });
        assert_eq!(of(""), options(9665, 1_000_000));
        assert_eq!(of("--millions 3 --seed 7"), options(7, 3_000_000));
        assert_eq!(of("--millions 3 --seed"), None);
        assert_eq!(of("--seed many"), None);
        assert_eq!(of("3"), None);
    }
}
