//! Bytes that no call leaves: those that are no record, records that are not sound, and sound ones
//! that no access leads to.

use super::layout::{self, RECORD_LEN};
use crate::random::Random;
use model::{Controller, Turn};

/// The least turn number that there is not.
const NO_TURN: u8 = 12;
/// Numbers of turns that move data.
const MOVING: [u8; 5] = [6, 7, 8, 9, 24];
/// All numbers of turns.
const TURNS: [u8; 14] = [0, 1, 2, 3, 4, 5, 6, 7, 8, 9, 10, 11, 17, 24];

/// Places in a record.
mod place {
    pub(super) const TURN: usize = 2;
    pub(super) const STATUS: usize = 3;
    pub(super) const REASON: usize = 4;
    pub(super) const FLAGS: usize = 5;
    pub(super) const MODE: usize = 9;
    pub(super) const HAND: usize = 11;
    pub(super) const MOVED: usize = 12;
    pub(super) const POINTER: usize = 13;
    pub(super) const COUNT: usize = 14;
    pub(super) const BUS_MODE: usize = 19;
}

/// What is done to the bytes of a chip.
#[derive(Clone, Copy, Debug, PartialEq, Eq)]
pub enum Change {
    /// They are fewer than a record has.
    Short,
    /// Another mark.
    Mark,
    /// A turn that there is not.
    Turn,
    /// A reason that there is not.
    Reason,
    /// A flag over 1.
    Flag,
    /// Any bytes at all.
    Any,
    /// A pointer over 7.
    Pointer,
    /// A hand place over 68.
    Hand,
    /// A moved count over 68.
    Moved,
    /// I2CMODE over 3.
    BusMode,
    /// A status that no rule gives, in Host.
    Status,
    /// A move that is past its end.
    Move,
    /// A hand place at 68, which is sound.
    HandAtEnd,
    /// Another turn that there is.
    OtherTurn,
    /// A status beside a turn that has none.
    StrayStatus,
    /// Any byte at any place.
    AnyByte,
    /// They are more than a record has.
    Long,
}

impl Change {
    /// All of them.
    pub const ALL: [Change; 17] = [
        Change::Short,
        Change::Mark,
        Change::Turn,
        Change::Reason,
        Change::Flag,
        Change::Any,
        Change::Pointer,
        Change::Hand,
        Change::Moved,
        Change::BusMode,
        Change::Status,
        Change::Move,
        Change::HandAtEnd,
        Change::OtherTurn,
        Change::StrayStatus,
        Change::AnyByte,
        Change::Long,
    ];

    /// Those whose bytes are no record.
    pub const NO_RECORD: [Change; 6] = [
        Change::Short,
        Change::Mark,
        Change::Turn,
        Change::Reason,
        Change::Flag,
        Change::Any,
    ];

    /// Those whose record is not sound.
    pub const NOT_SOUND: [Change; 6] = [
        Change::Pointer,
        Change::Hand,
        Change::Moved,
        Change::BusMode,
        Change::Status,
        Change::Move,
    ];

    /// The bytes of this controller after it.
    pub fn bytes(self, controller: &Controller, random: &mut Random) -> Vec<u8> {
        let mut bytes = layout::bytes(controller).to_vec();
        match self {
            Change::Short => bytes.truncate(random.below(RECORD_LEN)),
            Change::Mark => bytes[random.below(2)] ^= 1 << random.below(8),
            Change::Turn => bytes[place::TURN] = no_turn(random),
            Change::Reason => bytes[place::REASON] = over(6, random),
            Change::Flag => bytes[place::FLAGS + random.below(6)] = over(1, random),
            Change::Any => bytes = random.bytes(RECORD_LEN),
            Change::Pointer => bytes[place::POINTER] = over(7, random),
            Change::Hand => bytes[place::HAND] = over(68, random),
            Change::Moved => bytes[place::MOVED] = over(68, random),
            Change::BusMode => bytes[place::BUS_MODE] = over(3, random),
            Change::Status => {
                bytes[place::TURN] = random.pick(&[1, 17]);
                bytes[place::STATUS] = random.pick(&[0xF8, 0x90, 0x98, 0x01, 0xFF]);
            }
            Change::Move => past_its_end(&mut bytes, random),
            Change::HandAtEnd => bytes[place::HAND] = 68,
            Change::OtherTurn => bytes[place::TURN] = random.pick(&TURNS),
            Change::StrayStatus => {
                bytes[place::TURN] = random.pick(&[0, 2, 3, 4, 5]);
                bytes[place::STATUS] = random.byte();
            }
            Change::AnyByte => bytes[random.below(RECORD_LEN)] = random.byte(),
            Change::Long => bytes.extend(longer(random)),
        }
        bytes
    }
}

/// A byte over this one, mostly the next.
fn over(most: u8, random: &mut Random) -> u8 {
    let any = most + 1 + random.below(usize::from(u8::MAX - most)) as u8;
    random.pick(&[most + 1, any])
}

fn no_turn(random: &mut Random) -> u8 {
    let any = over(NO_TURN - 1, random);
    if TURNS.contains(&any) { NO_TURN } else { any }
}

/// In Buffered mode BC is reached or over 68, and in Byte mode a byte has moved.
fn past_its_end(bytes: &mut [u8], random: &mut Random) {
    let count = 1 + random.below(68) as u8;
    let (mode, moved, count) = random.pick(&[
        (1, count, count),
        (1, 0, 0),
        (1, 0, 0x80),
        (1, 0, 69),
        (0, 1, count),
    ]);
    bytes[place::TURN] = random.pick(&MOVING);
    bytes[place::MODE] = mode;
    bytes[place::MOVED] = moved;
    bytes[place::COUNT] = count;
}

fn longer(random: &mut Random) -> Vec<u8> {
    let more = random.pick(&[1, 7, 40]);
    random.bytes(more)
}

/// Whether a status stands beside a turn that has none.
pub fn is_stray(bytes: &[u8], controller: &Controller) -> bool {
    !matches!(controller.turn(), Turn::Host { .. }) && bytes[place::STATUS] != controller.status()
}

#[cfg(test)]
mod tests {
    use super::{Change, layout};
    use crate::random::Random;
    use crate::reference::enabled;

    #[test]
    fn each_is_what_it_says() {
        let mut random = Random::new(1);
        for _ in 0..1000 {
            for change in Change::ALL {
                let bytes = change.bytes(&enabled(), &mut random);
                let record = layout::controller(&bytes);
                let is_none = Change::NO_RECORD.contains(&change);
                let is_unsound = Change::NOT_SOUND.contains(&change);
                if is_none || is_unsound {
                    assert_eq!(record.is_none(), is_none, "{change:?} {bytes:X?}");
                    assert!(record.is_none_or(|record| !record.is_sound()), "{change:?}");
                }
            }
        }
    }
}
