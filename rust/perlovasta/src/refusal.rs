//! Why an access or event is refused.

use core::error::Error;
use core::fmt;

/// Why a register access or a bus event is refused. It then has the value 0 and changes nothing.
#[derive(Clone, Copy, Debug, PartialEq, Eq, Hash)]
#[must_use]
pub enum Refusal {
    /// Register over 3, or event not 1 to 14.
    OutOfRange,
    /// Event argument not 0 where unused, or over 1 for event 6.
    BadArgument,
    /// An access that a wire turn does not allow.
    OnTheWire,
    /// I2CCON write at 00h, 70h or 78h.
    Locked,
    /// I2CCON write with ENSIO 1 that the status does not allow.
    Unlisted,
    /// The write would start a buffered data move, and BC is not 1 to 68.
    BadCount,
    /// I2CDAT access with the hand place at 68.
    BufferEnd,
    /// Event not expected now.
    Unexpected,
    /// Register 2: write with pointer 07h, or read with pointer 05h.
    Inaccessible,
    /// The record is not sound, or the bytes hold none. No fresh controller comes to this.
    Unsound,
}

impl Refusal {
    /// All ten, by their numbers from 1.
    pub const ALL: [Refusal; 10] = [
        Refusal::OutOfRange,
        Refusal::BadArgument,
        Refusal::OnTheWire,
        Refusal::Locked,
        Refusal::Unlisted,
        Refusal::BadCount,
        Refusal::BufferEnd,
        Refusal::Unexpected,
        Refusal::Inaccessible,
        Refusal::Unsound,
    ];

    /// The number, 1 to 10.
    #[must_use]
    pub const fn number(self) -> u8 {
        self as u8 + 1
    }

    /// The refusal of that number.
    #[must_use]
    pub const fn from_number(number: u8) -> Option<Self> {
        match number {
            1..=10 => Some(Self::ALL[number as usize - 1]),
            _ => None,
        }
    }

    /// The refusal of that number, none for 0.
    ///
    /// # Panics
    ///
    /// For any other number; the library is proved not to give one.
    pub(crate) fn of_reply(number: u8) -> Option<Self> {
        let refusal = Self::from_number(number);
        assert!(
            refusal.is_some() || number == 0,
            "no refusal has number {number}"
        );
        refusal
    }
}

impl Error for Refusal {}

impl fmt::Display for Refusal {
    fn fmt(&self, f: &mut fmt::Formatter<'_>) -> fmt::Result {
        f.write_str(match self {
            Refusal::OutOfRange => "there is no such register or event",
            Refusal::BadArgument => "the event does not take this argument",
            Refusal::OnTheWire => "the controller is busy on the wire",
            Refusal::Locked => "I2CCON is locked after a bus fault",
            Refusal::Unlisted => "this status does not allow this I2CCON value",
            Refusal::BadCount => "the byte count is not 1 to 68",
            Refusal::BufferEnd => "the hand place is at the end of the buffer",
            Refusal::Unexpected => "the event is not expected now",
            Refusal::Inaccessible => "the register at the pointer does not allow this access",
            Refusal::Unsound => "the record is not sound",
        })
    }
}

#[cfg(test)]
mod tests {
    use super::Refusal;

    #[test]
    fn numbers_go_both_ways() {
        for (refusal, number) in Refusal::ALL.into_iter().zip(1..) {
            assert_eq!(refusal.number(), number);
            assert_eq!(Refusal::from_number(number), Some(refusal));
        }
        assert_eq!(Refusal::from_number(0), None);
        assert_eq!(Refusal::from_number(11), None);
        assert_eq!(Refusal::of_reply(0), None);
        assert_eq!(Refusal::of_reply(10), Some(Refusal::Unsound));
    }

    #[test]
    #[should_panic(expected = "no refusal has number 11")]
    fn unknown_refusal() {
        let _ = Refusal::of_reply(11);
    }
}
