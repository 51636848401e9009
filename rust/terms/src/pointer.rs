//! What the pointer can name.

use core::fmt;

/// A register that is reached by the pointer, and then by
/// [`Register::AtPointer`](crate::Register::AtPointer).
#[derive(Clone, Copy, Debug, PartialEq, Eq, Hash)]
pub enum Pointer {
    /// 00h, I2CCOUNT: LB, and the byte count.
    Count,
    /// 01h, I2CADR: the chip's own address in bits 7 to 1, and GC.
    OwnAddress,
    /// 02h, I2CSCLL.
    ClockLow,
    /// 03h, I2CSCLH.
    ClockHigh,
    /// 04h, I2CTO: TE, and the time-out.
    TimeOut,
    /// 05h, I2CPRESET: A5h, then 5Ah is a software reset.
    Preset,
    /// 06h, I2CMODE.
    BusMode,
    /// 07h, the moved count: a counter of the association's board, which the model has. It is no
    /// register of a bare chip.
    MovedCount,
}

impl Pointer {
    /// All eight, by their numbers from 00h.
    pub const ALL: [Pointer; 8] = [
        Pointer::Count,
        Pointer::OwnAddress,
        Pointer::ClockLow,
        Pointer::ClockHigh,
        Pointer::TimeOut,
        Pointer::Preset,
        Pointer::BusMode,
        Pointer::MovedCount,
    ];

    /// The number, 00h to 07h.
    #[must_use]
    pub const fn number(self) -> u8 {
        self as u8
    }

    /// The register that the pointer names with that number.
    #[must_use]
    pub const fn from_number(number: u8) -> Option<Self> {
        match number {
            0..=7 => Some(Self::ALL[number as usize]),
            _ => None,
        }
    }
}

/// By its name in the data sheet.
impl fmt::Display for Pointer {
    fn fmt(&self, f: &mut fmt::Formatter<'_>) -> fmt::Result {
        f.write_str(match self {
            Pointer::Count => "I2CCOUNT",
            Pointer::OwnAddress => "I2CADR",
            Pointer::ClockLow => "I2CSCLL",
            Pointer::ClockHigh => "I2CSCLH",
            Pointer::TimeOut => "I2CTO",
            Pointer::Preset => "I2CPRESET",
            Pointer::BusMode => "I2CMODE",
            Pointer::MovedCount => "the moved count",
        })
    }
}

#[cfg(test)]
mod tests {
    use super::Pointer;
    use std::string::ToString;

    #[test]
    fn numbers_go_both_ways() {
        for (number, pointer) in (0..).zip(Pointer::ALL) {
            assert_eq!(pointer.number(), number);
            assert_eq!(Pointer::from_number(number), Some(pointer));
        }
        assert_eq!(Pointer::from_number(8), None);
        assert_eq!(Pointer::TimeOut.to_string(), "I2CTO");
    }
}
