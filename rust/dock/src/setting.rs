//! What a recovery sets.

use crate::Pointer;

/// A register that a recovery sets once the chip is reset, and its value. They are set in the order
/// in which they are given.
#[derive(Clone, Copy, Debug, PartialEq, Eq, Hash)]
pub enum Setting {
    /// I2CCOUNT, at pointer 00h.
    Count(u8),
    /// I2CADR, at pointer 01h: the chip's own address in bits 7 to 1, and GC.
    OwnAddress(u8),
    /// I2CSCLL, at pointer 02h.
    ClockLow(u8),
    /// I2CSCLH, at pointer 03h.
    ClockHigh(u8),
    /// I2CTO, at pointer 04h: TE, and the time-out.
    TimeOut(u8),
    /// I2CMODE, at pointer 06h. The data sheet wants it before the clock's two.
    BusMode(u8),
}

impl Setting {
    /// The most that a recovery takes.
    pub const MOST: usize = 6;

    /// The pointer and the value.
    #[must_use]
    pub const fn pair(self) -> [u8; 2] {
        let (pointer, value) = match self {
            Setting::Count(value) => (Pointer::Count, value),
            Setting::OwnAddress(value) => (Pointer::OwnAddress, value),
            Setting::ClockLow(value) => (Pointer::ClockLow, value),
            Setting::ClockHigh(value) => (Pointer::ClockHigh, value),
            Setting::TimeOut(value) => (Pointer::TimeOut, value),
            Setting::BusMode(value) => (Pointer::BusMode, value),
        };
        [pointer.number(), value]
    }
}
