//! "Refusals of an access or event".

/// Why an access or event is refused. The record stays as it was.
#[derive(Clone, Copy, Debug, PartialEq, Eq, Hash)]
#[repr(u8)]
pub enum Refusal {
    /// Register over 3, or event not 1..14.
    Unknown = 1,
    /// Event argument not 0 where unused, or over 1 for event 6.
    Argument = 2,
    /// The access isn't allowed in a wire turn.
    WireTurn = 3,
    /// I2CCON write at 00h, 70h or 78h.
    Fault = 4,
    /// I2CCON write with ENSIO 1 that the rules don't list.
    NotListed = 5,
    /// The write would start a buffered data move and BC is not 1..68.
    ByteCount = 6,
    /// I2CDAT access with the hand place at 68.
    HandAtEnd = 7,
    /// Event not expected now.
    NotExpected = 8,
    /// Register 2: write with pointer 07h, or read with pointer 05h.
    Pointer = 9,
    /// The record isn't sound.
    Unsound = 10,
}

impl Refusal {
    /// The number of the refusal, 1 to 10.
    #[inline]
    pub const fn number(self) -> u8 {
        self as u8
    }
}
