//! The seven-bit address and the address byte, two kinds of number:
//! byte = 2 x address + R, with R 1 for a read.

/// A seven-bit bus address.
#[derive(Clone, Copy, Debug, PartialEq, Eq, Hash)]
pub struct Address(u8);

/// An address byte as it goes over the bus.
#[derive(Clone, Copy, Debug, PartialEq, Eq)]
pub(crate) struct AddressByte(u8);

/// The direction that R of an address byte gives, as the master sees it.
#[derive(Clone, Copy, Debug, PartialEq, Eq, Hash)]
pub enum Direction {
    /// R 0: the master writes.
    Write,
    /// R 1: the master reads.
    Read,
}

impl Address {
    /// The address as a number, 00h..7Fh.
    #[inline]
    pub const fn number(self) -> u8 {
        self.0
    }

    /// The address `number`, if it has seven bits.
    pub(crate) const fn new(number: u8) -> Option<Self> {
        if number < 0x80 {
            Some(Address(number))
        } else {
            None
        }
    }

    /// The address that I2CADR holds in its bits 7..1.
    pub(crate) const fn from_own_register(i2cadr: u8) -> Self {
        Address(i2cadr >> 1)
    }

    /// The address byte for a read or a write.
    pub(crate) const fn to_byte(self, read: bool) -> AddressByte {
        AddressByte(2 * self.0 + read as u8)
    }

    /// Whether this is address zero, which is nobody's own.
    pub(crate) const fn is_zero(self) -> bool {
        self.0 == 0
    }
}

impl AddressByte {
    /// The byte 00h, 'General Call'.
    pub(crate) const GENERAL_CALL: Self = AddressByte(0x00);

    /// A byte taken as an address byte.
    pub(crate) const fn new(byte: u8) -> Self {
        AddressByte(byte)
    }

    /// The byte as it goes over the bus.
    pub(crate) const fn byte(self) -> u8 {
        self.0
    }

    /// The upper seven bits.
    pub(crate) const fn address(self) -> Address {
        Address(self.0 >> 1)
    }

    /// Whether R is 1.
    pub(crate) const fn is_read(self) -> bool {
        self.0 & 1 != 0
    }

    /// The direction, by R.
    pub(crate) const fn direction(self) -> Direction {
        if self.is_read() {
            Direction::Read
        } else {
            Direction::Write
        }
    }
}
