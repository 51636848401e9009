//! The four registers of a chip.

use core::fmt;

/// One of the four registers of a chip.
#[derive(Clone, Copy, Debug, PartialEq, Eq, Hash)]
pub enum Register {
    /// Register 0: I2CSTA when read, INDPTR when written.
    Status,
    /// Register 1: I2CDAT.
    Data,
    /// Register 2: the register at the pointer.
    AtPointer,
    /// Register 3: I2CCON.
    Control,
}

impl Register {
    /// Register 0 by its name when it is written: INDPTR.
    pub const POINTER: Self = Register::Status;

    /// All four, by their numbers from 0.
    pub const ALL: [Register; 4] = [
        Register::Status,
        Register::Data,
        Register::AtPointer,
        Register::Control,
    ];

    /// The number, 0 to 3.
    #[must_use]
    pub const fn number(self) -> u8 {
        self as u8
    }

    /// The register of that number.
    #[must_use]
    pub const fn from_number(number: u8) -> Option<Self> {
        match number {
            0..=3 => Some(Self::ALL[number as usize]),
            _ => None,
        }
    }
}

/// By its name in the data sheet.
impl fmt::Display for Register {
    fn fmt(&self, f: &mut fmt::Formatter<'_>) -> fmt::Result {
        f.write_str(match self {
            Register::Status => "I2CSTA or INDPTR",
            Register::Data => "I2CDAT",
            Register::AtPointer => "the register at the pointer",
            Register::Control => "I2CCON",
        })
    }
}

#[cfg(test)]
mod tests {
    use super::Register;
    use std::string::ToString;

    #[test]
    fn numbers_go_both_ways() {
        for (number, register) in (0..).zip(Register::ALL) {
            assert_eq!(register.number(), number);
            assert_eq!(Register::from_number(number), Some(register));
        }
        assert_eq!(Register::from_number(4), None);
        assert_eq!(Register::POINTER.number(), 0);
        assert_eq!(Register::Control.to_string(), "I2CCON");
    }
}
