//! The seven-bit address of a device.

use core::error::Error;
use core::fmt;

/// The address of a device: seven bits, 08h to 77h. Those below and above are the bus's own.
///
/// It is not the address byte, which has the direction in its lowest bit: the reader at 50h is
/// written to with A0h and read from with A1h.
#[derive(Clone, Copy, Debug, PartialEq, Eq, PartialOrd, Ord, Hash)]
pub struct Address(u8);

/// A number that is no device's address.
#[derive(Clone, Copy, Debug, PartialEq, Eq, Hash)]
pub struct AddressError(u8);

impl Address {
    /// The least one.
    pub const FIRST: Self = Address(0x08);
    /// The greatest one.
    pub const LAST: Self = Address(0x77);

    /// The address of this number.
    ///
    /// # Errors
    ///
    /// If the number is not 08h to 77h. An address byte is twice its address, so most of them are
    /// refused here.
    pub const fn new(number: u8) -> Result<Self, AddressError> {
        match number {
            0x08..=0x77 => Ok(Address(number)),
            _ => Err(AddressError(number)),
        }
    }

    /// The number, 08h to 77h.
    #[must_use]
    pub const fn number(self) -> u8 {
        self.0
    }
}

impl TryFrom<u8> for Address {
    type Error = AddressError;

    fn try_from(number: u8) -> Result<Self, AddressError> {
        Address::new(number)
    }
}

impl From<Address> for u8 {
    fn from(address: Address) -> u8 {
        address.number()
    }
}

impl fmt::Display for Address {
    fn fmt(&self, f: &mut fmt::Formatter<'_>) -> fmt::Result {
        write!(f, "{:02X}h", self.0)
    }
}

impl fmt::Display for AddressError {
    fn fmt(&self, f: &mut fmt::Formatter<'_>) -> fmt::Result {
        write!(f, "no device has address {:02X}h, only 08h to 77h", self.0)
    }
}

impl Error for AddressError {}

#[cfg(test)]
mod tests {
    use super::Address;
    use std::string::ToString;

    #[test]
    fn only_those_of_devices() {
        for number in 0..=u8::MAX {
            let address = Address::try_from(number);
            assert_eq!(address.is_ok(), (0x08..=0x77).contains(&number));
            assert!(address.is_ok_and(|address| u8::from(address) == number) || address.is_err());
        }
        assert_eq!(Address::new(0x08), Ok(Address::FIRST));
        assert_eq!(Address::new(0x77), Ok(Address::LAST));
    }

    #[test]
    fn words() {
        assert_eq!(Address::FIRST.to_string(), "08h");
        let error = Address::new(0xA0).unwrap_err();
        assert_eq!(
            error.to_string(),
            "no device has address A0h, only 08h to 77h"
        );
    }
}
