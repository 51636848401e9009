//! Byte 6 of a log's entry: the pointer, why a move ended, and whether the software reset is armed.

/// The byte taken apart.
#[derive(Clone, Copy, Debug, PartialEq, Eq)]
pub struct PointerByte {
    /// INDPTR, in bits 0 to 3.
    pub pointer: u8,
    /// The reason's number, in bits 4 to 6.
    pub reason: u8,
    /// Whether the software reset is armed, in bit 7.
    pub armed: bool,
}

impl PointerByte {
    /// Takes the byte apart.
    pub const fn from_byte(byte: u8) -> Self {
        PointerByte {
            pointer: byte & 0x0F,
            reason: byte >> 4 & 0x07,
            armed: byte >> 7 != 0,
        }
    }

    /// The byte; the pointer is below 16, and the reason below 8.
    #[inline]
    pub const fn byte(self) -> u8 {
        self.pointer | self.reason << 4 | (self.armed as u8) << 7
    }
}

#[cfg(test)]
mod tests {
    use super::PointerByte;

    #[test]
    fn three_in_one() {
        let armed = PointerByte::from_byte(0xB5);
        assert_eq!((armed.pointer, armed.reason, armed.armed), (5, 3, true));
        let reset = PointerByte::from_byte(0x60);
        assert_eq!((reset.pointer, reset.reason, reset.armed), (0, 6, false));
    }

    #[test]
    fn apart_and_together() {
        for byte in 0..=255 {
            assert_eq!(PointerByte::from_byte(byte).byte(), byte);
        }
    }
}
