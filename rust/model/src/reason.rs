//! Why a move ended (document 02, Ask 8).

/// Why a move ended. "It is set with each new status but F8h, and by a
/// reset, and otherwise kept."
#[derive(Clone, Copy, Debug, PartialEq, Eq, Hash)]
#[repr(u8)]
pub enum Reason {
    /// None yet: a fresh controller, or a status that ends no move.
    NoneYet = 0,
    /// The count was reached.
    CountReached = 1,
    /// A byte was NACKed, the last one included.
    Nack = 2,
    /// A START or STOP from outside.
    Outside = 3,
    /// Arbitration was lost.
    ArbitrationLost = 4,
    /// A bus fault.
    Fault = 5,
    /// A reset, by pin or by software.
    Reset = 6,
}

impl Reason {
    /// All seven, by their numbers from 0.
    pub const ALL: [Self; 7] = [
        Reason::NoneYet,
        Reason::CountReached,
        Reason::Nack,
        Reason::Outside,
        Reason::ArbitrationLost,
        Reason::Fault,
        Reason::Reset,
    ];

    /// The number of the reason, 0 to 6.
    #[inline]
    pub const fn number(self) -> u8 {
        self as u8
    }

    /// The reason that this status sets when it is new; F8h sets none.
    #[inline]
    pub const fn of_status(status: u8) -> Self {
        match status {
            0x18 | 0x28 | 0x40 | 0x50 | 0x80 | 0xB8 | 0xC8 | 0xE0 => Reason::CountReached,
            0x20 | 0x30 | 0x48 | 0x58 | 0x88 | 0xC0 | 0xE8 => Reason::Nack,
            0xA0 => Reason::Outside,
            0x38 | 0x68 | 0xB0 | 0xD8 => Reason::ArbitrationLost,
            0x00 | 0x70 | 0x78 => Reason::Fault,
            _ => Reason::NoneYet,
        }
    }
}
