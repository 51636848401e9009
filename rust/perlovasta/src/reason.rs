//! Why a move ended.

use core::fmt;

/// Why a move ended: set by each new status but F8h and by a reset, and kept by everything else.
///
/// It does not tell whether a job is done: a read that is done ends with status 58h, one whose
/// address was not acknowledged with 48h, and both are [`Nack`](Reason::Nack); a write has
/// [`CountReached`](Reason::CountReached) at 18h, before any data byte, as it has at 28h. A job's
/// [`Answer`](crate::Answer) tells.
#[derive(Clone, Copy, Debug, PartialEq, Eq, Hash)]
#[must_use]
pub enum Reason {
    /// None yet: the controller is fresh, or its last status but F8h was 08h, 10h, 60h, A8h or D0h,
    /// with no reset since.
    NoneYet,
    /// The last data byte was acknowledged, or (18h, 40h) the address byte.
    CountReached,
    /// A byte was not acknowledged, the last one included: by the other side (20h, 30h, 48h, C0h)
    /// or by the controller (58h, 88h, E8h).
    Nack,
    /// Another's START or STOP ended a slave reception.
    Outside,
    /// Arbitration was lost.
    ArbitrationLost,
    /// Bus fault: status 00h, 70h or 78h.
    Fault,
    /// Reset, by the pin or by software.
    Reset,
}

impl Reason {
    /// All seven, by their numbers from 0.
    pub const ALL: [Reason; 7] = [
        Reason::NoneYet,
        Reason::CountReached,
        Reason::Nack,
        Reason::Outside,
        Reason::ArbitrationLost,
        Reason::Fault,
        Reason::Reset,
    ];

    /// The number, 0 to 6.
    #[must_use]
    pub const fn number(self) -> u8 {
        self as u8
    }

    /// The reason of that number.
    #[must_use]
    pub const fn from_number(number: u8) -> Option<Self> {
        match number {
            0..=6 => Some(Self::ALL[number as usize]),
            _ => None,
        }
    }
}

impl fmt::Display for Reason {
    fn fmt(&self, f: &mut fmt::Formatter<'_>) -> fmt::Result {
        f.write_str(match self {
            Reason::NoneYet => "none yet",
            Reason::CountReached => "count reached",
            Reason::Nack => "NACK",
            Reason::Outside => "outside START or STOP",
            Reason::ArbitrationLost => "arbitration lost",
            Reason::Fault => "fault",
            Reason::Reset => "reset",
        })
    }
}

#[cfg(test)]
mod tests {
    use super::Reason;

    #[test]
    fn numbers() {
        for (number, reason) in (0..).zip(Reason::ALL) {
            assert_eq!(reason.number(), number);
            assert_eq!(Reason::from_number(number), Some(reason));
        }
        assert_eq!(Reason::from_number(7), None);
    }
}
