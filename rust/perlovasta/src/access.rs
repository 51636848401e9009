//! One access to a register, or an event: what a trace is made of.

use crate::{Event, GROUP_LEN, Refusal, Register};
use core::error::Error;
use core::fmt;

/// One access to a register, or an event.
#[derive(Clone, Copy, Debug, PartialEq, Eq, Hash)]
pub enum Access {
    /// The register is read.
    Read(Register),
    /// The byte is written to the register.
    Write(Register, u8),
    /// The event comes.
    Event(Event),
}

impl Access {
    /// Its group in the bytes of a trace: its kind, then what it is to, then the byte.
    #[must_use]
    pub const fn group(self) -> [u8; GROUP_LEN] {
        match self {
            Access::Read(register) => [0, register.number(), 0],
            Access::Write(register, value) => [1, register.number(), value],
            Access::Event(event) => {
                let [number, argument] = event.pair();
                [2, number, argument]
            }
        }
    }
}

impl TryFrom<[u8; GROUP_LEN]> for Access {
    type Error = AccessError;

    /// The last byte of a read is not looked at.
    fn try_from([kind, number, value]: [u8; GROUP_LEN]) -> Result<Self, AccessError> {
        let register = Register::from_number(number);
        let register = register.ok_or(AccessError::Refused(Refusal::OutOfRange));
        match kind {
            0 => register.map(Access::Read),
            1 => register.map(|register| Access::Write(register, value)),
            2 => Ok(Access::Event(Event::try_from([number, value])?)),
            _ => Err(AccessError::Kind(kind)),
        }
    }
}

/// Why a group is no access.
#[derive(Clone, Copy, Debug, PartialEq, Eq, Hash)]
pub enum AccessError {
    /// There is no such kind.
    Kind(u8),
    /// There is no such register or event, or the event does not take this argument.
    Refused(Refusal),
}

impl fmt::Display for AccessError {
    fn fmt(&self, f: &mut fmt::Formatter<'_>) -> fmt::Result {
        match self {
            AccessError::Kind(kind) => write!(f, "no group is of kind {kind}"),
            AccessError::Refused(refusal) => fmt::Display::fmt(refusal, f),
        }
    }
}

impl From<Refusal> for AccessError {
    fn from(refusal: Refusal) -> Self {
        AccessError::Refused(refusal)
    }
}

impl Error for AccessError {
    fn source(&self) -> Option<&(dyn Error + 'static)> {
        match self {
            AccessError::Kind(_) => None,
            AccessError::Refused(refusal) => Some(refusal),
        }
    }
}

#[cfg(test)]
mod tests {
    use super::{Access, AccessError};
    use crate::Refusal;
    use alloc::string::ToString;
    use core::error::Error;

    #[test]
    fn groups_go_both_ways() {
        for kind in 0..3 {
            for number in 0..=u8::MAX {
                let group = [kind, number, 0];
                let access = Access::try_from(group);
                let most = if kind < 2 { 3 } else { 14 };
                let known = number <= most && (kind < 2 || number > 0);
                assert_eq!(access.is_ok(), known);
                assert!(access.is_err() || access.is_ok_and(|access| access.group() == group));
            }
        }
    }

    #[test]
    fn what_is_no_access_is_told() {
        let refused = |group| Access::try_from(group).unwrap_err();
        assert_eq!(refused([3, 0, 0]), AccessError::Kind(3));
        assert_eq!(
            refused([1, 4, 0]),
            AccessError::Refused(Refusal::OutOfRange)
        );
        assert_eq!(
            refused([2, 6, 2]),
            AccessError::Refused(Refusal::BadArgument)
        );
        assert!(refused([3, 0, 0]).source().is_none());
        let source = refused([1, 4, 0]).source().map(ToString::to_string);
        assert_eq!(source, Some(Refusal::OutOfRange.to_string()));
    }
}
