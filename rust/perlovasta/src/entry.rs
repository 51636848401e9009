//! The log of a trace, entry by entry.

use crate::{ENTRY_LEN, Reason, Refusal, Turn};

/// What came of one access or event, and the controller after it.
#[derive(Clone, Copy, Debug, PartialEq, Eq, Hash)]
#[must_use]
pub struct Entry {
    /// Of a read the byte; of an event the byte that went out, or 1 if the controller does not
    /// acknowledge the one that came in; else 0. Or why it was refused.
    pub reply: Result<u8, Refusal>,
    /// What register 0, I2CSTA, reads.
    pub status: u8,
    /// What register 3, I2CCON, reads.
    pub control: u8,
    /// The place where I2CDAT reads or writes next.
    pub hand: u8,
    /// Data bytes moved since the last accepted I2CCON write.
    pub moved: u8,
    /// INDPTR.
    pub pointer: u8,
    /// Whether the software reset is armed.
    pub armed: bool,
    /// What the controller waits for.
    pub turn: Turn,
    /// Why a move ended.
    pub reason: Reason,
}

/// In the byte of the pointer: armed, and the pointer itself. Between them stands the reason.
const ARMED: u8 = 0x80;
const POINTER: u8 = 0x0F;

impl Entry {
    /// The entry in its eight bytes.
    ///
    /// # Panics
    ///
    /// For numbers that no refusal, turn or reason has; the library is proved not to give them.
    pub(crate) fn typed(bytes: [u8; ENTRY_LEN]) -> Self {
        let [refused, value, status, control, hand, moved, pointer, turn] = bytes;
        Entry {
            reply: Refusal::of_reply(refused).map_or(Ok(value), Err),
            status,
            control,
            hand,
            moved,
            pointer: pointer & POINTER,
            armed: pointer & ARMED != 0,
            turn: Turn::told(turn, status),
            reason: reason((pointer & !ARMED) >> 4),
        }
    }
}

/// The reason of that number.
fn reason(number: u8) -> Reason {
    Reason::from_number(number).unwrap_or_else(|| panic!("no reason has number {number}"))
}

#[cfg(test)]
mod tests {
    use super::Entry;
    use crate::{Reason, Refusal};

    #[test]
    fn armed_and_reason_stand_above_the_pointer() {
        let entry = Entry::typed([9, 0, 0xF8, 0x40, 68, 2, 0xA5, 2]);
        assert_eq!(entry.reply, Err(Refusal::Inaccessible));
        assert_eq!((entry.pointer, entry.armed), (5, true));
        assert_eq!(entry.reason, Reason::Nack);
        assert_eq!((entry.hand, entry.moved, entry.control), (68, 2, 0x40));
    }

    #[test]
    fn reasons() {
        for reason in Reason::ALL {
            let byte = 0x07 + 16 * reason.number();
            let entry = Entry::typed([0, 5, 0xF8, 0, 0, 0, byte, 0]);
            assert_eq!((entry.reason, entry.pointer), (reason, 7));
            assert_eq!((entry.reply, entry.armed), (Ok(5), false));
        }
    }

    #[test]
    #[should_panic(expected = "no reason has number 7")]
    fn unknown_reason() {
        let _ = Entry::typed([0, 0, 0xF8, 0, 0, 0, 0x70, 0]);
    }
}
