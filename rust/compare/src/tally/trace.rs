//! What a trace and its log count for.

use super::{EVENTS, Tally, move_index};
use crate::group::{CONTROL, EVENT, Group, INDIRECT, WRITE, event, write};
use crate::pointer_byte::PointerByte;
use crate::steer::LOST;
use crate::steer::control::{AA, ENSIO, MODE, STA, STO};
use crate::steer::pair::RESET;
use crate::steer::settings;
use perlovasta::{ENTRY_LEN, GROUP_LEN};

/// The controller as an entry of the log shows it.
#[derive(Clone, Copy)]
struct Seen {
    status: u8,
    control: u8,
    pointer: PointerByte,
    turn: u8,
}

/// A fresh controller.
const FRESH: Seen = Seen {
    status: NO_STATUS,
    control: 0,
    pointer: PointerByte::from_byte(0),
    turn: 0,
};

const NO_STATUS: u8 = 0xF8;

impl Seen {
    const fn in_entry(entry: &[u8; ENTRY_LEN]) -> Self {
        let &[_, _, status, control, _, _, pointer, turn] = entry;
        Seen {
            status,
            control,
            pointer: PointerByte::from_byte(pointer),
            turn,
        }
    }

    /// Whether this group resets here, by software.
    fn is_software_reset(self, group: Group) -> bool {
        let PointerByte { pointer, armed, .. } = self.pointer;
        armed && pointer == settings::PRESET && group == write(INDIRECT, settings::RESET)
    }
}

impl Tally {
    /// Counts a trace that was run.
    pub fn count_trace(&mut self, trace: &[u8], log: &[u8]) {
        let (groups, _) = trace.as_chunks::<GROUP_LEN>();
        // A longer log keeps old bytes after these.
        let entries = &log.as_chunks::<ENTRY_LEN>().0[..groups.len()];
        self.traces += 1;
        self.groups += groups.len() as u64;
        if let Some(entry) = entries.first() {
            self.count_first_reason(Seen::in_entry(entry).pointer.reason);
        }
        let mut before = FRESH;
        for (&group, entry) in groups.iter().zip(entries) {
            let after = Seen::in_entry(entry);
            self.count_tried(group, before);
            match entry[0] {
                0 => self.count_accepted(group, before, after),
                refusal => self.refusal[usize::from(refusal)] += 1,
            }
            before = after;
        }
    }

    /// Counts what is given, whatever comes of it.
    fn count_tried(&mut self, [kind, place, value]: Group, before: Seen) {
        match (kind, place) {
            (EVENT, 1..=14) => {
                self.event_in_turn[usize::from(place)][usize::from(before.turn)] += 1;
            }
            (WRITE, CONTROL) if value & ENSIO != 0 => {
                self.control_at[usize::from(before.status / 8)][nibble(value)] += 1;
            }
            _ => {}
        }
    }

    fn count_accepted(&mut self, group: Group, before: Seen, after: Seen) {
        let is_new = before.status != after.status;
        if is_new {
            self.status[usize::from(after.status)] += 1;
        }
        if before.turn != after.turn {
            self.turn[usize::from(after.turn)] += 1;
        }
        if before.status == LOST {
            self.count_at_lost(group, after.status != LOST);
        }
        if let [EVENT, number, _] = group {
            self.count_event(number, before, after);
        }
        let by_software = before.is_software_reset(group);
        self.software_reset += u64::from(by_software);
        let is_reset = by_software || group == event([RESET, 0]);
        let is_set = is_reset || is_new && after.status != NO_STATUS;
        self.count_reason(before.pointer.reason, after.pointer.reason, is_set);
    }

    fn count_event(&mut self, event: u8, before: Seen, after: Seen) {
        debug_assert!(usize::from(event) < EVENTS);
        self.event[usize::from(event)] += 1;
        let (slave, receive) = match (event, before.turn) {
            (6, 6) => (false, false),
            (7, 7) => (false, true),
            (6, 9) => (true, false),
            (7, 8 | 24) => (true, true),
            _ => return,
        };
        if after.status != NO_STATUS {
            let buffered = after.control & MODE != 0;
            self.moves[move_index(slave, receive, buffered)] += 1;
        }
    }
}

/// AA, STA, STO and MODE as one number.
fn nibble(value: u8) -> usize {
    let bits = [AA, STA, STO, MODE];
    bits.into_iter()
        .fold(0, |number, bit| 2 * number + usize::from(value & bit != 0))
}

#[cfg(test)]
mod tests {
    use super::nibble;

    #[test]
    fn nibbles() {
        assert_eq!(nibble(0x40), 0);
        assert_eq!(nibble(0x41), 1);
        assert_eq!(nibble(0x50), 2);
        assert_eq!(nibble(0x60), 4);
        assert_eq!(nibble(0xC0), 8);
        assert_eq!(nibble(0xFF), 15);
    }
}
