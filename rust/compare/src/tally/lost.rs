//! What ended 38h, arbitration lost, and what kept it.

use super::Tally;
use crate::group::{CONTROL, EVENT, Group, INDIRECT, WRITE};
use crate::steer::control::ENSIO;
use crate::steer::pair::{OTHER_STOP, RESET, SCL_LOW};

/// What ends 38h.
#[derive(Clone, Copy, Debug, PartialEq, Eq)]
pub enum LostEnd {
    /// Another's STOP.
    OtherStop,
    /// SCL low past the time-out.
    TimeOut,
    /// The reset pin.
    ResetPin,
    /// The software reset.
    SoftwareReset,
    /// An I2CCON write with ENSIO 0.
    Disabled,
}

impl Tally {
    /// Counts a group accepted at 38h.
    pub(super) fn count_at_lost(&mut self, [kind, place, value]: Group, left: bool) {
        let enabling = value & ENSIO != 0;
        let end = match (left, kind, place) {
            (true, EVENT, OTHER_STOP) => LostEnd::OtherStop,
            (true, EVENT, SCL_LOW) => LostEnd::TimeOut,
            (true, EVENT, RESET) => LostEnd::ResetPin,
            (true, WRITE, INDIRECT) if value == 0x5A => LostEnd::SoftwareReset,
            (true, WRITE, CONTROL) if !enabling => LostEnd::Disabled,
            (false, WRITE, CONTROL) if enabling => {
                self.lost_kept += 1;
                return;
            }
            _ => {
                assert!(!left, "38h left by {kind} {place} {value}");
                return;
            }
        };
        self.lost_left[end as usize] += 1;
    }
}

#[cfg(test)]
mod tests {
    use super::LostEnd;
    use crate::group::{CONTROL, DATA, Group, INDIRECT, POINTER, event, write};
    use crate::reference;
    use crate::tally::Tally;
    use perlovasta::ENTRY_LEN;

    /// From a fresh controller to 38h, and there a write with all bits.
    const KEPT: [Group; 6] = [
        write(CONTROL, 0x60),
        event([1, 0]),
        write(DATA, 0xA0),
        write(CONTROL, 0x40),
        event([8, 0x10]),
        write(CONTROL, 0xFF),
    ];

    /// What the model's log of these groups counts for: ends of 38h, and writes that kept it.
    fn counted(after: &[Group]) -> ([u64; 5], u64) {
        let trace = [&KEPT, after].concat().into_flattened();
        let mut log = vec![0; ENTRY_LEN * (KEPT.len() + after.len())];
        assert_eq!(reference::trace(&trace, &mut log), 0);
        let mut tally = Tally::new();
        tally.count_trace(&trace, &log);
        (tally.lost_left, tally.lost_kept)
    }

    #[test]
    fn each_end_is_told() {
        let software_reset = [(POINTER, 5), (INDIRECT, 0xA5), (INDIRECT, 0x5A)];
        let software_reset = software_reset.map(|(register, value)| write(register, value));
        for (end, groups) in [
            (LostEnd::OtherStop, &[event([3, 0])][..]),
            (LostEnd::TimeOut, &[event([12, 0])]),
            (LostEnd::ResetPin, &[event([14, 0])]),
            (LostEnd::SoftwareReset, &software_reset),
            (LostEnd::Disabled, &[write(CONTROL, 0xBF)]),
        ] {
            let mut left = [0; 5];
            left[end as usize] = 1;
            assert_eq!(counted(groups), (left, 1), "{end:?}");
        }
    }

    #[test]
    fn what_is_refused_or_done_elsewhere_is_no_end() {
        assert_eq!(counted(&[event([2, 0]), event([12, 1])]), ([0; 5], 1));
        let mut left = [0; 5];
        left[LostEnd::OtherStop as usize] = 1;
        let once = [
            event([3, 0]),
            event([2, 0]),
            write(CONTROL, 0),
            event([14, 0]),
        ];
        assert_eq!(counted(&once), (left, 1));
    }
}
