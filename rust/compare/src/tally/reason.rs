//! Why a move ended: what set the reason, and that all else kept it.

use super::Tally;
use perlovasta::Reason;

impl Tally {
    /// Counts the reason after a trace's first group. No group gives a status there, so none yet is
    /// what the fresh controller had.
    pub(super) fn count_first_reason(&mut self, reason: u8) {
        self.reason_fresh += u64::from(reason == Reason::NoneYet.number());
    }

    /// Counts the reason after an accepted group: `set` by a new status or a reset, else kept.
    pub(super) fn count_reason(&mut self, before: u8, after: u8, set: bool) {
        let counts = if set {
            &mut self.reason_set
        } else {
            assert_eq!(before, after, "a reason that nothing set");
            &mut self.reason_kept
        };
        counts[usize::from(after)] += 1;
    }
}

#[cfg(test)]
mod tests {
    use crate::group::{CONTROL, DATA, Group, INDIRECT, POINTER, event, read, write};
    use crate::reference;
    use crate::tally::Tally;
    use perlovasta::ENTRY_LEN;

    /// Switched on, own START, the address byte to be sent: one status, 08h.
    const ADDRESSING: [Group; 4] = [
        write(CONTROL, 0x60),
        event([1, 0]),
        write(DATA, 0xE2),
        write(CONTROL, 0xC0),
    ];
    const SOFTWARE_RESET: [Group; 3] = [
        write(POINTER, 5),
        write(INDIRECT, 0xA5),
        write(INDIRECT, 0x5A),
    ];

    /// What the model's log of these groups counts for.
    fn counted(groups: &[Group]) -> Tally {
        let trace = groups.concat();
        let mut log = vec![0; ENTRY_LEN * groups.len()];
        assert_eq!(reference::trace(&trace, &mut log), 0);
        let mut tally = Tally::new();
        tally.count_trace(&trace, &log);
        tally
    }

    /// Counts with 1 at the reason of this number.
    const fn once(reason: usize) -> [u64; 7] {
        let mut counts = [0; 7];
        counts[reason] = 1;
        counts
    }

    #[test]
    fn each_reason_is_told() {
        let slave_stop = [event([8, 0xE0]), write(CONTROL, 0xC0), event([3, 0])];
        for (reason, groups) in [
            (1, &[event([6, 0])][..]),
            (2, &[event([6, 1])]),
            (3, &slave_stop),
            (4, &[event([8, 0x10])]),
            (5, &[event([10, 0])]),
            (6, &[event([14, 0])]),
            (6, &SOFTWARE_RESET),
        ] {
            let tally = counted(&[&ADDRESSING, groups].concat());
            let mut set = once(reason);
            set[0] = 1;
            // Own address and arbitration lost, 68h, before the slave's STOP.
            set[4] += u64::from(reason == 3);
            assert_eq!(tally.reason_set, set, "{reason}");
        }
    }

    #[test]
    fn none_yet_is_set_by_a_status_and_had_when_fresh() {
        let tally = counted(&[read(0), write(CONTROL, 0x60)]);
        assert_eq!((tally.reason_set, tally.reason_fresh), ([0; 7], 1));
        assert_eq!(tally.reason_kept[0], 2);
        let tally = counted(&[event([14, 0]), write(CONTROL, 0x60), event([1, 0])]);
        assert_eq!(tally.reason_set, [1, 0, 0, 0, 0, 0, 1]);
        assert_eq!((tally.reason_fresh, tally.reason_kept), (0, once(6)));
    }

    #[test]
    fn an_empty_trace_has_no_reason() {
        let mut tally = Tally::new();
        tally.count_trace(&[], &[0; ENTRY_LEN]);
        assert_eq!((tally.traces, tally.reason_fresh), (1, 0));
    }

    #[test]
    fn refused_groups_count_for_nothing() {
        let tally = counted(&[event([14, 0]), event([14, 1]), event([1, 0]), read(4)]);
        assert_eq!((tally.reason_set, tally.reason_kept), (once(6), [0; 7]));
    }
}
