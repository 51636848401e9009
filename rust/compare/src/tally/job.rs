//! What a job and its report count for.

use super::Tally;
use crate::job_case::{Flaw, JobCase};
use perlovasta::REPORT_LEN;

impl Tally {
    /// Counts a job after it was run, with what it returned.
    pub fn count_job(&mut self, case: &JobCase, answer: u8) {
        self.jobs += 1;
        self.count_flaw(case, answer);
        if case.report.len() < REPORT_LEN {
            return;
        }
        let report = &case.report;
        let pairs = report[4..12].try_into().expect("eight bytes");
        let pairs = u64::from_le_bytes(pairs);
        self.pairs += pairs;
        self.long[0] += u64::from(pairs > 0xFF);
        self.long[1] += u64::from(pairs > 0xFFFF);
        self.answer[usize::from(answer)] += 1;
        self.sent[usize::from(report[3])] += 1;
        match answer {
            0 => self.done[usize::from(case.kind)][usize::from(case.n)] += 1,
            28 => self.beside[usize::from(report[1])] += 1,
            _ => {}
        }
    }

    /// Counts what is wrong with it, if it is one thing and was answered so.
    fn count_flaw(&mut self, case: &JobCase, answer: u8) {
        let [flaw] = case.flaws()[..] else {
            return;
        };
        if answer != 21 {
            return;
        }
        self.flaw[flaw as usize] += 1;
        if flaw == Flaw::Count {
            self.count[usize::from(case.n)] += 1;
        }
    }
}
