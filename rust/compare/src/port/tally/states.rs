//! What a chip that lies, and a state of any content, count for.

use super::Tally;
use crate::port::answer::DONE;
use crate::port::asked::Asked;
use crate::port::board::BURST;
use crate::port::lying::Lied;
use crate::port::step::Step;

impl Tally {
    /// Counts a job on a chip that lies.
    pub fn count_lied(&mut self, job: &Asked, lied: &Lied) {
        self.lies += 1;
        self.exchanges += lied.log.len() as u64;
        self.full_bursts += u64::from(lied.longest == BURST);
        let Some((answer, _)) = lied.ended else {
            self.endless += 1;
            return;
        };
        if let Some(answers) = self.lied.get_mut(usize::from(job.kind)) {
            answers[usize::from(answer)] += 1;
        }
        if answer == DONE && job.is_read() {
            self.lied_done[usize::from(job.n)] += 1;
        }
    }

    /// Counts that it was given up at this step.
    pub fn count_give_up(&mut self, at: Step) {
        self.given_up[index(at)] += 1;
    }

    /// Counts the next step of a state of any content.
    pub fn count_any(&mut self, next: Step) {
        self.stood[index(next)] += 1;
    }
}

/// The index of a kind of step.
const fn index(step: Step) -> usize {
    match step {
        Step::Write { .. } => 0,
        Step::Read { .. } => 1,
        Step::Wait => 2,
        Step::Pause => 3,
        Step::Over { .. } => 4,
    }
}
