//! What a list counts for.

use super::Tally;
use crate::port::answer::{DATA_NACKED, DONE, FAULT, NOT_READY, REFUSED};
use crate::port::asked::Asked;
use crate::port::board::Run;
use crate::port::item::Way;
use crate::port::rule::{Rule, Unready};
use crate::port::settings;
use crate::port::told::Told;
use crate::reference::turn_number;
use model::Controller;

impl Tally {
    /// Counts a job that was judged by this rule, on this controller.
    pub fn count_job(&mut self, job: &Asked, rule: Rule, before: &Controller, told: &Told) {
        self.jobs += 1;
        self.pairs += told.events as u64;
        if let Some(flaw) = job.flaw() {
            self.wrong_job[flaw as usize] += 1;
        }
        let (kind, answer) = (usize::from(job.kind), usize::from(told.answer));
        // A job of another kind is 21, and neither of the two.
        let Some(answers) = self.answer.get_mut(kind) else {
            return;
        };
        match rule {
            Rule::State => self.not_ready[kind] += 1,
            _ => answers[answer] += 1,
        }
        match told.answer {
            DONE => self.done[kind][usize::from(job.n)] += 1,
            NOT_READY if rule == Rule::Chip => self.chip_at[usize::from(before.status())] += 1,
            DATA_NACKED => self.nacked[usize::from(told.count)] += 1,
            REFUSED => self.beside[usize::from(told.beside)] += 1,
            _ => {}
        }
    }

    /// Counts the status at which a job ended with a fault.
    pub fn count_fault(&mut self, told: &Told, left: &Controller) {
        if told.answer == FAULT {
            self.fault[usize::from(left.status())] += 1;
        }
    }

    /// Counts a job that was refused because a recovery has to come first.
    pub fn count_unready(&mut self, unready: Unready) {
        self.unready[unready.index()] += 1;
    }

    /// Counts the looks of a run at which nothing had come, and the events that were not looked at.
    pub fn count_looks(&mut self, run: &Run) {
        for &turn in &run.polled {
            self.polls[usize::from(turn)] += 1;
        }
        self.unseen += run.unseen as u64;
    }

    /// Counts a job that began on this controller, after this traffic of others.
    pub fn count_traffic(
        &mut self,
        kind: u8,
        before: &Controller,
        traffic: &[[u8; 2]],
        told: &Told,
    ) {
        self.traffic_in[usize::from(turn_number(before.turn()))] += 1;
        self.traffic[usize::from(kind)][usize::from(told.answer)] += 1;
        self.long_traffic += u64::from(traffic.len() > 1);
    }

    /// Counts a job that was compared with `perlovasta_job` too.
    pub fn count_fresh(&mut self, answer: u8) {
        self.fresh[usize::from(answer)] += 1;
    }

    /// Counts a recovery of this controller.
    pub fn count_recovery(&mut self, before: &Controller, settings: &[u8]) {
        self.recoveries += 1;
        self.recovery_in[usize::from(turn_number(before.turn()))] += 1;
        self.settings[settings.len() / 2] += 1;
    }

    /// Counts settings that are wrong.
    pub fn count_wrong_settings(&mut self, settings: &[u8]) {
        if let Some(flaw) = settings::flaw(settings) {
            self.wrong_settings[flaw as usize] += 1;
        }
    }

    /// Counts what was left under way.
    pub fn count_left(&mut self, by: Way) {
        self.left[by as usize] += 1;
    }
}
