//! How often each thing occurred that a comparison of the virtual chip has to reach.

use super::content::Change;
use crate::group::{EVENT, Group};
use crate::job_case::JobCase;
use crate::reference::{enabled, turn_number};
use crate::steer::pair::RESET;
use crate::tally::{EVENTS, TURNS};
use model::Controller;
use perlovasta::REPORT_LEN;

/// The counts of one run.
#[derive(Clone, Debug)]
pub struct Tally {
    /// Lists.
    pub lists: u64,
    /// Accesses and events.
    pub accesses: u64,
    /// Jobs, also those without a report.
    pub jobs: u64,
    /// The pairs that jobs took.
    pub pairs: u64,
    /// Statuses that accesses and events gave.
    pub status: [u64; 256],
    /// Turns that accesses, events and jobs led to, by their number.
    pub turn: [u64; TURNS],
    /// Events given in each turn of a sound record, accepted or refused.
    pub event_in_turn: [[u64; TURNS]; EVENTS],
    /// Refusals.
    pub refusal: [u64; 11],
    /// Refusals 10, in the order of [`Change`].
    pub refused: [u64; Change::ALL.len()],
    /// Records that were not sound and were reset.
    pub reset: u64,
    /// Accesses accepted in a record with a stray status, which is F8h then.
    pub stray: u64,
    /// Fresh controllers that there was no room for, and that there was.
    pub fresh: [u64; 2],
    /// Records stored in more bytes than they have, whose rest stayed.
    pub longer: u64,
    /// Answers of jobs.
    pub answer: [u64; 30],
    /// The number beside answer 28.
    pub beside: [u64; 11],
    /// Jobs answered 22, in the order of [`Change`].
    pub not_ready: [u64; Change::ALL.len()],
    /// Jobs answered 22 on a sound record, by its turn.
    pub not_ready_in: [u64; TURNS],
    /// Jobs begun on a fresh controller that is enabled, and on one in use.
    pub begun: [u64; 2],
    /// Turns that jobs left, by their number.
    pub left: [u64; TURNS],
}

impl Tally {
    /// All at 0.
    pub const fn new() -> Self {
        Tally {
            lists: 0,
            accesses: 0,
            jobs: 0,
            pairs: 0,
            status: [0; 256],
            turn: [0; TURNS],
            event_in_turn: [[0; TURNS]; EVENTS],
            refusal: [0; 11],
            refused: [0; Change::ALL.len()],
            reset: 0,
            stray: 0,
            fresh: [0; 2],
            longer: 0,
            answer: [0; 30],
            beside: [0; 11],
            not_ready: [0; Change::ALL.len()],
            not_ready_in: [0; TURNS],
            begun: [0; 2],
            left: [0; TURNS],
        }
    }

    /// Accesses, events and pairs compared.
    pub const fn total(&self) -> u64 {
        self.accesses + self.pairs
    }

    /// Counts an access or event with this reply.
    pub fn count_access(
        &mut self,
        group: Group,
        before: Option<&Controller>,
        after: Option<&Controller>,
        reply: u32,
    ) {
        self.accesses += 1;
        let [refusal, ..] = reply.to_le_bytes();
        let Some((before, after)) = before.zip(after) else {
            return;
        };
        if let ([EVENT, number @ 1..=14, _], true) = (group, before.is_sound()) {
            self.event_in_turn[usize::from(number)][turn(before)] += 1;
        }
        if refusal != 0 {
            self.refusal[usize::from(refusal)] += 1;
            return;
        }
        self.reset += u64::from(group == [EVENT, RESET, 0] && !before.is_sound());
        self.status[usize::from(after.status())] += u64::from(before.status() != after.status());
        self.turn[turn(after)] += u64::from(before.turn() != after.turn());
    }

    /// Counts refusal 10, if it is that, of bytes that were changed so.
    pub fn count_refused(&mut self, change: Option<Change>, reply: u32) {
        if let (Some(change), 10) = (change, reply) {
            self.refused[change as usize] += 1;
        }
    }

    /// Counts a job with this answer.
    pub fn count_job(
        &mut self,
        case: &JobCase,
        before: Option<&Controller>,
        after: Option<&Controller>,
        answer: u8,
    ) {
        self.jobs += 1;
        let Some((report, _)) = case.report.split_first_chunk::<REPORT_LEN>() else {
            return;
        };
        let [_, beside, _, _, pairs @ ..] = *report;
        self.pairs += u64::from_le_bytes(pairs);
        self.answer[usize::from(answer)] += 1;
        self.beside[usize::from(beside)] += 1;
        match (answer, before.zip(after)) {
            (21, _) | (_, None) => {}
            (22, Some((before, _))) => {
                self.not_ready_in[turn(before)] += u64::from(before.is_sound());
            }
            (_, Some((before, after))) => {
                self.begun[usize::from(*before != enabled())] += 1;
                self.left[turn(after)] += 1;
            }
        }
    }

    /// Counts answer 22, if it is that, of bytes that were changed so.
    pub fn count_not_ready(&mut self, change: Option<Change>, answer: u8) {
        if let (Some(change), 22) = (change, answer) {
            self.not_ready[change as usize] += 1;
        }
    }
}

impl Default for Tally {
    fn default() -> Self {
        Self::new()
    }
}

fn turn(controller: &Controller) -> usize {
    usize::from(turn_number(controller.turn()))
}
