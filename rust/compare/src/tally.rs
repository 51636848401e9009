//! How often each thing occurred that a comparison has to reach.

mod job;
mod lost;
mod reason;
mod trace;

pub use lost::LostEnd;

use crate::trace_case::Flaw;
use perlovasta::{OUT_LEN, Reason};

/// Turns have numbers below this.
pub const TURNS: usize = 32;
/// Events have numbers below this.
pub const EVENTS: usize = 15;

/// The counts of one run.
#[derive(Clone, Debug)]
pub struct Tally {
    /// Traces that were run.
    pub traces: u64,
    /// Their groups.
    pub groups: u64,
    /// Jobs, also those without a report.
    pub jobs: u64,
    /// The pairs that jobs took.
    pub pairs: u64,
    /// Statuses that came about.
    pub status: [u64; 256],
    /// Turns entered, by their number in a log.
    pub turn: [u64; TURNS],
    /// Refusals in traces.
    pub refusal: [u64; 11],
    /// Events accepted in traces.
    pub event: [u64; EVENTS],
    /// Software resets.
    pub software_reset: u64,
    /// Reasons that a new status or a reset set, by their number in a log.
    pub reason_set: [u64; Reason::ALL.len()],
    /// Reasons that any other accepted group kept.
    pub reason_kept: [u64; Reason::ALL.len()],
    /// Fresh controllers that had none yet.
    pub reason_fresh: u64,
    /// Ends of 38h, in the order of [`LostEnd`].
    pub lost_left: [u64; 5],
    /// I2CCON writes with ENSIO 1 that kept 38h.
    pub lost_kept: u64,
    /// Moves finished, by [`move_index`].
    pub moves: [u64; 8],
    /// Events given in each turn, accepted or refused.
    pub event_in_turn: [[u64; TURNS]; EVENTS],
    /// I2CCON written with ENSIO 1, by status / 8 and then by AA, STA, STO and MODE.
    pub control_at: [[u64; 16]; 32],
    /// Jobs that took more pairs than one byte tells, and than two bytes tell.
    pub long: [u64; 2],
    /// Answers of jobs.
    pub answer: [u64; 30],
    /// The number beside answer 28.
    pub beside: [u64; 11],
    /// Jobs by the number of bytes sent, from 0 on.
    pub sent: [u64; 1 + OUT_LEN],
    /// Jobs done, by kind and n.
    pub done: [[u64; 256]; 2],
    /// Jobs whose n is the one thing wrong, by n.
    pub count: [u64; 256],
    /// Jobs with one thing wrong, in the order of `job_case::Flaw`.
    pub flaw: [u64; 8],
    /// Traces not run, in the order of `trace_case::Flaw`.
    pub not_run: [u64; 3],
}

impl Tally {
    /// All at 0.
    pub const fn new() -> Self {
        Tally {
            traces: 0,
            groups: 0,
            jobs: 0,
            pairs: 0,
            status: [0; 256],
            turn: [0; TURNS],
            refusal: [0; 11],
            event: [0; EVENTS],
            software_reset: 0,
            reason_set: [0; Reason::ALL.len()],
            reason_kept: [0; Reason::ALL.len()],
            reason_fresh: 0,
            lost_left: [0; 5],
            lost_kept: 0,
            moves: [0; 8],
            event_in_turn: [[0; TURNS]; EVENTS],
            control_at: [[0; 16]; 32],
            long: [0; 2],
            answer: [0; 30],
            beside: [0; 11],
            sent: [0; 1 + OUT_LEN],
            done: [[0; 256]; 2],
            count: [0; 256],
            flaw: [0; 8],
            not_run: [0; 3],
        }
    }

    /// Groups and pairs compared.
    pub const fn total(&self) -> u64 {
        self.groups + self.pairs
    }

    /// Counts a trace that was not run.
    pub fn count_not_run(&mut self, flaw: Flaw) {
        self.not_run[flaw as usize] += 1;
    }
}

impl Default for Tally {
    fn default() -> Self {
        Self::new()
    }
}

/// The index of a kind of move.
pub const fn move_index(slave: bool, receive: bool, buffered: bool) -> usize {
    4 * slave as usize + 2 * receive as usize + buffered as usize
}
