//! How often each thing occurred that a comparison of the port has to reach.

mod lists;
mod states;

use super::any_state::LONGEST;
use super::rule::Unready;
use perlovasta::PLACES;

/// Kinds of job: write and read.
const KINDS: usize = 2;
/// Answers have numbers below this.
const ANSWERS: usize = 30;
/// Turns have numbers below this.
const TURNS: usize = 32;
/// Kinds of step.
pub const STEPS: usize = 5;

/// Counts of jobs by kind and answer.
pub type Answers = [[u64; ANSWERS]; KINDS];

/// The counts of one run.
#[derive(Clone, Debug)]
pub struct Tally {
    /// Lists.
    pub lists: u64,
    /// Jobs on them.
    pub jobs: u64,
    /// Pairs that those took.
    pub pairs: u64,
    /// Recoveries on them, run to their end.
    pub recoveries: u64,
    /// Answers of jobs on lists; 22 of the chip alone.
    pub answer: Answers,
    /// 22 of the state, by kind of job.
    pub not_ready: [u64; KINDS],
    /// 22 of the state, by [`Unready::index`].
    pub unready: [u64; Unready::KINDS],
    /// Statuses that stopped the chip when it was not ready; those of ENSIO 0 at F8h.
    pub chip_at: [u64; 256],
    /// Numbers beside 28.
    pub beside: [u64; 11],
    /// 26, by status.
    pub fault: [u64; 256],
    /// Jobs done, by kind and n.
    pub done: [[u64; PLACES + 1]; KINDS],
    /// 24, by count.
    pub nacked: [u64; PLACES + 1],
    /// Wrong jobs, in the order of `asked::Flaw`.
    pub wrong_job: [u64; 4],
    /// Jobs begun after others' traffic, by turn.
    pub traffic_in: [u64; TURNS],
    /// Their answers.
    pub traffic: Answers,
    /// Those that had more than one pair of it.
    pub long_traffic: u64,
    /// Those whose START came because the bus fell idle, event 13.
    pub idle_traffic: u64,
    /// Answers of jobs that were compared with `perlovasta_job` too.
    pub fresh: [u64; ANSWERS],
    /// Looks though nothing had come, by turn.
    pub polls: [u64; TURNS],
    /// Events without a status after which it was not looked.
    pub unseen: u64,
    /// Recoveries by the turn before.
    pub recovery_in: [u64; TURNS],
    /// Recoveries by the number of settings.
    pub settings: [u64; 7],
    /// Wrong settings, in the order of `settings::Flaw`.
    pub wrong_settings: [u64; 3],
    /// What was left under way, in the order of `item::Way`.
    pub left: [u64; 5],
    /// Jobs on a chip that lies.
    pub lies: u64,
    /// Exchanges in them.
    pub exchanges: u64,
    /// Their answers; 0 of a wrong job is none.
    pub lied: Answers,
    /// Those that were not over in time.
    pub endless: u64,
    /// Reads done on a chip that lies, by n.
    pub lied_done: [u64; PLACES + 1],
    /// Those with as many accesses without a rest as there may be.
    pub full_bursts: u64,
    /// Given up at each kind of step.
    pub given_up: [u64; STEPS],
    /// States of any content, by length.
    pub states: [u64; LONGEST + 1],
    /// Where those of enough length said that they stood: their next step by kind.
    pub stood: [u64; STEPS],
    /// Jobs that began in one of them.
    pub begun_anywhere: u64,
}

impl Tally {
    /// All at 0.
    pub const fn new() -> Self {
        Tally {
            lists: 0,
            jobs: 0,
            pairs: 0,
            recoveries: 0,
            answer: [[0; ANSWERS]; KINDS],
            not_ready: [0; KINDS],
            unready: [0; Unready::KINDS],
            chip_at: [0; 256],
            beside: [0; 11],
            fault: [0; 256],
            done: [[0; PLACES + 1]; KINDS],
            nacked: [0; PLACES + 1],
            wrong_job: [0; 4],
            traffic_in: [0; TURNS],
            traffic: [[0; ANSWERS]; KINDS],
            long_traffic: 0,
            idle_traffic: 0,
            fresh: [0; ANSWERS],
            polls: [0; TURNS],
            unseen: 0,
            recovery_in: [0; TURNS],
            settings: [0; 7],
            wrong_settings: [0; 3],
            left: [0; 5],
            lies: 0,
            exchanges: 0,
            lied: [[0; ANSWERS]; KINDS],
            endless: 0,
            lied_done: [0; PLACES + 1],
            full_bursts: 0,
            given_up: [0; STEPS],
            states: [0; LONGEST + 1],
            stood: [0; STEPS],
            begun_anywhere: 0,
        }
    }
}

impl Default for Tally {
    fn default() -> Self {
        Self::new()
    }
}
