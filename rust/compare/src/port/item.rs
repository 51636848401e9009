//! What was done on a list, to be told where something is wrong.

use super::asked::Asked;
use crate::difference::hex;
use std::fmt;

/// One thing on a list.
#[derive(Clone, Debug)]
pub enum Item {
    /// A job with its script.
    Job {
        /// The job.
        job: Asked,
        /// The pairs that were given.
        pairs: Vec<[u8; 2]>,
    },
    /// A job or a recovery that is not run to its end.
    Left {
        /// The job, or none for a recovery.
        job: Option<Asked>,
        /// The pairs that were given.
        pairs: Vec<[u8; 2]>,
        /// After so many steps.
        steps: usize,
        /// What came then.
        by: Way,
    },
    /// A recovery.
    Recovery {
        /// Its settings.
        settings: Vec<u8>,
    },
    /// A pair between jobs.
    Event {
        /// The event and its argument.
        pair: [u8; 2],
    },
}

/// What comes while something is under way.
#[derive(Clone, Copy, Debug, PartialEq, Eq)]
pub enum Way {
    /// It is given up.
    GiveUp,
    /// A job is begun.
    Start,
    /// A job is begun that is itself wrong.
    WrongStart,
    /// A recovery is begun with settings that are wrong.
    WrongRecovery,
    /// A recovery is begun, and run to its end.
    Recovery,
}

impl Way {
    /// All of them.
    pub const ALL: [Way; 5] = [
        Way::GiveUp,
        Way::Start,
        Way::WrongStart,
        Way::WrongRecovery,
        Way::Recovery,
    ];
}

impl fmt::Display for Item {
    fn fmt(&self, f: &mut fmt::Formatter<'_>) -> fmt::Result {
        match self {
            Item::Job { job, pairs } => write!(f, "job of {job}; script {}", hex_pairs(pairs)),
            Item::Left {
                job,
                pairs,
                steps,
                by,
            } => {
                match job {
                    Some(job) => write!(f, "job of {job}")?,
                    None => write!(f, "recovery")?,
                }
                let script = hex_pairs(pairs);
                write!(f, "; script {script}; left after {steps} steps by {by:?}")
            }
            Item::Recovery { settings } => write!(f, "recovery with {}", hex(settings)),
            Item::Event { pair } => write!(f, "event {}", hex(pair)),
        }
    }
}

fn hex_pairs(pairs: &[[u8; 2]]) -> String {
    hex(pairs.as_flattened())
}
