//! Why a job is not done.

use crate::{Answer, Argument, Bytes, OUT_LEN, Refusal};
use core::error::Error;
use core::fmt;

/// Why a job is not done, and what went out nevertheless.
#[derive(Clone, Debug, PartialEq, Eq)]
pub struct JobError {
    pub(crate) answer: Answer,
    pub(crate) argument: Option<Argument>,
    pub(crate) refusal: Option<Refusal>,
    pub(crate) moved: u8,
    pub(crate) sent: Bytes<OUT_LEN>,
    pub(crate) events: usize,
}

impl JobError {
    /// The answer, which is never [`Answer::Done`].
    pub fn answer(&self) -> Answer {
        self.answer
    }

    /// What is wrong with the job, exactly for [`Answer::Malformed`].
    #[must_use]
    pub fn argument(&self) -> Option<Argument> {
        self.argument
    }

    /// Why the event was refused, exactly for [`Answer::Refused`].
    #[must_use]
    pub fn refusal(&self) -> Option<Refusal> {
        self.refusal
    }

    /// For [`Answer::DataNacked`] the data bytes moved, with the one not acknowledged; else 0.
    #[must_use]
    pub fn moved(&self) -> u8 {
        self.moved
    }

    /// The bytes sent, the address byte first.
    #[must_use]
    pub fn sent(&self) -> &[u8] {
        &self.sent
    }

    /// The events taken; a refused one is not counted.
    #[must_use]
    pub fn events(&self) -> usize {
        self.events
    }
}

impl fmt::Display for JobError {
    fn fmt(&self, f: &mut fmt::Formatter<'_>) -> fmt::Result {
        match (self.answer, self.argument, self.refusal) {
            (_, Some(argument), _) => fmt::Display::fmt(&argument, f),
            (answer, _, Some(refusal)) => write!(f, "{answer}: {refusal}"),
            (answer, ..) => fmt::Display::fmt(&answer, f),
        }
    }
}

impl Error for JobError {
    /// Why the event was refused, which the words have in them too.
    fn source(&self) -> Option<&(dyn Error + 'static)> {
        self.refusal.as_ref().map(|refusal| refusal as _)
    }
}
