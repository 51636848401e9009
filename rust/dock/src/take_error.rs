//! Why there are no bytes to take.

use crate::{Answer, port_words};
use core::error::Error;
use core::fmt;

/// Why there are no bytes to take.
#[derive(Clone, Copy, Debug, PartialEq, Eq, Hash)]
pub struct TakeError(Answer);

impl TakeError {
    pub(crate) const fn new(answer: Answer) -> Self {
        TakeError(answer)
    }

    /// [`Answer::Unfinished`] if it is not over; else the answer, if that is not [`Answer::Done`];
    /// else [`Answer::Malformed`]. So never [`Answer::Done`].
    pub const fn answer(self) -> Answer {
        self.0
    }
}

impl fmt::Display for TakeError {
    fn fmt(&self, f: &mut fmt::Formatter<'_>) -> fmt::Result {
        f.write_str(match self.0 {
            Answer::Malformed => {
                "no bytes to take: the job was wrong or no read, or they were taken before"
            }
            Answer::Unfinished => "no bytes to take: it is not over, or was given up",
            answer => port_words(answer),
        })
    }
}

impl Error for TakeError {}
