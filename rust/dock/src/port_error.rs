//! Why a job or a recovery is not done.

use crate::{Answer, Argument, port_words};
use core::error::Error;
use core::fmt;

/// Why a job or a recovery is not done; `E` is how the board can fail.
#[derive(Clone, Copy, Debug, PartialEq, Eq, Hash)]
pub enum PortError<E> {
    /// The job itself is wrong. No access was made.
    Malformed(Argument),
    /// It ended with this answer, which is neither [`Answer::Done`] nor [`Answer::Malformed`].
    Answered {
        /// The answer. After [`NotReady`](Answer::NotReady) for long, [`Fault`](Answer::Fault),
        /// [`Unfinished`](Answer::Unfinished) and [`Reset`](Answer::Reset) a recovery is next.
        answer: Answer,
        /// For [`Answer::DataNacked`] the data bytes moved, with the one not acknowledged, as the
        /// board's counter at pointer 07h has it (a bare chip has none); else 0.
        moved: u8,
    },
    /// The board could not do what it was asked for. The job was given up, and a recovery is next.
    Board(E),
}

impl<E> PortError<E> {
    /// The answer; what the board could not do leaves a job [unfinished](Answer::Unfinished).
    pub fn answer(&self) -> Answer {
        match *self {
            PortError::Malformed(_) => Answer::Malformed,
            PortError::Answered { answer, .. } => answer,
            PortError::Board(_) => Answer::Unfinished,
        }
    }
}

impl<E: fmt::Display> fmt::Display for PortError<E> {
    fn fmt(&self, f: &mut fmt::Formatter<'_>) -> fmt::Result {
        match self {
            PortError::Malformed(argument) => fmt::Display::fmt(argument, f),
            PortError::Answered { answer, .. } => f.write_str(port_words(*answer)),
            PortError::Board(error) => write!(f, "the board failed: {error}"),
        }
    }
}

impl<E: Error + 'static> Error for PortError<E> {
    /// The board's error, which the words have in them too.
    fn source(&self) -> Option<&(dyn Error + 'static)> {
        match self {
            PortError::Board(error) => Some(error),
            _ => None,
        }
    }
}
