//! What is wrong with a job that is answered 21.

use crate::PLACES;
use core::fmt;

/// The argument that is wrong, where a job is [malformed](crate::Answer::Malformed).
#[derive(Clone, Copy, Debug, PartialEq, Eq, Hash)]
pub enum Argument {
    /// The number of bytes to be read is not 1 to 68.
    Count(usize),
    /// The number of data bytes to be written is not 1 to 68.
    Data(usize),
    /// The number of settings is over six.
    Settings(usize),
}

impl fmt::Display for Argument {
    fn fmt(&self, f: &mut fmt::Formatter<'_>) -> fmt::Result {
        match self {
            Argument::Count(n) => write!(f, "a read is of 1 to {PLACES} bytes, not of {n}"),
            Argument::Data(n) => write!(f, "a write is of 1 to {PLACES} data bytes, not of {n}"),
            Argument::Settings(n) => write!(f, "a recovery takes six settings at most, not {n}"),
        }
    }
}
