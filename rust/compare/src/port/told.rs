//! What a job tells, whoever runs it.

use super::Checked;
use crate::difference::hex;
use std::fmt;

/// What a job tells beside the controller that it leaves.
#[derive(Clone, Debug, PartialEq, Eq)]
pub struct Told {
    /// The answer.
    pub answer: u8,
    /// For 28 the refusal's number, else 0.
    pub beside: u8,
    /// The count.
    pub count: u8,
    /// The pairs taken.
    pub events: usize,
    /// The bytes sent.
    pub sent: Vec<u8>,
    /// The bytes handed up.
    pub handed: Vec<u8>,
}

impl Told {
    /// Of a job that was not begun.
    pub const fn refused(answer: u8) -> Self {
        Told {
            answer,
            beside: 0,
            count: 0,
            events: 0,
            sent: Vec::new(),
            handed: Vec::new(),
        }
    }

    /// Whether it is what another tells of the same job.
    pub fn check(&self, other: &Self, whose: &str) -> Checked<()> {
        if self == other {
            Ok(())
        } else {
            Err(format!("the port: {self}\n{whose}: {other}"))
        }
    }
}

impl fmt::Display for Told {
    fn fmt(&self, f: &mut fmt::Formatter<'_>) -> fmt::Result {
        let Told {
            answer,
            beside,
            count,
            events,
            sent,
            handed,
        } = self;
        write!(
            f,
            "answer {answer} beside {beside} count {count} events {events}, out [{}], in [{}]",
            hex(sent),
            hex(handed)
        )
    }
}
