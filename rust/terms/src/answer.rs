//! What a job is answered.

use core::fmt;

/// What a job is answered.
#[derive(Clone, Copy, Debug, PartialEq, Eq, Hash)]
#[must_use]
pub enum Answer {
    /// Done, after own STOP.
    Done,
    /// The job itself is wrong. Nothing was done.
    Malformed,
    /// The controller is not ready for a job. Nothing was done.
    NotReady,
    /// The address was not acknowledged; after own STOP.
    AddressNacked,
    /// A data byte was not acknowledged; after own STOP.
    DataNacked,
    /// Arbitration was lost. The controller then stays at status 38h until another's STOP, a
    /// time-out, a reset or ENSIO 0.
    Lost,
    /// A bus fault: status 00h, 70h or 78h.
    Fault,
    /// The script ended first; or, of the port, the job was given up.
    Unfinished,
    /// The controller refused an event of the script. No port is answered so.
    Refused,
    /// The controller was reset.
    Reset,
}

impl Answer {
    /// All ten, by their numbers: 0, then 21 on.
    pub const ALL: [Answer; 10] = [
        Answer::Done,
        Answer::Malformed,
        Answer::NotReady,
        Answer::AddressNacked,
        Answer::DataNacked,
        Answer::Lost,
        Answer::Fault,
        Answer::Unfinished,
        Answer::Refused,
        Answer::Reset,
    ];

    /// The number of the answer: 0 for done, else 21 to 29.
    #[must_use]
    pub const fn number(self) -> u8 {
        match self {
            Answer::Done => 0,
            other => 20 + other as u8,
        }
    }

    /// The answer of that number.
    #[must_use]
    pub const fn from_number(number: u8) -> Option<Self> {
        match number {
            0 => Some(Answer::Done),
            21..=29 => Some(Self::ALL[number as usize - 20]),
            _ => None,
        }
    }

    /// The answer in the words of `perlovasta_terms.h`.
    #[must_use]
    pub const fn words(self) -> &'static str {
        match self {
            Answer::Done => "done",
            Answer::Malformed => "the job's count, address, lengths or script are wrong",
            Answer::NotReady => "the controller is not ready",
            Answer::AddressNacked => "the reader did not answer its address",
            Answer::DataNacked => "the reader did not take a data byte",
            Answer::Lost => "arbitration was lost to another master",
            Answer::Fault => "bus fault",
            Answer::Unfinished => "the script ended first",
            Answer::Refused => "the controller refused an event",
            Answer::Reset => "the controller was reset",
        }
    }
}

/// In its [words](Answer::words).
impl fmt::Display for Answer {
    fn fmt(&self, f: &mut fmt::Formatter<'_>) -> fmt::Result {
        f.write_str(self.words())
    }
}

#[cfg(test)]
mod tests {
    use super::Answer;
    use std::string::ToString;

    #[test]
    fn numbers_go_both_ways() {
        for number in 0..=u8::MAX {
            let answer = Answer::from_number(number);
            assert_eq!(answer.is_some(), matches!(number, 0 | 21..=29));
            assert!(answer.is_none_or(|answer| answer.number() == number));
        }
        for answer in Answer::ALL {
            assert_eq!(Answer::from_number(answer.number()), Some(answer));
        }
    }

    #[test]
    fn words() {
        assert_eq!(Answer::Done.to_string(), "done");
        assert_eq!(Answer::Fault.to_string(), "bus fault");
    }
}
