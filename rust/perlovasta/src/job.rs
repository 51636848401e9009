//! Jobs as the library takes them, and what it told.

use crate::{Address, Answer, Argument, Bytes, Event, JobError, OUT_LEN, PLACES, REPORT_LEN};
use crate::{Refusal, sys};
use alloc::vec::Vec;

/// The bytes that a job sent, the address byte first.
type Sent = Bytes<OUT_LEN>;

/// Kinds of a job.
const WRITE: u8 = 0;
const READ: u8 = 1;
/// A number of data bytes that no job has, for all that are more than a byte can tell.
const TOO_MANY: u8 = u8::MAX;

/// A job.
pub(crate) struct Job<'a> {
    kind: u8,
    address: Address,
    n: u8,
    data: &'a [u8],
    script: Vec<u8>,
    /// What is wrong if it is answered 21: nothing else can be.
    doubtful: Argument,
}

/// What a job that is done hands back.
pub(crate) struct Done {
    pub(crate) bytes: Bytes,
    pub(crate) sent: Sent,
    pub(crate) events: usize,
}

/// What the library wrote.
struct Lent {
    destination: [u8; PLACES],
    out: [u8; OUT_LEN],
    report: [u8; REPORT_LEN],
}

impl<'a> Job<'a> {
    /// A read of so many bytes.
    pub(crate) fn read(address: Address, n: usize, script: &[Event]) -> Self {
        Job {
            kind: READ,
            address,
            n: u8::try_from(n).unwrap_or(TOO_MANY),
            data: &[],
            script: pairs(script),
            doubtful: Argument::Count(n),
        }
    }

    /// A write of these bytes.
    pub(crate) fn write(address: Address, data: &'a [u8], script: &[Event]) -> Self {
        Job {
            kind: WRITE,
            address,
            n: u8::try_from(data.len()).unwrap_or(TOO_MANY),
            data,
            script: pairs(script),
            doubtful: Argument::Data(data.len()),
        }
    }

    /// Runs it on a fresh controller that is enabled.
    pub(crate) fn run(&self) -> Result<Done, JobError> {
        let mut lent = Lent::new();
        let answer = sys::job(
            self.kind,
            self.address.number(),
            self.n,
            self.data,
            &mut lent.destination,
            &mut lent.out,
            &self.script,
            &mut lent.report,
        );
        self.told(answer, lent)
    }

    /// Runs it on the controller in these bytes.
    pub(crate) fn run_on(&self, chip: &mut [u8]) -> Result<Done, JobError> {
        let mut lent = Lent::new();
        let answer = sys::chip_job(
            chip,
            self.kind,
            self.address.number(),
            self.n,
            self.data,
            &mut lent.destination,
            &mut lent.out,
            &self.script,
            &mut lent.report,
        );
        self.told(answer, lent)
    }

    /// What came of it.
    ///
    /// # Panics
    ///
    /// For numbers that no job is answered with; the library is proved not to give them.
    fn told(&self, answer: u8, lent: Lent) -> Result<Done, JobError> {
        let [number, beside, count, sent, events @ ..] = lent.report;
        assert_eq!(answer, number, "the answer is the report's first byte");
        let answer = Answer::from_number(number);
        let answer = answer.unwrap_or_else(|| panic!("no job is answered {number}"));
        let sent = Sent::first(lent.out, usize::from(sent));
        let events = usize::try_from(u64::from_le_bytes(events)).expect("pairs of a slice fit");
        if answer == Answer::Done {
            // A write hands no bytes up.
            let handed = if self.kind == READ { count } else { 0 };
            let bytes = Bytes::first(lent.destination, usize::from(handed));
            return Ok(Done {
                bytes,
                sent,
                events,
            });
        }
        Err(JobError {
            answer,
            argument: (answer == Answer::Malformed).then_some(self.doubtful),
            refusal: Refusal::from_number(beside),
            moved: count,
            sent,
            events,
        })
    }
}

impl Lent {
    const fn new() -> Self {
        Lent {
            destination: [0; PLACES],
            out: [0; OUT_LEN],
            report: [0; REPORT_LEN],
        }
    }
}

fn pairs(script: &[Event]) -> Vec<u8> {
    script.iter().flat_map(|event| event.pair()).collect()
}

#[cfg(test)]
mod tests {
    use super::{Job, Lent};
    use crate::{Address, Answer};

    fn lent(report: [u8; 12]) -> Lent {
        Lent {
            report,
            ..Lent::new()
        }
    }

    #[test]
    fn low_byte_comes_first() {
        let job = Job::read(Address::FIRST, 1, &[]);
        let report = [24, 0, 5, 6, 0x34, 0x12, 0, 0, 0, 0, 0, 0];
        let error = job.told(24, lent(report)).err().unwrap();
        assert_eq!((error.answer(), error.moved()), (Answer::DataNacked, 5));
        assert_eq!((error.sent(), error.events()), (&[0; 6][..], 0x1234));
    }

    #[test]
    #[should_panic(expected = "no job is answered 20")]
    fn unknown_number() {
        let job = Job::read(Address::FIRST, 1, &[]);
        let _ = job.told(20, lent([20, 0, 0, 0, 0, 0, 0, 0, 0, 0, 0, 0]));
    }
}
