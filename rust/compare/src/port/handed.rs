//! What `perlovasta_take` hands up, and that it writes nothing else.

use super::Checked;
use super::answer::{DONE, GIVEN_UP, MALFORMED, REFUSED, check_over};
use super::asked::Asked;
use super::lent::Lent;
use crate::random::Random;
use perlovasta::PLACES;

/// In the destination before, to see what was written.
const UNTOUCHED: u8 = 0xEE;
/// A job of a kind that there is not.
const NO_JOB: Asked = Asked {
    kind: 2,
    address: 0,
    n: 0,
    data: Vec::new(),
};
/// Bytes after the destination, which are not lent.
const GUARD: usize = 16;

/// Takes the bytes of a read of `n` into a destination of this length: those bytes, or why not. Any
/// other byte has to stay.
pub fn take(lent: &mut Lent, length: usize, n: u8) -> Checked<Result<Vec<u8>, u8>> {
    let mut bytes = vec![UNTOUCHED; length + GUARD];
    let why_not = lent.take(&mut bytes[..length])?;
    let n = if why_not == 0 { usize::from(n) } else { 0 };
    if n > length {
        return Err(format!("{n} bytes taken into a destination of {length}"));
    }
    let rest = bytes.split_off(n);
    if rest.iter().any(|&byte| byte != UNTOUCHED) {
        return Err(format!("take gave {why_not}, and wrote beyond {n} bytes"));
    }
    Ok(if why_not == 0 {
        Ok(bytes)
    } else {
        Err(why_not)
    })
}

/// The bytes handed up after a job with this answer. A job that is not done says why; one that is,
/// but no read, says 21, and so does a destination that is too short.
pub fn after_job(
    lent: &mut Lent,
    job: &Asked,
    answer: u8,
    random: &mut Random,
) -> Checked<Vec<u8>> {
    let n = usize::from(job.n);
    let why_not = match answer {
        DONE if job.is_read() => {
            expect(take(lent, n - 1, job.n)?, MALFORMED)?;
            let length = random.pick(&[n, PLACES, PLACES + 1]);
            return take_once(lent, job, length);
        }
        DONE => MALFORMED,
        REFUSED => GIVEN_UP,
        answer => answer,
    };
    let length = random.pick(&[n, PLACES]);
    expect(take(lent, length, job.n)?, why_not)?;
    Ok(Vec::new())
}

/// The bytes of a finished read, which can be taken once. Those of a read of an odd number are
/// taken from a copy, so that a job also comes after bytes that nobody took.
fn take_once(lent: &mut Lent, job: &Asked, length: usize) -> Checked<Vec<u8>> {
    let mut copy = lent.clone();
    let from = if job.n.is_multiple_of(2) {
        lent
    } else {
        &mut copy
    };
    let mut other = from.clone();
    let taken = take(from, length, job.n)?;
    let bytes = taken.map_err(|why_not| format!("take gave {why_not} after a finished read"))?;
    expect(take(from, PLACES, job.n)?, MALFORMED)?;
    // A job of no kind leaves nothing of the one before either.
    check_over(other.start(&NO_JOB)?, MALFORMED, "a job of no kind")?;
    if from.content() == other.content() {
        Ok(bytes)
    } else {
        Err("bytes that were taken show in the state".to_owned())
    }
}

/// Nothing may be taken, for this reason.
pub fn expect(taken: Result<Vec<u8>, u8>, why_not: u8) -> Checked<()> {
    match taken {
        Err(given) if given == why_not => Ok(()),
        Err(given) => Err(format!("take gave {given}, not {why_not}")),
        Ok(_) => Err(format!("take gave 0, not {why_not}")),
    }
}
