//! Ever longer jobs and traces: what a pair or a group costs, and what memory is taken.
//!
//! All inputs and logs lie in one buffer, written in full before the first call: whatever a long
//! call took beside it would show in the peak memory of the process.

use crate::group::{CONTROL, DATA, Group, event, read, write};
use crate::memory;
use crate::row::{Call, Expected, Row};
use crate::rows;
use crate::timing::Times;
use perlovasta::{ENTRY_LEN, GROUP_LEN, REPORT_LEN};

/// The most pairs that a job waits through.
const PAIRS: usize = 10_000_000;
/// The most groups of a trace.
const GROUPS: usize = 1_000_000;

/// Runs of each line; the least time of all is shown.
pub const RUNS: usize = 5;

/// A read of one byte by register accesses, all accepted; it leaves the bus free, as it begins.
const READ: [Group; 10] = [
    write(CONTROL, 0x60),
    event([1, 0]),
    write(DATA, 0xA1),
    write(CONTROL, 0x40),
    event([6, 0]),
    write(CONTROL, 0x40),
    event([7, 0x5C]),
    read(DATA),
    write(CONTROL, 0x50),
    event([4, 0]),
];

/// What one length costs.
#[derive(Clone, Copy, Debug)]
pub struct Line {
    /// What there are so many of.
    pub name: &'static str,
    /// The pairs or groups.
    pub pieces: usize,
    /// The times of one of them.
    pub times: Times,
    /// The peak memory of the process, less the buffer, in kB.
    pub memory: usize,
}

/// The one buffer: the longest script, or the longest trace with the logs of both sides.
pub fn buffer() -> Vec<u8> {
    let script = 2 * PAIRS + rows::read(8).len();
    vec![0; script.max((GROUP_LEN + 2 * ENTRY_LEN) * GROUPS)]
}

/// A read of 8 that first waits through 10^2 to 10^7 pairs, whole rounds of them. What the read
/// takes without them is taken off.
pub fn waiting(name: &'static str, round: &[u8], buffer: &mut [u8], show: fn(Line)) {
    let read = rows::read(8);
    let (before, last) = buffer.split_at_mut(buffer.len() - read.len());
    last.copy_from_slice(&read);
    for place in before.rchunks_exact_mut(round.len()) {
        place.copy_from_slice(round);
    }
    let times = |pairs: usize| {
        let script = &buffer[buffer.len() - read.len() - 2 * pairs..];
        let row = Row::new(name, Call::Read(8), script, Expected::Answer(0));
        row.times(RUNS, &mut [0; 2 * REPORT_LEN])
    };
    let alone = times(0);
    for most in lengths(PAIRS) {
        let pairs = most - most % (round.len() / 2);
        let all = times(pairs);
        let waited = Times {
            library: all.library - alone.library,
            model: all.model - alone.model,
        };
        show(line(name, pairs, waited, buffer.len()));
    }
}

/// A trace of 10^2 to 10^6 groups.
pub fn traces(name: &'static str, buffer: &mut [u8], show: fn(Line)) {
    let lent = buffer.len();
    let (trace, logs) = buffer.split_at_mut(GROUP_LEN * GROUPS);
    for (place, group) in trace.as_chunks_mut().0.iter_mut().zip(READ.iter().cycle()) {
        *place = *group;
    }
    for groups in lengths(GROUPS) {
        let trace = &trace[..GROUP_LEN * groups];
        let row = Row::new(name, Call::Trace, trace, Expected::Refusal(0));
        show(line(name, groups, row.times(RUNS, logs), lent));
    }
}

/// 10^2 and so on.
fn lengths(most: usize) -> impl Iterator<Item = usize> {
    let powers = (2..).map(|power| 10_usize.pow(power));
    powers.take_while(move |&length| length <= most)
}

/// The line for a call that takes this long, with so many bytes in the buffer.
fn line(name: &'static str, pieces: usize, call: Times, lent: usize) -> Line {
    Line {
        name,
        pieces,
        times: Times {
            library: call.library / pieces as f64,
            model: call.model / pieces as f64,
        },
        memory: memory::peak().saturating_sub(lent / 1024),
    }
}
