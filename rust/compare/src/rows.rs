//! The rows of the benchmark.
//!
//! Library and model are called alike, by [`side`](crate::side). What the library's side of a job
//! has to do for the call itself is in every row of a job, and alone in the last row, so that it
//! can be taken off.

use crate::group::{self, CONTROL, Group, event, write};
use crate::random::Random;
use crate::row::{Call, Expected, Row};
use crate::trace_case::steered;

/// Register 0 when read: I2CSTA.
const STATUS: u8 = 0;
/// The groups of a trace that is timed.
const GROUPS: usize = 8192;

/// Another master's START, an address byte that is not the controller's, the master's STOP.
pub const TRAFFIC: [u8; 6] = [2, 0, 5, 0x20, 3, 0];
/// A START or STOP at an illegal place, which changes nothing while the bus is free.
pub const ILLEGAL_EDGE: [u8; 2] = [10, 0];

/// All rows.
pub fn rows() -> Vec<Row<'static>> {
    let rows = [jobs(), jobs_that_wait(), traces(), on_a_chip()];
    [rows.concat(), vec![bare()]].concat()
}

fn jobs() -> Vec<Row<'static>> {
    let write = script([6, 0], 68);
    // Own STOP, where own START is expected.
    let unexpected = vec![4, 0];
    let (done, refused) = (Expected::Answer(0), Expected::Answer(28));
    vec![
        Row::new("read of 8", Call::Read(8), read(8), done),
        Row::new("read of 68", Call::Read(68), read(68), done),
        Row::new("write of 68", Call::Write(68), write, done),
        Row::new(
            "job with first event refused",
            Call::Read(8),
            unexpected,
            refused,
        ),
    ]
}

/// A thousand pairs, as near as whole rounds come, before the job's own START.
fn jobs_that_wait() -> Vec<Row<'static>> {
    let after = |name, round: &[u8], times| {
        let script = [round.repeat(times), read(8)].concat();
        Row::new(name, Call::Read(8), script, Expected::Answer(0))
    };
    vec![
        after("read of 8 after 999 pairs of another master", &TRAFFIC, 333),
        after(
            "read of 8 after 1000 pairs of event 10",
            &ILLEGAL_EDGE,
            1000,
        ),
    ]
}

fn traces() -> Vec<Row<'static>> {
    let trace = |name, groups: Vec<Group>, expected| {
        Row::new(name, Call::Trace, groups.into_flattened(), expected)
    };
    let mixed = steered(&mut Random::new(9665), GROUPS, 10);
    vec![
        trace("refused events, a trace", refused(), Expected::Refusal(8)),
        trace("mixed trace", mixed, Expected::Log),
    ]
}

/// On a virtual chip, whose record is read from its bytes and stored there at every call.
fn on_a_chip() -> Vec<Row<'static>> {
    let accesses = |name, groups: &[Group], refusal| {
        let expected = Expected::Reply(refusal);
        Row::new(name, Call::Accesses, groups.concat(), expected)
    };
    let (events, _) = TRAFFIC.as_chunks::<2>();
    let events: Vec<Group> = events.iter().map(|&pair| event(pair)).collect();
    let job = Call::ChipRead(8);
    vec![
        accesses("chip: I2CSTA read", &[group::read(STATUS)], 0),
        accesses("chip: I2CCON written", &[write(CONTROL, 0x40)], 0),
        accesses("chip: events of another master", &events, 0),
        accesses("chip: event refused", &[event([4, 0])], 8),
        Row::new("chip: read of 8", job, read(8), Expected::Answer(0)),
    ]
}

/// What the call itself takes, with nothing done.
fn bare() -> Row<'static> {
    let name = "bare call: a job whose report is too short";
    Row::new(name, Call::Read(8), vec![4, 0], Expected::Nothing)
}

/// The script of a read of so many bytes.
pub fn read(n: usize) -> Vec<u8> {
    script([7, 0x5C], n)
}

/// Own START, the address byte, n data bytes by this pair, own STOP.
fn script(pair: [u8; 2], n: usize) -> Vec<u8> {
    [&[1, 0, 6, 0], pair.repeat(n).as_slice(), &[4, 0]].concat()
}

/// Enabled, then events of which none is expected while the bus is free.
fn refused() -> Vec<Group> {
    let unexpected = [1, 3, 4, 5, 6, 7, 8, 9, 11, 13].map(|number| event([number, 0]));
    let events = unexpected.into_iter().cycle();
    let enabled = [write(CONTROL, 0x40)];
    enabled.into_iter().chain(events).take(GROUPS).collect()
}

#[cfg(test)]
mod tests {
    use super::on_a_chip;
    use crate::side::{LIBRARY, MODEL};

    #[test]
    fn a_chip_can_be_asked_again() {
        for row in on_a_chip() {
            row.calls(LIBRARY, 3);
            row.calls(MODEL, 3);
        }
    }
}
