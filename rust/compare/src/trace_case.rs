//! Random traces, good and bad, and what the log holds before.

use crate::group::Group;
use crate::random::Random;
use crate::reference::step;
use crate::steer::Steering;
use model::Controller;
use perlovasta::ENTRY_LEN;

/// The most groups of a random trace.
const LONGEST: usize = 600;

/// A trace, and the log as it is lent.
#[derive(Clone, Debug)]
pub struct TraceCase {
    /// The trace.
    pub trace: Vec<u8>,
    /// The log before the call.
    pub log: Vec<u8>,
}

/// What is wrong with a trace.
#[derive(Clone, Copy, Debug, PartialEq, Eq)]
pub enum Flaw {
    /// A group is cut short.
    Length,
    /// A group's kind is over 2.
    Kind,
    /// The log is too short.
    Log,
}

/// Groups steered by the model, so many of them.
pub fn steered(random: &mut Random, groups: usize, noise: usize) -> Vec<Group> {
    let mut controller = Controller::fresh();
    let mut steering = Steering::new(noise);
    let mut trace = Vec::with_capacity(groups);
    for _ in 0..groups {
        let group = steering.next(&controller, random);
        // A refused one is part of the trace as well.
        let _ = step(&mut controller, group);
        trace.push(group);
    }
    trace
}

impl TraceCase {
    /// A trace that is run, with a log that is long enough.
    pub fn random(random: &mut Random) -> Self {
        let groups = random.below(LONGEST + 1);
        let noise = random.pick(&[2, 5, 10, 30]);
        let trace = steered(random, groups, noise);
        let longer = random.pick(&[0, 0, 1, 7, 8, 20]);
        TraceCase {
            trace: trace.into_flattened(),
            log: random.bytes(ENTRY_LEN * groups + longer),
        }
    }

    /// A trace that must not be run, for this one reason.
    pub fn flawed(random: &mut Random, flaw: Flaw) -> Self {
        let groups = 1 + random.below(20);
        let mut trace = steered(random, groups, 5).into_flattened();
        let mut log = random.bytes(ENTRY_LEN * groups);
        match flaw {
            Flaw::Length => trace.truncate(trace.len() - 1 - random.below(2)),
            Flaw::Kind => trace[3 * random.below(groups)] = 3 + random.below(253) as u8,
            Flaw::Log => log.truncate(random.below(ENTRY_LEN * groups)),
        }
        TraceCase { trace, log }
    }
}
