//! What the bus does in one job, chosen pair by pair from where the controller stands.

use crate::random::Random;
use crate::steer::pair;
use model::{Controller, Turn};

/// The most pairs of a script.
const LONGEST: usize = 120;

/// A script that is made as it goes.
#[derive(Clone, Debug)]
pub struct Bus {
    /// How many events in a hundred do not carry on what is under way.
    noise: usize,
    /// The script ends after so many pairs.
    most: usize,
    /// The data byte of this number, from 1, is not acknowledged.
    nack: Option<u8>,
    /// How many waits in a hundred are polls: nothing has come, and it is looked all the same.
    pub polls: usize,
    /// How many events in a hundred that give no status are not looked at: the board waits for the
    /// chip's interrupt.
    pub late: usize,
    /// The pairs given so far, one that was refused last.
    pub pairs: Vec<[u8; 2]>,
}

impl Bus {
    /// A bus on which a job of n bytes mostly comes to an answer.
    pub fn random(random: &mut Random, n: u8) -> Self {
        // A few scripts end early whatever happens.
        let early = random.below(80);
        Bus {
            noise: random.pick(&[0, 1, 1, 5, 20]),
            most: random.pick(&[LONGEST, LONGEST, LONGEST, early]),
            // The last one seldom comes about by itself.
            nack: random.percent(5).then_some(n),
            polls: random.pick(&[0, 0, 40]),
            late: random.pick(&[0, 0, 60, 100]),
            pairs: Vec::new(),
        }
    }

    /// A bus on which nothing happens.
    pub const fn silent() -> Self {
        Bus {
            noise: 0,
            most: 0,
            nack: None,
            polls: 0,
            late: 0,
            pairs: Vec::new(),
        }
    }

    /// The next pair for this controller, unless the script has ended.
    pub fn next(&mut self, controller: &Controller, random: &mut Random) -> Option<[u8; 2]> {
        if self.pairs.len() >= self.most {
            return None;
        }
        let is_last = self.nack == Some(controller.moved() + 1);
        let pair = match controller.turn() {
            Turn::Send if is_last => pair::NACKED,
            _ => pair::next(controller, random, self.noise),
        };
        self.pairs.push(pair);
        Some(pair)
    }
}

/// A pair while no job is under way: other masters' traffic mostly, and faults and resets seldom.
pub fn between_jobs(controller: &Controller, random: &mut Random) -> [u8; 2] {
    match random.below(20) {
        0 => [pair::SCL_LOW, 0],
        1 => [pair::RESET, 0],
        2 => pair::any(random),
        3..10 => pair::next(controller, random, 10),
        _ => {
            // Another's START or STOP, an address byte, an illegal edge.
            let event = random.pick(&[2, 3, 5, 10]);
            let argument = if event == 5 { random.byte() } else { 0 };
            [event, argument]
        }
    }
}
