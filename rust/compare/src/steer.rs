//! The next group of a trace, chosen by where the model stands: random bytes alone get nowhere.

pub mod control;
pub mod pair;
pub mod settings;

use crate::group::{self, CONTROL, DATA, Group, event, read, write};
use crate::random::Random;
use model::{Controller, Turn};
use std::collections::VecDeque;

/// The status while SI is 0.
const NO_STATUS: u8 = 0xF8;
/// The statuses at which I2CCON is locked.
const FAULTS: [u8; 3] = [0x00, 0x70, 0x78];
/// The statuses at which the address byte is to be sent.
const STARTED: [u8; 2] = [0x08, 0x10];
/// Arbitration lost: no write with ENSIO 1 ends it.
pub const LOST: u8 = 0x38;

/// Chooses the groups of one trace.
#[derive(Clone, Debug)]
pub struct Steering {
    /// What was begun and is not yet given, such as a pointer and then its register.
    pending: VecDeque<Group>,
    /// How many events in a hundred do not carry on what is under way.
    noise: usize,
}

impl Steering {
    /// For a trace with so much noise, in percent.
    pub fn new(noise: usize) -> Self {
        Steering {
            pending: VecDeque::new(),
            noise,
        }
    }

    /// The next group for this controller.
    pub fn next(&mut self, controller: &Controller, random: &mut Random) -> Group {
        if let Some(group) = self.pending.pop_front() {
            return group;
        }
        match random.below(100) {
            0 => group::any(random),
            1 => self.first_of(settings::software_reset(random)),
            2..4 => group::any_access(random),
            4..8 => self.first_of(settings::setting(random)),
            8..13 => read(random.below(4) as u8),
            _ => self.by_turn(controller, random),
        }
    }

    /// Gives the first of these groups now and keeps the others.
    fn first_of(&mut self, groups: Vec<Group>) -> Group {
        self.pending.extend(groups);
        self.pending.pop_front().expect("a sequence has a group")
    }

    fn by_turn(&mut self, controller: &Controller, random: &mut Random) -> Group {
        match controller.turn() {
            Turn::Host { status: LOST, .. } if random.percent(50) => {
                event(pair::next(controller, random, self.noise))
            }
            Turn::Host { status, .. } => self.serve(status, random),
            Turn::Off => self.switch_on(random),
            Turn::Free | Turn::Busy | Turn::Listen if random.percent(30) => {
                write(CONTROL, control::value(NO_STATUS, random))
            }
            // Statuses that come in no other way.
            Turn::Address if random.percent(25) => event(pair::lost(controller, random)),
            Turn::Address | Turn::Send if random.percent(self.noise) => event(pair::NACKED),
            _ => event(pair::next(controller, random, self.noise)),
        }
    }

    fn switch_on(&mut self, random: &mut Random) -> Group {
        match random.below(10) {
            0..4 => self.first_of(settings::setting(random)),
            4 => event(pair::any(random)),
            _ => write(CONTROL, control::value(NO_STATUS, random)),
        }
    }

    /// What a host does at this status, and sometimes what it should not.
    fn serve(&mut self, status: u8, random: &mut Random) -> Group {
        let value = control::value(status, random);
        match random.below(20) {
            0 => event(pair::any(random)),
            1 => self.first_of(settings::burst(random)),
            2..4 => self.first_of(settings::count(random)),
            4..12 if FAULTS.contains(&status) => self.leave_fault(random),
            4..18 if STARTED.contains(&status) => {
                // A high one can lose arbitration to most others.
                let address = write(DATA, random.pick_or_any(&[0xFE, 0xFF]));
                self.first_of(vec![address, write(CONTROL, value)])
            }
            _ => write(CONTROL, value),
        }
    }

    /// Only a reset leads out of a fault.
    fn leave_fault(&mut self, random: &mut Random) -> Group {
        if random.percent(60) {
            event([pair::RESET, 0])
        } else {
            self.first_of(settings::software_reset(random))
        }
    }
}
