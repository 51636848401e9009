//! A chip whose registers read whatever comes to its mind, often what carries a job on.

use super::{NO_STATUS, STATUS};
use crate::group::{CONTROL, DATA};
use crate::random::Random;

/// Statuses that a port may look for, and some that it gets from no chip in a job.
const STATUSES: [u8; 19] = [
    0x00, 0x08, 0x10, 0x18, 0x20, 0x28, 0x30, 0x38, 0x40, 0x48, 0x50, 0x58, 0x58, 0x58, 0x70, 0x78,
    0x60, 0xA8, 0xF8,
];
/// Values of I2CCON: with and without ENSIO, STA, STO and SI, and with bits that tell nothing.
const CONTROLS: [u8; 16] = [
    0x40, 0x40, 0xC7, 0x41, 0x48, 0x48, 0x49, 0xCF, 0x50, 0x58, 0x60, 0x68, 0x70, 0x00, 0x08, 0xBF,
];
/// Moved counts.
const COUNTS: [u8; 5] = [0, 1, 67, 68, 255];

/// The chip.
#[derive(Clone, Debug)]
pub struct Liar {
    random: Random,
    /// How many reads in a hundred give what a chip might.
    likely: usize,
    /// At how many looks in a hundred nothing has come.
    silent: usize,
    /// What was last written to I2CCON in this job.
    asked: Option<u8>,
}

impl Liar {
    /// A chip of its own mind.
    pub fn new(random: &mut Random) -> Self {
        Liar {
            random: Random::new(random.number()),
            likely: random.pick(&[0, 50, 90, 98, 98]),
            silent: random.pick(&[0, 0, 30, 100]),
            asked: None,
        }
    }

    /// A job begins.
    pub const fn begin(&mut self) {
        self.asked = None;
    }

    /// A register is written.
    pub const fn write(&mut self, register: u8, value: u8) {
        if register == CONTROL {
            self.asked = Some(value);
        }
    }

    /// What a register reads.
    pub fn read(&mut self, register: u8) -> u8 {
        if self.random.percent(self.likely) {
            self.likely_value(register)
        } else {
            self.any_value(register)
        }
    }

    /// Any byte after a step that reads nothing.
    pub fn any(&mut self) -> u8 {
        self.random.byte()
    }

    /// What carries on: idle, 08h after a START was asked for, then an address byte acknowledged,
    /// data moved, own STOP come; or nothing yet.
    fn likely_value(&mut self, register: u8) -> u8 {
        match (register, self.asked) {
            (CONTROL, Some(asked)) if self.random.percent(self.silent) => asked,
            (CONTROL, None | Some(0x50)) => 0x40,
            (CONTROL, Some(asked)) => asked | 0x08,
            (STATUS, Some(0x60)) => 0x08,
            (STATUS, Some(0x40)) => self.random.pick(&[0x18, 0x18, 0x40, 0x40, 0x20, 0x48]),
            (STATUS, Some(0x41)) => self.random.pick(&[0x28, 0x28, 0x58, 0x58, 0x30]),
            (STATUS, _) => NO_STATUS,
            _ => self.any_value(register),
        }
    }

    fn any_value(&mut self, register: u8) -> u8 {
        match register {
            STATUS => self.random.pick_or_any(&STATUSES),
            CONTROL => self.random.pick_or_any(&CONTROLS),
            DATA => self.random.byte(),
            _ => self.random.pick_or_any(&COUNTS),
        }
    }
}
