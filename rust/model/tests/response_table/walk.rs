//! A long random walk over accesses and events, the same at each run.

use crate::step::{ENSIO, I2CCON, I2CDAT, INDIRECT, INDPTR, Step};
use model::{Controller, Refusal};

/// One step of a walk.
pub struct Taken {
    /// The record before it.
    pub before: Controller,
    /// The access or event.
    pub step: Step,
    /// Its answer.
    pub answer: Result<u8, Refusal>,
    /// The record after it.
    pub after: Controller,
}

/// A walk of so many steps that begins with a fresh controller.
pub fn walk(steps: usize) -> impl Iterator<Item = Taken> {
    let mut numbers = Numbers(0x0123_4567_89AB_CDEF);
    let mut controller = Controller::fresh();
    (0..steps).map(move |_| {
        let before = controller.clone();
        let step = numbers.step(before.status());
        let answer = step.take(&mut controller);
        Taken {
            before,
            step,
            answer,
            after: controller.clone(),
        }
    })
}

/// The frequent events: neither the faults nor the reset pin.
const EVENTS: [u8; 16] = [1, 1, 2, 2, 3, 4, 5, 5, 6, 6, 7, 7, 8, 8, 9, 13];

/// Bytes of another master: the General Call, and the own address as after
/// reset, for a write and for a read.
const CALLS: [u8; 4] = [0x00, 0xE0, 0xE1, 0xE0];

/// Bytes for I2CDAT: addresses for a write and for a read, two of which lose
/// against each of [`CALLS`].
const DATA: [u8; 4] = [0xA0, 0xA1, 0xFE, 0xFF];

/// Bytes for the register at the pointer: I2CADR with GC and without, byte
/// counts, both bytes of the software reset.
const SETTINGS: [u8; 8] = [0xE1, 0xE1, 0xE0, 0x01, 0x02, 0x83, 0xA5, 0x5A];

/// A source of numbers (splitmix64).
struct Numbers(u64);

impl Numbers {
    fn next(&mut self) -> u64 {
        self.0 = self.0.wrapping_add(0x9E37_79B9_7F4A_7C15);
        let mixed = (self.0 ^ (self.0 >> 30)).wrapping_mul(0xBF58_476D_1CE4_E5B9);
        let mixed = (mixed ^ (mixed >> 27)).wrapping_mul(0x94D0_49BB_1331_11EB);
        mixed ^ (mixed >> 31)
    }

    /// Any byte.
    fn byte(&mut self) -> u8 {
        self.next().to_le_bytes()[0]
    }

    /// A number below the limit.
    fn below(&mut self, limit: u8) -> u8 {
        self.byte() % limit
    }

    /// One of these.
    fn one_of(&mut self, bytes: &[u8]) -> u8 {
        bytes[usize::from(self.byte()) % bytes.len()]
    }

    /// One of these, at times any byte.
    fn often(&mut self, bytes: &[u8]) -> u8 {
        match self.below(8) {
            0..2 => self.byte(),
            _ => self.one_of(bytes),
        }
    }

    /// Any access or event. While SI is 0 events are the frequent ones, while
    /// SI is 1 accesses, and after a fault the reset pin.
    fn step(&mut self, status: u8) -> Step {
        match (self.below(8), status) {
            (0..4, 0x00 | 0x70 | 0x78) => Step::Event(14, 0),
            (0..6, 0xF8) | (0, _) => self.event(),
            _ => self.access(),
        }
    }

    /// A read or a write of any register.
    fn access(&mut self) -> Step {
        match self.below(16) {
            0 => Step::Read(self.below(5)),
            1 => Step::Write(self.below(5), self.byte()),
            2..4 => Step::Write(INDPTR, self.byte()),
            4..6 => Step::Write(INDIRECT, self.often(&SETTINGS)),
            6..9 => Step::Write(I2CDAT, self.often(&DATA)),
            9 => Step::Write(I2CCON, self.byte()),
            _ => Step::Write(I2CCON, self.byte() | ENSIO),
        }
    }

    /// Any event, [`EVENTS`] more often, and an argument of its kind; at times
    /// one of another kind, or no event's number.
    fn event(&mut self) -> Step {
        let event = match self.below(16) {
            0 => self.below(16),
            _ => self.one_of(&EVENTS),
        };
        let argument = match (event, self.below(64)) {
            (_, 0) => self.byte(),
            (5 | 7 | 8, _) => self.often(&CALLS),
            (6, _) => self.below(2),
            _ => 0,
        };
        Step::Event(event, argument)
    }
}
