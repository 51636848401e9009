//! A row: the same call to library and model, and what it has to give.

use crate::chip::layout;
use crate::chip::library::{self, Library};
use crate::group::{READ, WRITE};
use crate::reference::enabled;
use crate::side::{Job, LIBRARY, MODEL, Side};
use crate::timing::{Times, measure};
use perlovasta::{CHIP_LEN, ENTRY_LEN, GROUP_LEN, OUT_LEN, PLACES, REPORT_LEN};
use std::borrow::Cow;
use std::hint::black_box;

/// What is called.
#[derive(Clone, Copy, Debug)]
pub enum Call {
    /// A write of so many bytes.
    Write(u8),
    /// A read of so many bytes.
    Read(u8),
    /// A trace.
    Trace,
    /// Accesses and events on a virtual chip that is enabled, one after the other; they leave it
    /// enabled and its bus free.
    Accesses,
    /// A read of so many bytes on a virtual chip that is enabled.
    ChipRead(u8),
}

/// What a call has to give.
#[derive(Clone, Copy, Debug)]
pub enum Expected {
    /// This answer of a job.
    Answer(u8),
    /// This refusal of each group of a trace but the first; 0 for accepted.
    Refusal(u8),
    /// Every group of a trace accepted, and this status after the last.
    Status(u8),
    /// A log with whatever refusals.
    Log,
    /// This refusal of each access to a virtual chip; 0 for accepted.
    Reply(u8),
    /// 21 and nothing written, for a job whose report is too short.
    Nothing,
}

/// A call by name.
#[derive(Clone, Debug)]
pub struct Row<'a> {
    /// What is called, in words.
    pub name: &'static str,
    call: Call,
    /// The script of a job, or the groups of a trace or of accesses.
    input: Cow<'a, [u8]>,
    expected: Expected,
}

/// No answer and no refusal, so that bytes that were not written are none.
const UNTOUCHED: u8 = 0xEE;

/// What a call is lent to write to, and what it returned.
#[derive(Debug, PartialEq)]
struct Lent<'a> {
    returned: u8,
    destination: [u8; PLACES],
    out: [u8; OUT_LEN],
    /// A virtual chip.
    chip: [u8; CHIP_LEN],
    /// The report of a job, or the log of a trace.
    told: &'a mut [u8],
}

impl<'a> Row<'a> {
    /// Calls this with a script or groups.
    pub fn new(
        name: &'static str,
        call: Call,
        input: impl Into<Cow<'a, [u8]>>,
        expected: Expected,
    ) -> Self {
        Row {
            name,
            call,
            input: input.into(),
            expected,
        }
    }

    /// How many pairs, groups or accesses it has.
    pub fn pieces(&self) -> usize {
        match self.call {
            Call::Write(_) | Call::Read(_) | Call::ChipRead(_) => self.input.len() / 2,
            Call::Trace | Call::Accesses => self.input.len() / GROUP_LEN,
        }
    }

    /// How many bytes the reports or logs of both sides have.
    pub fn room(&self) -> usize {
        2 * self.told()
    }

    fn told(&self) -> usize {
        match (self.call, self.expected) {
            (Call::Trace, _) => ENTRY_LEN * self.pieces(),
            (Call::Accesses, _) => 0,
            (_, Expected::Nothing) => REPORT_LEN - 1,
            _ => REPORT_LEN,
        }
    }

    /// Times both sides in so many runs; their reports or logs go to `room`.
    pub fn times(&self, runs: usize, room: &mut [u8]) -> Times {
        let (library, model) = room[..self.room()].split_at_mut(self.told());
        let (mut library, mut model) = (lent(library), lent(model));
        let times = measure(
            runs,
            |calls| self.repeat(LIBRARY, calls, &mut library),
            |calls| self.repeat(MODEL, calls, &mut model),
        );
        assert!(library == model, "{}: library and model differ", self.name);
        self.check(&library);
        times
    }

    /// Makes so many calls on one side.
    pub fn calls(&self, side: Side, calls: u32) {
        let mut told = vec![0; self.told()];
        let mut lent = lent(&mut told);
        self.repeat(side, calls, &mut lent);
        self.check(&lent);
    }

    fn repeat(&self, side: Side, calls: u32, lent: &mut Lent) {
        for _ in 0..calls {
            let side = black_box(&side);
            match self.call {
                Call::Write(n) => lent.job(side.job, 0, n, &self.input),
                Call::Read(n) => lent.job(side.job, 1, n, &self.input),
                Call::Trace => lent.returned = (side.trace)(&self.input, lent.told),
                Call::Accesses => lent.accesses(&side.chip, &self.input),
                Call::ChipRead(n) => lent.chip_read(side.chip.job, n, &self.input),
            }
        }
    }

    fn check(&self, lent: &Lent) {
        let entries = lent.told.chunks(ENTRY_LEN);
        let is_run = lent.returned == 0;
        let as_expected = match self.expected {
            Expected::Answer(answer) => lent.returned == answer && lent.told[0] == answer,
            Expected::Refusal(refusal) => {
                is_run && entries.skip(1).all(|entry| entry[0] == refusal)
            }
            Expected::Status(status) => {
                let accepted = entries.clone().all(|entry| entry[0] == 0);
                is_run && accepted && entries.last().is_some_and(|entry| entry[2] == status)
            }
            Expected::Log => is_run,
            Expected::Reply(refusal) => lent.returned == refusal,
            Expected::Nothing => {
                lent.returned == 21 && lent.told.iter().all(|&byte| byte == UNTOUCHED)
            }
        };
        assert!(as_expected, "{}: not what is expected", self.name);
    }
}

fn lent(told: &mut [u8]) -> Lent<'_> {
    told.fill(UNTOUCHED);
    Lent {
        returned: UNTOUCHED,
        destination: [0; PLACES],
        out: [0; OUT_LEN],
        chip: layout::bytes(&enabled()),
        told,
    }
}

impl Lent<'_> {
    /// Gives the chip these groups. What is returned is the last one's refusal.
    fn accesses(&mut self, library: &Library, groups: &[u8]) {
        for &[kind, place, value] in groups.as_chunks::<GROUP_LEN>().0 {
            let chip = &mut self.chip;
            let reply = match kind {
                READ => (library.read)(chip, place),
                WRITE => (library.write)(chip, place, value),
                _ => (library.event)(chip, place, value),
            };
            [self.returned, ..] = reply.to_le_bytes();
        }
    }

    /// Runs a read with the device at 50h on the chip.
    fn chip_read(&mut self, job: library::Job, n: u8, script: &[u8]) {
        let (chip, destination) = (&mut self.chip, &mut self.destination);
        let (out, report) = (&mut self.out, &mut *self.told);
        self.returned = job(chip, 1, 0x50, n, &[], destination, out, script, report);
    }

    /// Runs a job with the device at 50h.
    fn job(&mut self, job: Job, kind: u8, n: u8, script: &[u8]) {
        let (data, destination) = (&[0x5C; PLACES], &mut self.destination);
        let out = &mut self.out;
        self.returned = job(kind, 0x50, n, data, destination, out, script, self.told);
    }
}
