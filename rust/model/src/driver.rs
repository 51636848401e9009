//! "Jobs": one read or write job over a script of (event, argument) pairs.

use crate::address::{Address, AddressByte};
use crate::controller::{Controller, PLACES};
use crate::refusal::Refusal;
use crate::turn::Turn;

/// The least length of the out record: the address byte and 68 data bytes.
pub const OUT_LENGTH: usize = 1 + PLACES as usize;

/// Registers of the controller by address.
mod register {
    pub(super) const STATUS: u8 = 0;
    pub(super) const POINTER: u8 = 0;
    pub(super) const DATA: u8 = 1;
    pub(super) const INDIRECT: u8 = 2;
    pub(super) const CONTROL: u8 = 3;
}

/// Values of INDPTR.
mod pointer {
    pub(super) const COUNT: u8 = 0x00;
    pub(super) const MOVED: u8 = 0x07;
}

/// Values that the driver writes to I2CCON.
mod control {
    /// ENSIO and STA: ask for a START.
    pub(super) const START: u8 = 0x60;
    /// ENSIO: go on in Byte mode.
    pub(super) const BYTE: u8 = 0x40;
    /// ENSIO and MODE: go on in Buffered mode.
    pub(super) const BUFFERED: u8 = 0x41;
    /// ENSIO and STO: ask for a STOP.
    pub(super) const STOP: u8 = 0x50;
}

/// I2CCOUNT's LB bit.
const LAST_BYTE: u8 = 0x80;

/// Events that the driver tells apart.
mod event {
    pub(super) const OWN_STOP: u8 = 4;
    pub(super) const BYTE_OUT: u8 = 6;
    pub(super) const RESET: u8 = 14;
}

/// Which way the data go.
#[derive(Clone, Copy, Debug, PartialEq, Eq, Hash)]
pub enum Kind {
    /// The job sends its data.
    Write,
    /// The job fills its destination.
    Read,
}

/// One read or write job.
#[derive(Clone, Copy, Debug, PartialEq, Eq)]
pub struct Job<'a> {
    /// Read or write.
    pub kind: Kind,
    /// The seven-bit address, 08h..77h.
    pub address: u8,
    /// The number of data bytes, 1..68.
    pub n: u8,
    /// The data of a write, at least `n` bytes; not looked at for a read.
    pub data: &'a [u8],
}

/// How a job ended.
#[derive(Clone, Copy, Debug, PartialEq, Eq, Hash)]
pub enum Answer {
    /// Done, after own STOP.
    Done,
    /// The job or a length is out of range; nothing was done.
    Malformed,
    /// The controller isn't ready for a job; nothing was done.
    NotReady,
    /// Address NACKed, after own STOP.
    AddressNacked,
    /// A data byte was NACKed, after own STOP.
    DataNacked,
    /// Arbitration lost: "the driver still writes 40h, and the record stays
    /// at 38h" (document 02, Ask 2), where no job can begin.
    Lost,
    /// 00h, 70h or 78h; left so.
    Fault,
    /// The script ended first.
    Unfinished,
    /// The model refused the event.
    Refused(Refusal),
    /// Event 14 came.
    Reset,
}

impl Answer {
    /// The number of the answer.
    pub const fn number(self) -> u8 {
        match self {
            Answer::Done => 0,
            Answer::Malformed => 21,
            Answer::NotReady => 22,
            Answer::AddressNacked => 23,
            Answer::DataNacked => 24,
            Answer::Lost => 25,
            Answer::Fault => 26,
            Answer::Unfinished => 27,
            Answer::Refused(_) => 28,
            Answer::Reset => 29,
        }
    }

    /// The number beside it: the refusal's for 28, else 0.
    pub const fn beside(self) -> u8 {
        match self {
            Answer::Refused(refusal) => refusal.number(),
            _ => 0,
        }
    }
}

/// What a job hands back beside the lent bytes.
#[derive(Clone, Copy, Debug, PartialEq, Eq)]
pub struct Report {
    /// How the job ended.
    pub answer: Answer,
    /// n for 0, the moved count found at 30h for 24, else 0.
    pub count: u8,
    /// How many bytes were sent: the out record begins with so many.
    pub sent: usize,
    /// The number of pairs taken; a refused pair isn't counted.
    pub events: usize,
}

/// Runs one job. The out record begins with the bytes sent, one for each
/// accepted event 6, and its rest stays. The destination's first n bytes are
/// written for answer 0 of a read and never otherwise.
pub fn run_job(
    controller: &mut Controller,
    job: &Job<'_>,
    destination: &mut [u8],
    out: &mut [u8],
    script: &[u8],
) -> Report {
    let (pairs, rest) = script.as_chunks::<2>();
    let address = match job_address(job, destination, out) {
        Some(address) if rest.is_empty() => address,
        _ => return Report::untouched(Answer::Malformed),
    };
    if !is_ready(controller) {
        return Report::untouched(Answer::NotReady);
    }

    let mut run = Run {
        controller,
        job,
        address,
        out,
        sent: 0,
        received: [0; PLACES as usize],
        ending: Answer::Unfinished,
        count: 0,
    };
    let (answer, events) = run.take_pairs(pairs);
    let count = match answer {
        Answer::Done | Answer::DataNacked => run.count,
        _ => 0,
    };
    if answer == Answer::Done && job.kind == Kind::Read {
        let n = usize::from(job.n);
        destination[..n].copy_from_slice(&run.received[..n]);
    }
    Report {
        answer,
        count,
        sent: run.sent,
        events,
    }
}

/// The job's address byte if nothing but the script can be malformed.
fn job_address(job: &Job<'_>, destination: &[u8], out: &[u8]) -> Option<AddressByte> {
    let lent = match job.kind {
        Kind::Write => job.data.len(),
        Kind::Read => destination.len(),
    };
    let well_formed = (1..=PLACES).contains(&job.n)
        && (0x08..=0x77).contains(&job.address)
        && lent >= usize::from(job.n)
        && out.len() >= OUT_LENGTH;
    if !well_formed {
        return None;
    }
    let address = Address::new(job.address)?;
    Some(address.to_byte(job.kind == Kind::Read))
}

/// Whether a job can begin, answer 22 otherwise.
fn is_ready(controller: &Controller) -> bool {
    controller.turn() == Turn::Free
        && controller.is_enabled()
        && !controller.start_wanted()
        && controller.is_sound()
}

/// A job under way.
struct Run<'a> {
    controller: &'a mut Controller,
    job: &'a Job<'a>,
    address: AddressByte,
    out: &'a mut [u8],
    /// Bytes sent so far.
    sent: usize,
    /// The bytes read at 58h, handed up only after own STOP.
    received: [u8; PLACES as usize],
    /// The answer after own STOP, and its count.
    ending: Answer,
    count: u8,
}

impl Run<'_> {
    /// Takes pairs while the job lasts: the answer and the pairs taken.
    fn take_pairs(&mut self, pairs: &[[u8; 2]]) -> (Answer, usize) {
        if let Err(refusal) = self.begin() {
            return (Answer::Refused(refusal), 0);
        }
        for (index, &[event, argument]) in pairs.iter().enumerate() {
            let value = match self.controller.event(event, argument) {
                Ok(value) => value,
                Err(refusal) => return (Answer::Refused(refusal), index),
            };
            let ended = match event {
                event::RESET => Some(Answer::Reset),
                event::OWN_STOP => Some(self.ending),
                event::BYTE_OUT => {
                    self.note_sent(value);
                    self.serve()
                }
                _ => self.serve(),
            };
            if let Some(answer) = ended {
                return (answer, index + 1);
            }
        }
        (Answer::Unfinished, pairs.len())
    }

    fn note_sent(&mut self, byte: u8) {
        self.out[self.sent] = byte;
        self.sent += 1;
    }

    /// The work before the first pair: I2CCOUNT and the START.
    fn begin(&mut self) -> Result<(), Refusal> {
        let last_byte = match self.job.kind {
            Kind::Write => 0,
            Kind::Read => LAST_BYTE,
        };
        self.controller.write(register::POINTER, pointer::COUNT)?;
        self.controller
            .write(register::INDIRECT, last_byte + self.job.n)?;
        self.write_control(control::START)
    }

    /// The work after a pair; gives the answer if the job ends there. No
    /// access of the driver is refused in the turns that a job reaches.
    fn serve(&mut self) -> Option<Answer> {
        self.serve_status()
            .unwrap_or_else(|refusal| Some(Answer::Refused(refusal)))
    }

    fn serve_status(&mut self) -> Result<Option<Answer>, Refusal> {
        match self.controller.read(register::STATUS)? {
            0x08 => {
                self.controller.write(register::DATA, self.address.byte())?;
                self.write_control(control::BYTE)?;
            }
            0x18 => {
                for &byte in &self.job.data[..usize::from(self.job.n)] {
                    self.controller.write(register::DATA, byte)?;
                }
                self.write_control(control::BUFFERED)?;
            }
            0x40 => self.write_control(control::BUFFERED)?,
            0x20 | 0x48 => self.stop(Answer::AddressNacked, 0)?,
            0x28 => self.stop(Answer::Done, self.job.n)?,
            0x30 => {
                let moved = self.read_moved()?;
                self.stop(Answer::DataNacked, moved)?;
            }
            0x58 => {
                for place in &mut self.received[..usize::from(self.job.n)] {
                    *place = self.controller.read(register::DATA)?;
                }
                self.stop(Answer::Done, self.job.n)?;
            }
            0x38 => {
                self.write_control(control::BYTE)?;
                return Ok(Some(Answer::Lost));
            }
            0x00 | 0x70 | 0x78 => return Ok(Some(Answer::Fault)),
            // F8h: nothing to serve. A job, with AA 0, gets no other status.
            _ => {}
        }
        Ok(None)
    }

    /// Asks for own STOP, after which the job has this answer and count.
    fn stop(&mut self, ending: Answer, count: u8) -> Result<(), Refusal> {
        self.ending = ending;
        self.count = count;
        self.write_control(control::STOP)
    }

    /// Reads the moved count and leaves the pointer at 00h.
    fn read_moved(&mut self) -> Result<u8, Refusal> {
        self.controller.write(register::POINTER, pointer::MOVED)?;
        let moved = self.controller.read(register::INDIRECT)?;
        self.controller.write(register::POINTER, pointer::COUNT)?;
        Ok(moved)
    }

    fn write_control(&mut self, value: u8) -> Result<(), Refusal> {
        self.controller.write(register::CONTROL, value).map(drop)
    }
}

impl Report {
    /// The report of a job that was not begun.
    const fn untouched(answer: Answer) -> Self {
        Report {
            answer,
            count: 0,
            sent: 0,
            events: 0,
        }
    }
}
