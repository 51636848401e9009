//! The board: it does what a step says on the model's controller, and waits for the bus.

use super::bus::Bus;
use super::lent::Lent;
use super::{Checked, SI, STATUS};
use crate::group::CONTROL;
use crate::port::step::Step;
use crate::random::Random;
use crate::reference::turn_number;
use crate::steer::pair;
use model::{Controller, Refusal};

/// The most accesses from one rest to the next: two reads, 68 data bytes and I2CCON.
pub const BURST: usize = 72;

/// Own STOP.
const OWN_STOP: u8 = 4;
/// A byte out.
const BYTE_OUT: u8 = 6;

/// How a run ended.
#[derive(Clone, Copy, Debug, PartialEq, Eq)]
pub enum End {
    /// As many steps were done as there were to be.
    Left,
    /// The port said so.
    Over {
        /// Its answer.
        answer: u8,
        /// Its count.
        count: u8,
    },
    /// It waits, and the script has ended.
    ScriptEnded,
    /// It waits, and the controller refused the event.
    Refused(Refusal),
}

/// What was done in a run.
#[derive(Clone, Debug)]
pub struct Run {
    /// How it ended.
    pub end: End,
    /// The bytes sent, one for each accepted event 6.
    pub sent: Vec<u8>,
    /// Pairs that were accepted.
    pub events: usize,
    /// Registers read.
    pub reads: usize,
    /// Registers written.
    pub writes: usize,
    /// Pauses made.
    pub pauses: usize,
    /// Accesses since the last wait or pause.
    pub burst: usize,
    /// The turns, by number, in which it was looked though nothing had come.
    pub polled: Vec<u8>,
    /// Events after which it was not looked.
    pub unseen: usize,
}

/// What a step comes to: a value for the next step, or the end.
type Met = Result<u8, End>;

/// One run of the port on the model's controller.
pub struct Board<'a> {
    /// The port.
    pub lent: &'a mut Lent,
    /// The chip.
    pub controller: &'a mut Controller,
    /// Its bus.
    pub bus: &'a mut Bus,
    /// What else is random.
    pub random: &'a mut Random,
}

impl Board<'_> {
    /// Goes on from this step, for so many steps at most.
    pub fn run(&mut self, first: Step, most: usize) -> Checked<Run> {
        let mut run = Run::new();
        let mut step = first;
        let mut done = 0;
        while done < most || matches!(step, Step::Over { .. }) {
            match self.perform(step, &mut run)? {
                Ok(value) => step = self.lent.next(value)?,
                Err(end) => {
                    run.end = end;
                    break;
                }
            }
            done += 1;
        }
        Ok(run)
    }

    /// Does one step. What is handed on after anything but a read is any byte.
    fn perform(&mut self, step: Step, run: &mut Run) -> Checked<Met> {
        match step {
            Step::Write { register, value } => {
                let written = self.controller.write(register, value);
                written.map_err(|refusal| refused(step, refusal))?;
                run.writes += 1;
                run.access()?;
            }
            Step::Read { register } => {
                let value = self.controller.read(register);
                let value = value.map_err(|refusal| refused(step, refusal))?;
                run.reads += 1;
                run.access()?;
                return Ok(Ok(value));
            }
            Step::Wait => {
                run.burst = 0;
                return self.wait(run);
            }
            Step::Pause => {
                run.burst = 0;
                run.pauses += 1;
            }
            Step::Over { answer, count } => return Ok(Err(End::Over { answer, count })),
        }
        Ok(Ok(self.random.byte()))
    }

    /// Waits for the next pair, at times with polls before it, and at times for more than one.
    fn wait(&mut self, run: &mut Run) -> Checked<Met> {
        while self.random.percent(self.bus.polls) {
            self.poll()?;
            run.polled.push(turn_number(self.controller.turn()));
        }
        loop {
            let Some([event, argument]) = self.bus.next(self.controller, self.random) else {
                return Ok(Err(End::ScriptEnded));
            };
            match self.controller.event(event, argument) {
                Ok(value) => run.event(event, value),
                Err(refusal) => return Ok(Err(End::Refused(refusal))),
            }
            if !self.waits_on(event) {
                return Ok(Ok(self.random.byte()));
            }
            run.unseen += 1;
        }
    }

    /// Whether the board waits on after this event. It gave no status; and the ends that come
    /// without one, own STOP and the reset pin, are looked at.
    fn waits_on(&mut self, event: u8) -> bool {
        let is_seen =
            self.controller.control() & SI != 0 || matches!(event, OWN_STOP | pair::RESET);
        !is_seen && self.random.percent(self.bus.late)
    }

    /// Nothing has come: I2CCON is read, I2CSTA only if SI is 1, and it waits again.
    fn poll(&mut self) -> Checked<()> {
        let step = self.lent.next(self.random.byte())?;
        let control = self.polled_value(step, CONTROL)?;
        let mut step = self.lent.next(control)?;
        if control & SI != 0 {
            let status = self.polled_value(step, STATUS)?;
            step = self.lent.next(status)?;
        }
        match step {
            Step::Wait => Ok(()),
            step => Err(format!("after a poll {step:?}, not a wait")),
        }
    }

    /// The value of this register, which the step has to read.
    fn polled_value(&mut self, step: Step, register: u8) -> Checked<u8> {
        if step != (Step::Read { register }) {
            return Err(format!("{step:?} in a poll, not a read of {register}"));
        }
        let value = self.controller.read(register);
        value.map_err(|refusal| refused(step, refusal))
    }
}

impl Run {
    const fn new() -> Self {
        Run {
            end: End::Left,
            sent: Vec::new(),
            events: 0,
            reads: 0,
            writes: 0,
            pauses: 0,
            burst: 0,
            polled: Vec::new(),
            unseen: 0,
        }
    }

    /// Notes an event that was accepted, with its value.
    fn event(&mut self, event: u8, value: u8) {
        self.events += 1;
        if event == BYTE_OUT {
            self.sent.push(value);
        }
    }

    fn access(&mut self) -> Checked<()> {
        self.burst += 1;
        if self.burst > BURST {
            return Err(format!("more than {BURST} accesses without a rest"));
        }
        Ok(())
    }
}

fn refused(step: Step, refusal: Refusal) -> String {
    format!("{step:?} is refused with {}", refusal.number())
}
