//! A board for tests: a virtual chip, and a script of what its bus does.

use perlovasta::{Event, Refusal, VirtualChip};
use perlovasta_dock::{Board, Clock, Register, Wait};

/// A virtual chip on whose bus the next pair of a script, an event's number and its argument,
/// happens at each wait.
pub struct ScriptedChip<S> {
    chip: VirtualChip,
    script: S,
}

impl<S: Iterator<Item = [u8; 2]>> ScriptedChip<S> {
    /// A fresh chip with this script.
    pub fn new(script: S) -> Self {
        ScriptedChip {
            chip: VirtualChip::new(),
            script,
        }
    }
}

/// These three a board replaces.
impl<S: Iterator<Item = [u8; 2]>> Board for ScriptedChip<S> {
    /// Why the chip refused an access or an event.
    type Error = Refusal;

    fn read(&mut self, register: Register) -> Result<u8, Refusal> {
        self.chip.read(register)
    }

    fn write(&mut self, register: Register, value: u8) -> Result<(), Refusal> {
        self.chip.write(register, value)
    }

    /// The time is over with the script. Pairs that are not reached are not looked at.
    fn wait(&mut self, wait: Wait) -> Result<Clock, Refusal> {
        if wait == Wait::Pause {
            return Ok(Clock::Running);
        }
        let Some(pair) = self.script.next() else {
            return Ok(Clock::RanOut);
        };
        self.chip.event(Event::try_from(pair)?)?;
        Ok(Clock::Running)
    }
}
