//! The port: the driver of one chip, and what it remembers.

use crate::{Address, Answer, Bytes, PLACES, STATE_LEN, Setting, Step, TakeError, sys};
use core::fmt;

/// Kinds of a job.
const WRITE: u8 = 0;
const READ: u8 = 1;
/// A number of data bytes that no job has, for all that are more than a byte can tell.
const TOO_MANY: u8 = u8::MAX;

/// The driver of one chip.
///
/// [`recover`](Port::recover), [`read`](Port::read) and [`write`](Port::write) do a whole job on a
/// [`Board`](crate::Board). Below them stand the steps, for a board with a loop of its own:
/// [`start_recover`](Port::start_recover), [`start_read`](Port::start_read) or
/// [`start_write`](Port::start_write) gives the [`Step`] that the board has to do, and
/// [`next`](Port::next) the one after it, until it is over; [`take`](Port::take) gives the bytes.
///
/// A new one answers [`Answer::NotReady`] to every well-formed job, until a recovery was run to its
/// end. One is for one chip, and there is no copy of it: an old one would not know what the chip is
/// doing.
pub struct Port {
    state: [u8; STATE_LEN],
    /// How many bytes the last read is of.
    n: u8,
}

impl Port {
    /// A port for a chip that nothing is known of.
    #[must_use]
    pub const fn new() -> Self {
        Port {
            state: [0; STATE_LEN],
            n: 0,
        }
    }

    /// The chip is brought back, whatever it was doing: a software reset, the settings, 40h to
    /// I2CCON, and a pause. It is over at once with [`Answer::Malformed`] for more than
    /// [six](Setting::MOST) settings.
    pub fn start_recover(&mut self, settings: &[Setting]) -> Step {
        // One more than the library takes: it says what too many are answered.
        let mut pairs = [[0; 2]; Setting::MOST + 1];
        let given = settings.len().min(pairs.len());
        for (pair, setting) in pairs.iter_mut().zip(settings) {
            *pair = setting.pair();
        }
        let settings = pairs[..given].as_flattened();
        step(sys::recover(&mut self.state, settings))
    }

    /// A read of `n` bytes, 1 to 68, from this address begins.
    ///
    /// It is over at once with [`Answer::Malformed`] for any other `n`, and with
    /// [`Answer::NotReady`] if a recovery has to come first.
    pub fn start_read(&mut self, address: Address, n: usize) -> Step {
        self.n = u8::try_from(n).unwrap_or(TOO_MANY);
        let address = address.number();
        step(sys::start(&mut self.state, READ, address, self.n, &[]))
    }

    /// A write of these bytes, 1 to 68, to this address begins. They are copied now.
    ///
    /// It is over at once with [`Answer::Malformed`] for any other number of them, and with
    /// [`Answer::NotReady`] if a recovery has to come first.
    pub fn start_write(&mut self, address: Address, data: &[u8]) -> Step {
        let n = u8::try_from(data.len()).unwrap_or(TOO_MANY);
        let address = address.number();
        step(sys::start(&mut self.state, WRITE, address, n, data))
    }

    /// The next step. `value` is what the register read of the last step gave; it is not looked at
    /// after any other step. What is over stays so.
    pub fn next(&mut self, value: u8) -> Step {
        step(sys::next(&mut self.state, value))
    }

    /// The board's clock ran out. It is over with [`Answer::Unfinished`], whatever was under way,
    /// and no job begins until a recovery was run to its end. Bytes that were not taken before
    /// can't be taken any more.
    pub fn give_up(&mut self) -> Step {
        step(sys::give_up(&mut self.state))
    }

    /// The bytes of a finished read. They are given once and are gone from the port then. After
    /// the next start, recovery or give-up bytes that were not taken can't be taken any more.
    ///
    /// # Errors
    ///
    /// [`Answer::Unfinished`] if it is not over; else the answer, if that is not
    /// [`Answer::Done`]; else [`Answer::Malformed`], since it was no read or the bytes were taken
    /// before.
    pub fn take(&mut self) -> Result<Bytes, TakeError> {
        let mut bytes = [0; PLACES];
        match answer(sys::take(&mut self.state, &mut bytes)) {
            Answer::Done => Ok(Bytes::first(bytes, usize::from(self.n))),
            why_not => Err(TakeError::new(why_not)),
        }
    }
}

impl Default for Port {
    fn default() -> Self {
        Self::new()
    }
}

/// Says nothing of the state: it can hold what a badge said and was not handed up yet. Bytes that
/// were handed up show themselves.
impl fmt::Debug for Port {
    fn fmt(&self, f: &mut fmt::Formatter<'_>) -> fmt::Result {
        f.debug_struct("Port").finish_non_exhaustive()
    }
}

/// The step of this number.
///
/// # Panics
///
/// For a number that is no step; the library is proved not to give one.
fn step(number: u32) -> Step {
    Step::from_number(number).expect("the library gives a step")
}

/// The answer of this number.
///
/// # Panics
///
/// For a number that is no answer; the library is proved not to give one.
fn answer(number: u8) -> Answer {
    Answer::from_number(number).expect("the library gives an answer")
}
