//! What a port needs of the board that its chip is on.

use crate::Register;

/// A board with a chip. It makes the accesses that a [`Port`](crate::Port) asks for.
///
/// A port never gives a job up by itself. It asks for one wait after the other, until the chip is
/// done, the board fails, or [`wait`](Board::wait) says that the time ran out. On a board whose
/// clock never runs out a job may never end.
pub trait Board {
    /// How an access can fail; [`Infallible`](core::convert::Infallible) where none can. Where it
    /// is an [`Error`](core::error::Error), so is [`PortError`](crate::PortError).
    type Error;

    /// Reads a register of the chip.
    ///
    /// # Errors
    ///
    /// If the board could not. The job is given up.
    fn read(&mut self, register: Register) -> Result<u8, Self::Error>;

    /// Writes a byte to a register of the chip.
    ///
    /// # Errors
    ///
    /// If the board could not. The job is given up.
    fn write(&mut self, register: Register, value: u8) -> Result<(), Self::Error>;

    /// Waits, and says whether there is time left for the job.
    ///
    /// The clock is the board's. Whoever begins a job sets it before, and it runs for all of the
    /// job. The same goes for a recovery.
    ///
    /// # Errors
    ///
    /// If the board could not. The job is given up.
    fn wait(&mut self, wait: Wait) -> Result<Clock, Self::Error>;
}

impl<B: Board + ?Sized> Board for &mut B {
    type Error = B::Error;

    fn read(&mut self, register: Register) -> Result<u8, B::Error> {
        (**self).read(register)
    }

    fn write(&mut self, register: Register, value: u8) -> Result<(), B::Error> {
        (**self).write(register, value)
    }

    fn wait(&mut self, wait: Wait) -> Result<Clock, B::Error> {
        (**self).wait(wait)
    }
}

/// What is waited for.
#[derive(Clone, Copy, Debug, PartialEq, Eq, Hash)]
pub enum Wait {
    /// The chip interrupts, or 1 ms is over. It interrupts neither at own STOP nor at a reset, so
    /// the wait has to end by itself. It may end early.
    Interrupt,
    /// 550 µs are over, for the chip's oscillator.
    Pause,
}

/// Whether there is time left.
#[derive(Clone, Copy, Debug, PartialEq, Eq, Hash)]
#[must_use]
pub enum Clock {
    /// There is.
    Running,
    /// There is none: the job is given up.
    RanOut,
}
