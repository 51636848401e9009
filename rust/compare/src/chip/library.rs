//! The functions of a virtual chip by pointer, so that the model can be called alike, and that a
//! test of the comparison can put a wrong one in the place of one.

use super::reference;
use perlovasta::sys;

/// A job on a chip: the chip, kind, address, n, data, destination, out, script, report.
pub type Job = fn(&mut [u8], u8, u8, u8, &[u8], &mut [u8], &mut [u8], &[u8], &mut [u8]) -> u8;

/// The functions that are called; numbers and slices as in [`perlovasta::sys`].
#[derive(Clone, Copy, Debug)]
pub struct Library {
    /// The bytes hold a fresh controller.
    pub fresh: fn(&mut [u8]) -> u8,
    /// A register is read: the chip, the register.
    pub read: fn(&mut [u8], u8) -> u32,
    /// A register is written: the chip, the register, the value.
    pub write: fn(&mut [u8], u8, u8) -> u32,
    /// An event comes: the chip, the event, its argument.
    pub event: fn(&mut [u8], u8, u8) -> u32,
    /// A job is run.
    pub job: Job,
}

/// The proved library.
pub const LIBRARY: Library = Library {
    fresh: sys::chip_fresh,
    read: sys::chip_read,
    write: sys::chip_write,
    event: sys::chip_event,
    job: sys::chip_job,
};

/// The independent model, in bytes too.
pub const MODEL: Library = Library {
    fresh: reference::fresh,
    read: reference::read,
    write: reference::write,
    event: reference::event,
    job: reference::job,
};
