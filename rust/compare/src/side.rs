//! Library and model by the same function types, so that both are called alike.
//!
//! Both take the same slices and are called by pointer, so that no caller can inline either. What
//! the library's side of a job does beside its work: it tests whether data and script overlap, and
//! passes thirteen arguments to C. A job whose report is too short does that and no more.

use crate::chip::library::{self, Library};
use crate::reference;
use perlovasta::sys;

/// A job: kind, address, n, data, destination, out, script, report.
pub type Job = fn(u8, u8, u8, &[u8], &mut [u8], &mut [u8], &[u8], &mut [u8]) -> u8;
/// A trace: its groups, its log.
pub type Trace = fn(&[u8], &mut [u8]) -> u8;

/// One of the two.
#[derive(Clone, Copy, Debug)]
pub struct Side {
    /// Runs a job.
    pub job: Job,
    /// Runs a trace.
    pub trace: Trace,
    /// Asks a virtual chip.
    pub chip: Library,
}

/// The proved library.
pub const LIBRARY: Side = Side {
    job: sys::job,
    trace: sys::trace,
    chip: library::LIBRARY,
};

/// The independent model.
pub const MODEL: Side = Side {
    job: reference::job,
    trace: reference::trace,
    chip: library::MODEL,
};
