//! What a job is asked with and answered, for `perlovasta` and `perlovasta-dock` alike. Both hand
//! all of it on under their own names.

#![no_std]
#![forbid(unsafe_code)]
#![warn(missing_docs)]

#[cfg(test)]
extern crate std;

mod address;
mod answer;
mod argument;
mod bytes;
mod pointer;
mod register;

pub use address::{Address, AddressError};
pub use answer::Answer;
pub use argument::Argument;
pub use bytes::Bytes;
pub use pointer::Pointer;
pub use register::Register;

/// The places of the buffer: the most data bytes that one job moves.
pub const PLACES: usize = 68;
