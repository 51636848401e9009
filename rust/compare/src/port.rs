//! The port, libdock.a, beside the independent model: lists of jobs, recoveries and bus events on
//! the model's controller, as the model's driver runs them; a chip that lies; and states of any
//! content and length.
//!
//! The rules are those of `perlovasta_dock.h` and of documents 01 and 02.

pub mod answer;
pub mod any_state;
pub mod asked;
pub mod board;
pub mod bus;
pub mod compare;
pub mod driver;
pub mod exchange;
#[cfg(test)]
mod faults;
pub mod handed;
pub mod item;
pub mod lent;
pub mod liar;
pub mod liars;
pub mod library;
pub mod list;
pub mod lying;
pub mod rule;
pub mod sections;
pub mod settings;
pub mod step;
pub mod tally;
pub mod told;
pub mod traffic;

/// Register 0 when read: I2CSTA.
const STATUS: u8 = 0;
/// I2CCON: SI.
const SI: u8 = 0x08;
/// The status while SI is 0.
const NO_STATUS: u8 = 0xF8;

/// What was found; or, in words, what is wrong.
pub type Checked<T> = Result<T, String>;
