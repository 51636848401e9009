//! A model of the PCA9665 parallel-bus to I2C-bus controller, and a driver
//! that runs one read or write job on it.
//!
//! [`Controller`] takes register accesses and bus events and changes its
//! record in place; a refused access or event leaves the whole record as it
//! was. [`Controller::called_by`] tells what an address byte calls, and by
//! which address, and [`Controller::reason`] why a move ended. [`run_job`]
//! runs one [`Job`] over a script of (event, argument) pairs.

#![forbid(unsafe_code)]
#![warn(missing_docs)]

mod address;
mod call;
mod controller;
mod driver;
mod reason;
mod refusal;
mod turn;

pub use address::{Address, Direction};
pub use call::{Call, Matched};
pub use controller::{Controller, PLACES, Record};
pub use driver::{Answer, Job, Kind, OUT_LENGTH, Report, run_job};
pub use reason::Reason;
pub use refusal::Refusal;
pub use turn::{Called, Edge, Turn};
