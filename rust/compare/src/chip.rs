//! The virtual chip beside the independent model: accesses, events and jobs in any order on one
//! chip in lent bytes, and on a controller of the model's; bytes that are no record, and records
//! that are not sound.

pub mod compare;
pub mod content;
#[cfg(test)]
mod faults;
pub mod held;
pub mod layout;
pub mod library;
pub mod list;
pub mod reference;
pub mod sections;
pub mod tally;
