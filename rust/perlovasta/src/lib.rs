//! Safe interface to the proved model of the PCA9665 I2C controller and the driver on top of it.
//!
//! [`read()`] and [`write()`] run one job on a fresh controller against a script of bus events, and
//! [`trace`] a list of register accesses and bus events; they keep nothing from one call to the
//! next. A [`VirtualChip`] is a controller that is held for as long as one likes.
//!
//! The crate needs `alloc`: a script is copied to pairs of bytes. The crate `perlovasta-dock` has
//! the driver for a chip on a board, and needs no heap.
//!
//! # A badge is read
//!
//! The reader stands at address 50h, and a badge has eight bytes. The script is what the bus does:
//! own START, the address byte acknowledged, eight bytes in, own STOP.
//!
//! ```
//! use perlovasta::{Acknowledge, Address, Event};
//!
//! let reader = Address::new(0x50)?;
//! let mut script = vec![Event::OwnStart, Event::ByteOut(Acknowledge::Ack)];
//! script.extend([0x04, 0xA2, 0x19, 0x6E, 0x35, 0x80, 0x00, 0x5C].map(Event::ByteIn));
//! script.push(Event::OwnStop);
//!
//! let badge = perlovasta::read(reader, 8, &script)?;
//! assert_eq!(badge, [0x04, 0xA2, 0x19, 0x6E, 0x35, 0x80, 0x00, 0x5C]);
//! assert_eq!(badge.sent(), [0xA1]); // the address byte: 2 x 50h + 1, for a read
//! # Ok::<(), Box<dyn std::error::Error>>(())
//! ```
//!
//! Where the reader does not acknowledge its address, the job says so, and there are no bytes:
//!
//! ```
//! use perlovasta::{Acknowledge, Address, Answer, Event};
//!
//! let reader = Address::new(0x50)?;
//! let script = [Event::OwnStart, Event::ByteOut(Acknowledge::Nack), Event::OwnStop];
//! let error = perlovasta::read(reader, 8, &script).unwrap_err();
//! assert_eq!(error.answer(), Answer::AddressNacked);
//! assert_eq!(error.to_string(), "the reader did not answer its address");
//! assert_eq!(error.sent(), [0xA1]);
//! # Ok::<(), perlovasta::AddressError>(())
//! ```
//!
//! # What does not compile
//!
//! Using a badge without looking whether it was read does not compile. With the look it does:
//!
//! ```
//! # use perlovasta::{Address, Event};
//! fn last_byte(reader: Address, script: &[Event]) -> Option<u8> {
//!     perlovasta::read(reader, 8, script).ok().map(|badge| badge[7])
//! }
//! ```
//!
//! and without it does not:
//!
//! ```compile_fail,E0608
//! # use perlovasta::{Address, Event};
//! fn last_byte(reader: Address, script: &[Event]) -> Option<u8> {
//!     let badge = perlovasta::read(reader, 8, script);
//!     Some(badge[7])
//! }
//! ```
//!
//! Dropping an answer is a warning. It does not compile where the caller's crate has
//! `#![deny(unused_must_use)]`. Handed on it does:
//!
//! ```
//! #![deny(unused_must_use)]
//! # use perlovasta::{Address, Event, JobError};
//! fn open(lock: Address, script: &[Event]) -> Result<(), JobError> {
//!     perlovasta::write(lock, &[0x01], script)?;
//!     Ok(())
//! }
//! ```
//!
//! and dropped it does not:
//!
//! ```compile_fail
//! #![deny(unused_must_use)]
//! # use perlovasta::{Address, Event, JobError};
//! fn open(lock: Address, script: &[Event]) -> Result<(), JobError> {
//!     perlovasta::write(lock, &[0x01], script);
//!     Ok(())
//! }
//! ```
//!
//! Passing an address byte or a number in the place of an address does not compile. With the
//! address it does:
//!
//! ```
//! # use perlovasta::{Address, JobError, Read};
//! const READER: Address = match Address::new(0x50) {
//!     Ok(address) => address,
//!     Err(_) => panic!("no device's address"),
//! };
//! fn badge() -> Result<Read, JobError> {
//!     perlovasta::read(READER, 8, &[])
//! }
//! ```
//!
//! and with the others it does not:
//!
//! ```compile_fail,E0080
//! # use perlovasta::{Address, JobError, Read};
//! const READER: Address = match Address::new(0xA0) {
//!     Ok(address) => address,
//!     Err(_) => panic!("no device's address"),
//! };
//! fn badge() -> Result<Read, JobError> {
//!     perlovasta::read(READER, 8, &[])
//! }
//! ```
//!
//! ```compile_fail,E0308
//! # use perlovasta::{Address, JobError, Read};
//! fn badge() -> Result<Read, JobError> {
//!     perlovasta::read(0x50, 8, &[])
//! }
//! ```
//!
//! # What still compiles
//!
//! An answer that is thrown away by name:
//!
//! ```
//! #![deny(unused_must_use)]
//! # use perlovasta::{Address, Event};
//! fn open(lock: Address, script: &[Event]) {
//!     let _ = perlovasta::write(lock, &[0x01], script);
//!     perlovasta::write(lock, &[0x01], script).ok();
//! }
//! ```
//!
//! # The library
//!
//! The build links libperlovasta.a from the folder that the environment variable
//! `PERLOVASTA_LIB_DIR` names, a relative one from the repository's root; without it, or where it
//! is empty, from where `sh tests/build library perlovasta` puts it. It is built for x86-64 Linux.

#![no_std]
#![deny(unsafe_code)]
#![warn(missing_docs)]

extern crate alloc;
#[cfg(test)]
extern crate std;

mod access;
mod chip;
mod entry;
mod event;
mod fresh;
mod job;
mod job_error;
mod reason;
mod refusal;
#[allow(unsafe_code)]
pub mod sys;
mod trace;
mod turn;

pub use access::{Access, AccessError};
pub use chip::{NoRecord, VirtualChip};
pub use entry::Entry;
pub use event::{Acknowledge, Event, ScriptError};
pub use fresh::{Read, Written, read, write};
pub use job_error::JobError;
pub use perlovasta_terms::{
    Address, AddressError, Answer, Argument, Bytes, PLACES, Pointer, Register,
};
pub use reason::Reason;
pub use refusal::Refusal;
pub use trace::trace;
pub use turn::{Called, Edge, Turn};

/// The least length of a job's out record in [`sys`]: the address byte and the data.
pub const OUT_LEN: usize = 1 + PLACES;
/// The bytes of a job's report in [`sys`].
pub const REPORT_LEN: usize = 12;
/// The bytes of a trace for each access or event in [`sys`].
pub const GROUP_LEN: usize = 3;
/// The bytes of a log for each access or event in [`sys`].
pub const ENTRY_LEN: usize = 8;
/// The bytes of a [`VirtualChip`].
pub const CHIP_LEN: usize = 88;
