//! The proved driver for a PCA9665, asked for one register access at a time.
//!
//! A [`Port`] makes no access itself: a [`Board`] does. The port keeps some 150 bytes and needs no
//! heap. The crate `perlovasta` has a virtual chip, on which a board can be tried.
//!
//! # A badge is read
//!
//! A board has three methods. In place of a chip this one has a list of what the registers read,
//! one value for each read, and in place of a clock the number of waits that are left.
//!
//! The port never gives up by itself: [`Port::read`] and [`Port::write`], once begun, end only when
//! the chip is done, the board fails, or [`Board::wait`] says that the time ran out. Set the clock
//! before each job, recovery included.
//!
//! ```
//! use perlovasta_dock::{Address, Answer, Board, Clock, Port, Register, Setting, Wait};
//! use std::convert::Infallible;
//!
//! struct Registers {
//!     values: Vec<u8>,
//!     waits: u32,
//! }
//!
//! /// A board with these values, and the clock set: to six waits.
//! fn board(values: Vec<u8>) -> Registers {
//!     Registers { values, waits: 6 }
//! }
//!
//! impl Board for Registers {
//!     type Error = Infallible;
//!
//!     fn read(&mut self, _: Register) -> Result<u8, Infallible> {
//!         Ok(self.values.remove(0))
//!     }
//!     fn write(&mut self, _: Register, _: u8) -> Result<(), Infallible> {
//!         Ok(()) // a board writes it
//!     }
//!     fn wait(&mut self, _: Wait) -> Result<Clock, Infallible> {
//!         // a board waits, and looks at its clock
//!         if self.waits == 0 {
//!             return Ok(Clock::RanOut);
//!         }
//!         self.waits -= 1;
//!         Ok(Clock::Running)
//!     }
//! }
//!
//! // First the chip is brought back, whatever it was doing. I2CTO is set to FFh.
//! let mut port = Port::new();
//! port.recover(&mut board(vec![]), &[Setting::TimeOut(0xFF)])?;
//!
//! // The reader stands at address 50h, and its badge has four bytes.
//! let reader = Address::new(0x50)?;
//! let mut good = board(vec![
//!     0x40, 0xF8, // I2CCON and I2CSTA: enabled, and nothing under way
//!     0x68, 0x08, // own START
//!     0x48, 0x40, // the address byte was acknowledged
//!     0x49, 0x58, 0x04, 0xA2, 0x19, 0x6E, // four bytes came in
//!     0x49, // and nothing has happened to the chip meanwhile
//!     0x40, // own STOP
//! ]);
//! let badge = port.read(&mut good, reader, 4)?;
//! assert_eq!(badge, [0x04, 0xA2, 0x19, 0x6E]);
//!
//! // Where the reader does not acknowledge its address, the job says so, and there are no bytes.
//! let mut absent = board(vec![0x40, 0xF8, 0x68, 0x08, 0x48, 0x48, 0x40]);
//! let error = port.read(&mut absent, reader, 4).unwrap_err();
//! assert_eq!(error.answer(), Answer::AddressNacked);
//!
//! // Where no START comes, SI stays 0, and the time runs out. A recovery is next then.
//! let mut stuck = board([&[0x40, 0xF8][..], &[0x60; 6]].concat());
//! let error = port.read(&mut stuck, reader, 4).unwrap_err();
//! assert_eq!(error.answer(), Answer::Unfinished);
//! assert_eq!(error.to_string(), "given up: the time ran out");
//! port.recover(&mut board(vec![]), &[])?;
//! # Ok::<(), Box<dyn std::error::Error>>(())
//! ```
//!
//! # What does not compile
//!
//! Using a badge without looking whether it was read does not compile. With the look it does:
//!
//! ```
//! # use perlovasta_dock::{Address, Board, Port};
//! fn last_byte<B: Board>(port: &mut Port, board: &mut B, reader: Address) -> Option<u8> {
//!     port.read(board, reader, 8).ok().map(|badge| badge[7])
//! }
//! ```
//!
//! and without it does not:
//!
//! ```compile_fail,E0608
//! # use perlovasta_dock::{Address, Board, Port};
//! fn last_byte<B: Board>(port: &mut Port, board: &mut B, reader: Address) -> Option<u8> {
//!     let badge = port.read(board, reader, 8);
//!     Some(badge[7])
//! }
//! ```
//!
//! Dropping an answer, or a step that the board has to do, is a warning. It does not compile where
//! the caller's crate has `#![deny(unused_must_use)]`. Handed on they do:
//!
//! ```
//! #![deny(unused_must_use)]
//! # use perlovasta_dock::{Address, Board, Port, Step};
//! fn open<B: Board>(port: &mut Port, board: &mut B, lock: Address) -> Option<()> {
//!     port.write(board, lock, &[0x01]).ok()
//! }
//! fn open_later(port: &mut Port, lock: Address) -> Step {
//!     port.start_write(lock, &[0x01])
//! }
//! ```
//!
//! and dropped they do not:
//!
//! ```compile_fail
//! #![deny(unused_must_use)]
//! # use perlovasta_dock::{Address, Board, Port, Step};
//! fn open<B: Board>(port: &mut Port, board: &mut B, lock: Address) -> Option<()> {
//!     port.write(board, lock, &[0x01]);
//!     Some(())
//! }
//! ```
//!
//! ```compile_fail
//! #![deny(unused_must_use)]
//! # use perlovasta_dock::{Address, Board, Port, Step};
//! fn open_later(port: &mut Port, lock: Address) {
//!     port.start_write(lock, &[0x01]);
//! }
//! ```
//!
//! Passing a number in the place of an address does not compile. With the address it does:
//!
//! ```
//! # use perlovasta_dock::{Address, AddressError, Port, Step};
//! fn begin(port: &mut Port) -> Result<Step, AddressError> {
//!     Ok(port.start_read(Address::new(0x50)?, 8))
//! }
//! ```
//!
//! and with a number it does not:
//!
//! ```compile_fail,E0308
//! # use perlovasta_dock::{Address, AddressError, Port, Step};
//! fn begin(port: &mut Port) -> Result<Step, AddressError> {
//!     Ok(port.start_read(0x50, 8))
//! }
//! ```
//!
//! # What still compiles
//!
//! An answer that is thrown away by name, and a loop over steps that never looks at the answer:
//!
//! ```
//! #![deny(unused_must_use)]
//! # use perlovasta_dock::{Address, Board, Port, Step};
//! fn open<B: Board>(port: &mut Port, board: &mut B, lock: Address) {
//!     let _ = port.write(board, lock, &[0x01]);
//!     port.write(board, lock, &[0x01]).ok();
//! }
//! fn open_by_steps(port: &mut Port, lock: Address) {
//!     let mut step = port.start_write(lock, &[0x01]);
//!     while !matches!(step, Step::Over { .. }) {
//!         step = port.next(0);
//!     }
//! }
//! ```
//!
//! # The library
//!
//! The build links libdock.a from the folder that the environment variable `PERLOVASTA_LIB_DIR`
//! names, a relative one from the repository's root; without it, or where it is empty, from where
//! `sh tests/build library dock` puts it. It is built for x86-64 Linux.

#![no_std]
#![deny(unsafe_code)]
#![warn(missing_docs)]

mod board;
mod port;
mod port_error;
mod run;
mod setting;
mod step;
#[allow(unsafe_code)]
pub mod sys;
mod take_error;
mod words;

pub use board::{Board, Clock, Wait};
pub use perlovasta_terms::{
    Address, AddressError, Answer, Argument, Bytes, PLACES, Pointer, Register,
};
pub use port::Port;
pub use port_error::PortError;
pub use setting::Setting;
pub use step::Step;
pub use take_error::TakeError;
pub use words::port_words;

/// The bytes of a state in [`sys`].
pub const STATE_LEN: usize = 148;
