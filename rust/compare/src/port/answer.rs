//! The answers of the port, by their numbers in `perlovasta_dock.h`, and of its board.

use super::Checked;
use crate::port::step::Step;

/// Done.
pub const DONE: u8 = 0;
/// The job or the settings are wrong, or a slice is too short; of bytes to be taken: no read.
pub const MALFORMED: u8 = 21;
/// Not ready.
pub const NOT_READY: u8 = 22;
/// A data byte was not acknowledged.
pub const DATA_NACKED: u8 = 24;
/// A bus fault.
pub const FAULT: u8 = 26;
/// Given up, which the board does where the script has ended; of bytes to be taken, it is not over.
pub const GIVEN_UP: u8 = 27;
/// The board's own answer: the controller refused the event, and the port was given up.
pub const REFUSED: u8 = 28;

/// Over with this answer, and count 0.
pub const fn over(answer: u8) -> Step {
    Step::Over { answer, count: 0 }
}

/// Whether it is over with this answer, and count 0, after what came.
pub fn check_over(step: Step, answer: u8, came: &str) -> Checked<()> {
    if step == over(answer) {
        Ok(())
    } else {
        Err(format!("{came}, and {step:?}, not over with {answer}"))
    }
}
