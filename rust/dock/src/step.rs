//! What the board has to do next.

use crate::{Answer, Register};

/// What the board has to do next.
#[derive(Clone, Copy, Debug, PartialEq, Eq, Hash)]
#[must_use = "the port waits for the board to do it"]
pub enum Step {
    /// Write this value to this register.
    Write {
        /// The register.
        register: Register,
        /// The byte to be written.
        value: u8,
    },
    /// Read this register; its value is for the next step.
    Read {
        /// The register.
        register: Register,
    },
    /// Wait until the chip interrupts, 1 ms at most.
    Wait,
    /// Wait 550 µs, for the chip's oscillator.
    Pause,
    /// Nothing any more.
    Over {
        /// The answer; [`port_words`](crate::port_words) has it in words.
        answer: Answer,
        /// `n` for a job that is done; for [`Answer::DataNacked`] the data bytes moved, with the
        /// one not acknowledged; else 0.
        count: u8,
    },
}

impl Step {
    /// The step of this number, as [`sys`](crate::sys) gives it; `None` for a number that is no
    /// step.
    #[must_use]
    pub const fn from_number(number: u32) -> Option<Self> {
        let [kind, first, second, _] = number.to_le_bytes();
        let step = match (
            kind,
            Register::from_number(first),
            Answer::from_number(first),
        ) {
            (1, Some(register), _) => Step::Write {
                register,
                value: second,
            },
            (2, Some(register), _) => Step::Read { register },
            (3, ..) => Step::Wait,
            (4, ..) => Step::Pause,
            (5, _, Some(answer)) => Step::Over {
                answer,
                count: second,
            },
            _ => return None,
        };
        Some(step)
    }
}

#[cfg(test)]
mod tests {
    use super::Step;
    use crate::{Answer, Register};

    #[test]
    fn numbers_are_taken_apart() {
        let write = Step::Write {
            register: Register::AtPointer,
            value: 0x88,
        };
        let read = Step::Read {
            register: Register::Control,
        };
        let over = Step::Over {
            answer: Answer::DataNacked,
            count: 5,
        };
        assert_eq!(Step::from_number(0x0088_0201), Some(write));
        assert_eq!(Step::from_number(0x0302), Some(read));
        assert_eq!(Step::from_number(3), Some(Step::Wait));
        assert_eq!(Step::from_number(4), Some(Step::Pause));
        assert_eq!(Step::from_number(0x0005_1805), Some(over));
    }

    #[test]
    fn other_numbers_are_no_step() {
        // Other kinds, registers and answers.
        for number in [0, 6, 0xFF, 0x0401, 0x0402, 0x0105, 0x1E05] {
            assert_eq!(Step::from_number(number), None);
        }
    }
}
