//! The steps of the port, with registers and answers as numbers: a wrong library can give any.

/// What the board has to do next. Registers and answers are those of `perlovasta_dock.h`.
#[derive(Clone, Copy, Debug, PartialEq, Eq, Hash)]
pub enum Step {
    /// Write this value to this register.
    Write {
        /// The register.
        register: u8,
        /// The byte to be written.
        value: u8,
    },
    /// Read this register; its value is for the next step.
    Read {
        /// The register.
        register: u8,
    },
    /// Wait until the chip interrupts, or a while.
    Wait,
    /// Wait 550 µs, for the chip's oscillator.
    Pause,
    /// Nothing any more.
    Over {
        /// The answer.
        answer: u8,
        /// The count beside it.
        count: u8,
    },
}

impl Step {
    /// The step of this number, as [`perlovasta_dock::sys`] gives it; `None` for a number that is
    /// no step.
    pub const fn from_number(number: u32) -> Option<Self> {
        let [kind, first, second, _] = number.to_le_bytes();
        let step = match kind {
            1 => Step::Write {
                register: first,
                value: second,
            },
            2 => Step::Read { register: first },
            3 => Step::Wait,
            4 => Step::Pause,
            5 => Step::Over {
                answer: first,
                count: second,
            },
            _ => return None,
        };
        Some(step)
    }
}

#[cfg(test)]
mod tests {
    use super::Step;

    #[test]
    fn numbers_are_taken_apart() {
        let write = Step::Write {
            register: 2,
            value: 0x88,
        };
        let over = Step::Over {
            answer: 24,
            count: 5,
        };
        assert_eq!(Step::from_number(0x0088_0201), Some(write));
        assert_eq!(Step::from_number(0x0302), Some(Step::Read { register: 3 }));
        assert_eq!(Step::from_number(3), Some(Step::Wait));
        assert_eq!(Step::from_number(4), Some(Step::Pause));
        assert_eq!(Step::from_number(0x0005_1805), Some(over));
    }

    #[test]
    fn other_numbers_are_no_step() {
        for kind in [0, 6, 0xFF] {
            assert_eq!(Step::from_number(kind), None);
        }
    }
}
