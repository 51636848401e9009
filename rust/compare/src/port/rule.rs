//! What a job has to come to, by which of the rules.

use super::asked::Asked;
use super::item::Way;
use super::{NO_STATUS, SI};
use crate::steer::control::{ENSIO, STA, STO};
use model::{Controller, Turn};

/// Why a port wants a recovery before a job.
#[derive(Clone, Copy, Debug, PartialEq, Eq)]
pub enum Unready {
    /// It is new.
    New,
    /// The script of its last job ended first, 27.
    ScriptEnded,
    /// An event of its last job was refused, 28.
    Refused,
    /// Something was under way when this came.
    Left(Way),
}

impl Unready {
    /// How many there are.
    pub const KINDS: usize = 3 + Way::ALL.len();

    /// Its number, below [`Unready::KINDS`].
    pub const fn index(self) -> usize {
        match self {
            Unready::New => 0,
            Unready::ScriptEnded => 1,
            Unready::Refused => 2,
            Unready::Left(way) => 3 + way as usize,
        }
    }
}

/// By what a job is judged.
#[derive(Clone, Copy, Debug, PartialEq, Eq)]
pub enum Rule {
    /// The job itself is wrong: 21, with no access.
    Malformed,
    /// The state asks for a recovery first: 22, with no access.
    State,
    /// The chip is not ready: 22, with no write.
    Chip,
    /// As the driver runs it on the same controller.
    Driver,
    /// Others use the bus, which the registers do not show: as the driver runs it where it began
    /// before their traffic.
    Traffic,
}

impl Rule {
    /// The rule for a job on this controller, by a port that wants a recovery first or does not.
    pub fn of(job: &Asked, unready: Option<Unready>, controller: &Controller) -> Self {
        if job.flaw().is_some() {
            // "21 comes before 22."
            Rule::Malformed
        } else if unready.is_some() {
            Rule::State
        } else if !is_idle(controller) {
            Rule::Chip
        } else if controller.turn() == Turn::Free {
            Rule::Driver
        } else {
            Rule::Traffic
        }
    }

    /// Whether a job is begun by it.
    pub const fn begins(self) -> bool {
        matches!(self, Rule::Driver | Rule::Traffic)
    }
}

/// Whether the chip's registers let a job begin: I2CCON enabled, STA, STO and SI 0, I2CSTA F8h.
pub fn is_idle(controller: &Controller) -> bool {
    let control = controller.control() & (ENSIO | STA | STO | SI);
    control == ENSIO && controller.status() == NO_STATUS
}
