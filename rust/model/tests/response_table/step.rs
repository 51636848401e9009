//! One access or event.

use model::{Controller, Refusal};

pub const AA: u8 = 0x80;
pub const ENSIO: u8 = 0x40;
pub const STA: u8 = 0x20;
pub const STO: u8 = 0x10;
pub const MODE: u8 = 0x01;

/// The status while SI is 0; a way from it begins in Off.
pub const NO_STATUS: u8 = 0xF8;

/// INDPTR, when written.
pub const INDPTR: u8 = 0;
pub const I2CDAT: u8 = 1;
/// The register at the pointer.
pub const INDIRECT: u8 = 2;
pub const I2CCON: u8 = 3;

/// One access or event.
#[derive(Clone, Copy, Debug)]
pub enum Step {
    /// A read of this register.
    Read(u8),
    /// A write of this register with this value.
    Write(u8, u8),
    /// This event with this argument.
    Event(u8, u8),
}

impl Step {
    /// Gives the step to the controller.
    pub fn take(self, controller: &mut Controller) -> Result<u8, Refusal> {
        match self {
            Step::Read(register) => controller.read(register),
            Step::Write(register, value) => controller.write(register, value),
            Step::Event(event, argument) => controller.event(event, argument),
        }
    }
}
