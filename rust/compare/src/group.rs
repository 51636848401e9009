//! The groups of a trace.

use crate::random::Random;

/// Kind, then register or event, then value or argument.
pub type Group = [u8; 3];

/// Kind of a group: read a register.
pub const READ: u8 = 0;
/// Kind of a group: write a register.
pub const WRITE: u8 = 1;
/// Kind of a group: give an event.
pub const EVENT: u8 = 2;

/// Register 0 when written: INDPTR.
pub const POINTER: u8 = 0;
/// Register 1: I2CDAT.
pub const DATA: u8 = 1;
/// Register 2: the register at the pointer.
pub const INDIRECT: u8 = 2;
/// Register 3: I2CCON.
pub const CONTROL: u8 = 3;

/// Reads a register.
pub const fn read(register: u8) -> Group {
    [READ, register, 0]
}

/// Writes a register.
pub const fn write(register: u8, value: u8) -> Group {
    [WRITE, register, value]
}

/// Gives an event.
pub const fn event([event, argument]: [u8; 2]) -> Group {
    [EVENT, event, argument]
}

/// Any group at all.
pub fn any(random: &mut Random) -> Group {
    [random.below(3) as u8, random.byte(), random.byte()]
}

/// Any access; a register over 3 is rare.
pub fn any_access(random: &mut Random) -> Group {
    let register = random.below(4) + random.below(40) / 39;
    [random.below(2) as u8, register as u8, random.byte()]
}
