//! Values for I2CCON.

use crate::random::Random;

/// I2CCON: acknowledge.
pub const AA: u8 = 0x80;
/// I2CCON: enabled.
pub const ENSIO: u8 = 0x40;
/// I2CCON: START wanted.
pub const STA: u8 = 0x20;
/// I2CCON: STOP wanted.
pub const STO: u8 = 0x10;
/// I2CCON: Buffered mode.
pub const MODE: u8 = 0x01;
/// I2CCON: bits that are ignored when written.
const IGNORED: [u8; 3] = [0x08, 0x04, 0x02];

/// A value for I2CCON at this status; each of the sixteen with ENSIO 1 can come.
pub fn value(status: u8, random: &mut Random) -> u8 {
    let mode = if let 0x08 | 0x10 = status { 10 } else { 50 };
    // As slave STA and STO aren't consulted, and at F8h STO isn't.
    let edges = if status >= 0x60 { 50 } else { 33 };
    let chances = [
        (AA, 65),
        (ENSIO, 96),
        (STA, edges),
        (STO, edges),
        (MODE, mode),
        (random.pick(&IGNORED), 10),
    ];
    let mut value = 0;
    for (bit, percent) in chances {
        if random.percent(percent) {
            value |= bit;
        }
    }
    value
}
