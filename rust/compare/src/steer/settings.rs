//! Sequences of accesses that set a controller up.

use crate::group::{DATA, Group, INDIRECT, POINTER, event, read, write};
use crate::random::Random;
use crate::steer::pair;

/// Pointer of I2CPRESET.
pub const PRESET: u8 = 5;
/// I2CPRESET: arms the software reset.
const ARM: u8 = 0xA5;
/// I2CPRESET: resets if armed.
pub const RESET: u8 = 0x5A;

/// A pointer, then the register there written, read or both.
pub fn setting(random: &mut Random) -> Vec<Group> {
    let pointer = random.pick(&[0, 0, 0, 1, 1, 1, 2, 3, 4, 5, 6, 7]);
    let value = match pointer {
        0 => count_value(random),
        1 => random.pick_or_any(&[0x00, 0x01, 0x01, 0x10, 0x11, 0x11, 0xA1]),
        4 => random.pick_or_any(&[0x00, 0x7F, 0x80, 0xFF, 0xFF]),
        _ => random.byte(),
    };
    // The bits over the low three are dropped.
    let upper = random.pick_or_any(&[0, 0, 0]) & 0xF8;
    let mut groups = vec![write(POINTER, upper | pointer)];
    match random.below(4) {
        0 => groups.push(read(INDIRECT)),
        1 => groups.extend([write(INDIRECT, value), read(INDIRECT)]),
        _ => groups.push(write(INDIRECT, value)),
    }
    groups
}

/// I2CCOUNT set, mostly to a valid count.
pub fn count(random: &mut Random) -> Vec<Group> {
    let value = count_value(random);
    vec![write(POINTER, 0), write(INDIRECT, value)]
}

fn count_value(random: &mut Random) -> u8 {
    let last_byte = random.pick(&[0x00, 0x80]);
    let count = random.pick_or_any(&[0, 1, 1, 2, 2, 3, 4, 5, 8, 13, 67, 68, 69]);
    last_byte | count & 0x7F
}

/// The software reset, at times disturbed between its two writes.
pub fn software_reset(random: &mut Random) -> Vec<Group> {
    let mut groups = vec![write(POINTER, PRESET), write(INDIRECT, ARM)];
    match random.below(12) {
        // Read, refused accesses and events leave it armed.
        0 => groups.push(read(0)),
        1 => groups.push(read(INDIRECT)),
        2 => groups.push(event(pair::any(random))),
        // Armed again.
        3 => groups.push(write(INDIRECT, ARM)),
        // Disarmed.
        4 => groups.push(write(POINTER, PRESET)),
        5 => groups.push(write(INDIRECT, random.byte())),
        6 => groups.push(write(DATA, random.byte())),
        _ => {}
    }
    groups.push(write(INDIRECT, RESET));
    groups
}

/// Accesses to I2CDAT, at times up to the buffer's end and beyond.
pub fn burst(random: &mut Random) -> Vec<Group> {
    let length = random.pick(&[1, 1, 2, 2, 3, 5, 8, 67, 69, 72]);
    let reads = random.pick(&[0, 50, 100]);
    let mut groups = Vec::new();
    for _ in 0..length {
        groups.push(if random.percent(reads) {
            read(DATA)
        } else {
            write(DATA, random.byte())
        });
    }
    groups
}
