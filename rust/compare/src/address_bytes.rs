//! One address byte, event 5, of each kind that a controller tells apart.
//!
//! Each row is a trace that ends with the event. What it takes beyond the same trace without its
//! last group is the event, with its entry in the log.

use crate::group::{CONTROL, Group, INDIRECT, POINTER, event, write};
use crate::row::{Call, Expected, Row};

/// INDPTR for I2CADR.
const I2CADR: u8 = 0x01;
/// I2CCON with ENSIO.
const ENABLED: u8 = 0x40;
/// I2CCON with ENSIO and AA.
const ANSWERING: u8 = 0xC0;

struct Kind {
    name: &'static str,
    i2cadr: u8,
    i2ccon: u8,
    byte: u8,
    /// The status that the event gives.
    status: u8,
}

/// A controller that answers to 70h and to General Call, and a byte on its bus.
const fn kind(name: &'static str, byte: u8, status: u8) -> Kind {
    Kind {
        name,
        i2cadr: 0xE1,
        i2ccon: ANSWERING,
        byte,
        status,
    }
}

const KINDS: [Kind; 6] = [
    kind("General Call", 0x00, 0xD0),
    kind("own address, write", 0xE0, 0x60),
    kind("own address, read", 0xE1, 0xA8),
    kind("none: another address", 0xA2, 0xF8),
    Kind {
        i2ccon: ENABLED,
        ..kind("none: AA 0", 0xE0, 0xF8)
    },
    Kind {
        i2cadr: 0x00,
        ..kind("none: 00h, own address zero, GC 0", 0x00, 0xF8)
    },
];

/// A row for each kind.
pub fn address_bytes() -> Vec<Row<'static>> {
    let row = |kind: &Kind| {
        let groups = [listening(kind).as_slice(), &[event([5, kind.byte])]].concat();
        trace(kind.name, groups, kind.status)
    };
    KINDS.iter().map(row).collect()
}

/// The same traces without the event.
pub fn before_address_bytes() -> Vec<Row<'static>> {
    let row = |kind: &Kind| trace(kind.name, listening(kind).to_vec(), 0xF8);
    KINDS.iter().map(row).collect()
}

/// Enabled, then another master's START.
fn listening(kind: &Kind) -> [Group; 4] {
    [
        write(POINTER, I2CADR),
        write(INDIRECT, kind.i2cadr),
        write(CONTROL, kind.i2ccon),
        event([2, 0]),
    ]
}

fn trace(name: &'static str, groups: Vec<Group>, status: u8) -> Row<'static> {
    let expected = Expected::Status(status);
    Row::new(name, Call::Trace, groups.into_flattened(), expected)
}

#[cfg(test)]
mod tests {
    use super::{address_bytes, before_address_bytes};
    use crate::side::{LIBRARY, MODEL};

    #[test]
    fn each_gives_its_status() {
        for row in [address_bytes(), before_address_bytes()].concat() {
            row.calls(LIBRARY, 1);
            row.calls(MODEL, 1);
        }
    }
}
