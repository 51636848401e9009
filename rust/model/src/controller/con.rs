//! "Writing I2CCON".

use super::{Controller, PLACES, bit};
use crate::refusal::Refusal;
use crate::turn::{Called, Edge, Turn};

impl Controller {
    pub(super) fn write_control(&mut self, value: u8) -> Result<(), Refusal> {
        if self.turn.is_wire() {
            return Err(Refusal::WireTurn);
        }
        if let Turn::Host {
            status: 0x00 | 0x70 | 0x78,
            ..
        } = self.turn
        {
            return Err(Refusal::Fault);
        }

        // "STO is stored only where it leads to Stopping": else it stays.
        let mut stored = value & (bit::AA | bit::ENSIO | bit::STA | bit::MODE);
        stored |= self.con & bit::STO;
        let turn = if value & bit::ENSIO == 0 {
            stored &= !bit::STA;
            Turn::Off
        } else {
            self.turn_after(value)?
        };
        if value & bit::MODE != 0 && turn.moves_data() && !self.is_byte_count_usable() {
            return Err(Refusal::ByteCount);
        }
        if turn == Turn::Stopping {
            stored |= bit::STO;
        }

        self.turn = turn;
        self.con = stored;
        self.hand = 0;
        self.moved = 0;
        Ok(())
    }

    /// The turn after a write with ENSIO 1 outside the wire turns.
    fn turn_after(&self, value: u8) -> Result<Turn, Refusal> {
        match self.turn {
            Turn::Off => Ok(Turn::Free),
            Turn::Host { status, edge } => turn_after_status(status, edge, value),
            // F8h: the turn stays.
            turn => Ok(turn),
        }
    }

    /// Whether BC is 1..68.
    fn is_byte_count_usable(&self) -> bool {
        (1..=PLACES).contains(&self.byte_count())
    }
}

/// The turn after a write with ENSIO 1, by the status before it.
fn turn_after_status(status: u8, edge: Edge, value: u8) -> Result<Turn, Refusal> {
    let start = value & bit::STA != 0;
    let stop = value & bit::STO != 0;
    let buffered = value & bit::MODE != 0;

    let turn = match status {
        0x08 | 0x10 if !buffered => Turn::Address,
        0x18 | 0x20 | 0x28 | 0x30 => ending(start, stop).unwrap_or(Turn::Send),
        0x40 | 0x50 if !start && !stop => Turn::Receive,
        0x48 | 0x58 => ending(start, stop).ok_or(Refusal::NotListed)?,
        // "SI stays 1 and status 38h" (document 02, Ask 2).
        0x38 => Turn::Host { status, edge },
        0x60 | 0x68 | 0x80 => Turn::SlaveReceive(Called::Own),
        0xD0 | 0xD8 | 0xE0 => Turn::SlaveReceive(Called::General),
        0x88 | 0xE8 | 0xC0 | 0xC8 => Turn::Busy,
        0xA0 => match edge {
            Edge::Stop => Turn::Free,
            Edge::Start => Turn::Listen,
        },
        0xA8 | 0xB0 | 0xB8 => Turn::SlaveSend,
        _ => return Err(Refusal::NotListed),
    };
    Ok(turn)
}

/// The turn that STA or STO asks for, if either is set; STO goes first.
fn ending(start: bool, stop: bool) -> Option<Turn> {
    if stop {
        Some(Turn::Stopping)
    } else if start {
        Some(Turn::Restarting)
    } else {
        None
    }
}
