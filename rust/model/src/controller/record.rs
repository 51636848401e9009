//! The whole record, part by part, to be looked at and to be set: any record
//! can be, sound or not.

use super::{Controller, PLACES};
use crate::reason::Reason;
use crate::turn::Turn;

/// All that a controller holds.
#[derive(Clone, Debug, PartialEq, Eq)]
pub struct Record {
    /// What the controller waits for.
    pub turn: Turn,
    /// AA, ENSIO, STA, STO and MODE at their places in I2CCON. Its other bits
    /// are not looked at.
    pub control: u8,
    /// INDPTR.
    pub pointer: u8,
    /// Whether the software reset is armed.
    pub armed: bool,
    /// Why a move ended.
    pub reason: Reason,
    /// The place where I2CDAT reads or writes next.
    pub hand: u8,
    /// Data bytes moved since the last accepted I2CCON write.
    pub moved: u8,
    /// I2CCOUNT.
    pub count: u8,
    /// I2CADR.
    pub own: u8,
    /// The clock's register at 02h.
    pub clock_low: u8,
    /// The clock's register at 03h.
    pub clock_high: u8,
    /// I2CTO.
    pub timeout: u8,
    /// I2CMODE.
    pub bus_mode: u8,
    /// The 68 places.
    pub buffer: [u8; PLACES as usize],
}

impl Controller {
    /// The record as it is.
    pub fn record(&self) -> Record {
        Record {
            turn: self.turn,
            control: self.con,
            pointer: self.pointer,
            armed: self.armed,
            reason: self.reason,
            hand: self.hand,
            moved: self.moved,
            count: self.count,
            own: self.own,
            clock_low: self.clock_low,
            clock_high: self.clock_high,
            timeout: self.timeout,
            bus_mode: self.bus_mode,
            buffer: self.buffer,
        }
    }
}

impl From<Record> for Controller {
    fn from(record: Record) -> Self {
        Controller {
            turn: record.turn,
            con: record.control & super::STORED,
            pointer: record.pointer,
            armed: record.armed,
            reason: record.reason,
            hand: record.hand,
            moved: record.moved,
            count: record.count,
            own: record.own,
            clock_low: record.clock_low,
            clock_high: record.clock_high,
            timeout: record.timeout,
            bus_mode: record.bus_mode,
            buffer: record.buffer,
        }
    }
}
