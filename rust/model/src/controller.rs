//! The controller record and its registers ("The controller record",
//! "Registers"). I2CCON writes and events are in the modules below.

mod con;
mod events;
mod record;

pub use record::Record;

use crate::address::Address;
use crate::reason::Reason;
use crate::refusal::Refusal;
use crate::turn::Turn;

/// The number of places in the buffer.
pub const PLACES: u8 = 68;

/// The status while SI is 0.
const NO_STATUS: u8 = 0xF8;

/// Bits of I2CCON.
mod bit {
    pub(super) const AA: u8 = 1 << 7;
    pub(super) const ENSIO: u8 = 1 << 6;
    pub(super) const STA: u8 = 1 << 5;
    pub(super) const STO: u8 = 1 << 4;
    pub(super) const SI: u8 = 1 << 3;
    pub(super) const MODE: u8 = 1 << 0;
}

/// The bits of I2CCON that a record holds.
const STORED: u8 = bit::AA | bit::ENSIO | bit::STA | bit::STO | bit::MODE;

/// Numbers of the indirect registers.
mod pointer {
    pub(super) const COUNT: u8 = 0x00;
    pub(super) const OWN: u8 = 0x01;
    pub(super) const CLOCK_LOW: u8 = 0x02;
    pub(super) const CLOCK_HIGH: u8 = 0x03;
    pub(super) const TIMEOUT: u8 = 0x04;
    pub(super) const PRESET: u8 = 0x05;
    pub(super) const BUS_MODE: u8 = 0x06;
    pub(super) const MOVED: u8 = 0x07;
}

/// I2CPRESET: arms the software reset.
const PRESET_ARM: u8 = 0xA5;
/// I2CPRESET: resets as the next accepted write after [`PRESET_ARM`].
const PRESET_RESET: u8 = 0x5A;

/// The controller record.
#[derive(Clone, Debug, PartialEq, Eq)]
pub struct Controller {
    turn: Turn,
    /// AA, ENSIO, STA, STO and MODE at their places in I2CCON. SI is not
    /// here: it is 1 exactly in the turn Host.
    con: u8,
    /// INDPTR.
    pointer: u8,
    /// Whether A5h to I2CPRESET was the last accepted write.
    armed: bool,
    /// Why a move ended.
    reason: Reason,
    /// The place where I2CDAT reads or writes next.
    hand: u8,
    /// Data bytes moved since the last accepted I2CCON write.
    moved: u8,
    /// I2CCOUNT: LB bit 7, BC below.
    count: u8,
    /// I2CADR: address in 7..1, GC bit 0.
    own: u8,
    clock_low: u8,
    clock_high: u8,
    /// I2CTO: TE bit 7.
    timeout: u8,
    /// I2CMODE, two bits.
    bus_mode: u8,
    buffer: [u8; PLACES as usize],
}

impl Controller {
    /// A controller as after reset, but with no reason yet, and with all
    /// places of the buffer at zero.
    pub fn fresh() -> Self {
        let mut controller = Controller {
            turn: Turn::Off,
            con: 0,
            pointer: 0,
            armed: false,
            reason: Reason::NoneYet,
            hand: 0,
            moved: 0,
            count: 0,
            own: 0,
            clock_low: 0,
            clock_high: 0,
            timeout: 0,
            bus_mode: 0,
            buffer: [0; PLACES as usize],
        };
        controller.reset();
        // No reset came: "the program's fresh controller: none yet".
        controller.reason = Reason::NoneYet;
        controller
    }

    /// Reset, by pin or by software; the buffer is kept.
    fn reset(&mut self) {
        self.turn = Turn::Off;
        self.con = 0x00;
        self.pointer = 0;
        self.armed = false;
        self.reason = Reason::Reset;
        self.hand = 0;
        self.moved = 0;
        self.count = 0x01;
        self.own = 0xE0;
        self.clock_low = 0x9D;
        self.clock_high = 0x86;
        self.timeout = 0xFF;
        self.bus_mode = 0x00;
    }

    /// Reads a register, 0 to 3.
    #[inline]
    pub fn read(&mut self, register: u8) -> Result<u8, Refusal> {
        if register > 3 {
            return Err(Refusal::Unknown);
        }
        self.check_sound()?;
        match register {
            0 => Ok(self.status()),
            1 => self.read_data(),
            2 => self.read_indirect(),
            _ => Ok(self.control()),
        }
    }

    /// Writes a register, 0 to 3.
    #[inline]
    pub fn write(&mut self, register: u8, value: u8) -> Result<u8, Refusal> {
        if register > 3 {
            return Err(Refusal::Unknown);
        }
        self.check_sound()?;
        match register {
            0 => self.pointer = value & 0x07,
            1 => self.write_data(value)?,
            2 if self.pointer == pointer::PRESET => {
                self.write_preset(value);
                return Ok(0);
            }
            2 => self.write_indirect(value)?,
            _ => self.write_control(value)?,
        }
        // Any accepted write but A5h to I2CPRESET disarms.
        self.armed = false;
        Ok(0)
    }

    fn read_data(&mut self) -> Result<u8, Refusal> {
        if self.turn.is_wire() {
            return Err(Refusal::WireTurn);
        }
        let place = self.buffer.get(usize::from(self.hand));
        let byte = *place.ok_or(Refusal::HandAtEnd)?;
        self.hand += 1;
        Ok(byte)
    }

    fn write_data(&mut self, value: u8) -> Result<(), Refusal> {
        if self.turn.is_wire() {
            return Err(Refusal::WireTurn);
        }
        let place = self.buffer.get_mut(usize::from(self.hand));
        *place.ok_or(Refusal::HandAtEnd)? = value;
        self.hand += 1;
        Ok(())
    }

    fn read_indirect(&self) -> Result<u8, Refusal> {
        match self.pointer {
            pointer::COUNT => Ok(self.count),
            pointer::OWN => Ok(self.own),
            pointer::CLOCK_LOW => Ok(self.clock_low),
            pointer::CLOCK_HIGH => Ok(self.clock_high),
            pointer::TIMEOUT => Ok(self.timeout),
            pointer::BUS_MODE => Ok(self.bus_mode),
            pointer::MOVED => Ok(self.moved),
            _ => Err(Refusal::Pointer),
        }
    }

    /// A write to register 2 with any pointer but 05h.
    fn write_indirect(&mut self, value: u8) -> Result<(), Refusal> {
        if self.pointer == pointer::MOVED {
            return Err(Refusal::Pointer);
        }
        if self.turn.is_wire() {
            return Err(Refusal::WireTurn);
        }
        match self.pointer {
            pointer::COUNT => self.count = value,
            pointer::OWN => self.own = value,
            pointer::CLOCK_LOW => self.clock_low = value,
            pointer::CLOCK_HIGH => self.clock_high = value,
            pointer::TIMEOUT => self.timeout = value,
            // The only one left is 06h, I2CMODE.
            _ => self.bus_mode = value & 0x03,
        }
        Ok(())
    }

    /// A write to I2CPRESET, allowed in every turn.
    fn write_preset(&mut self, value: u8) {
        if self.armed && value == PRESET_RESET {
            self.reset();
        } else {
            self.armed = value == PRESET_ARM;
        }
    }

    /// Whether the record is sound ("The controller record").
    #[inline]
    pub fn is_sound(&self) -> bool {
        self.pointer <= 7
            && self.hand <= PLACES
            && self.moved <= PLACES
            && self.bus_mode <= 3
            && match self.turn {
                Turn::Host { status, .. } => is_given(status),
                turn if turn.moves_data() => self.is_move_sound(),
                _ => true,
            }
    }

    /// The part of soundness that speaks of the turns that move data.
    fn is_move_sound(&self) -> bool {
        if self.is_buffered() {
            self.moved < self.byte_count() && self.byte_count() <= PLACES
        } else {
            self.moved == 0
        }
    }

    #[inline]
    fn check_sound(&self) -> Result<(), Refusal> {
        if self.is_sound() {
            Ok(())
        } else {
            Err(Refusal::Unsound)
        }
    }

    /// What the controller waits for.
    #[inline]
    pub fn turn(&self) -> Turn {
        self.turn
    }

    /// The place where I2CDAT reads or writes next.
    #[inline]
    pub fn hand(&self) -> u8 {
        self.hand
    }

    /// Data bytes moved since the last accepted I2CCON write.
    #[inline]
    pub fn moved(&self) -> u8 {
        self.moved
    }

    /// INDPTR.
    #[inline]
    pub fn pointer(&self) -> u8 {
        self.pointer
    }

    /// Whether the software reset is armed.
    #[inline]
    pub fn armed(&self) -> bool {
        self.armed
    }

    /// Why a move ended.
    #[inline]
    pub fn reason(&self) -> Reason {
        self.reason
    }

    /// The 68 places.
    #[inline]
    pub fn buffer(&self) -> &[u8; PLACES as usize] {
        &self.buffer
    }

    /// I2CSTA: F8h exactly when SI is 0.
    #[inline]
    pub fn status(&self) -> u8 {
        match self.turn {
            Turn::Host { status, .. } => status,
            _ => NO_STATUS,
        }
    }

    /// I2CCON as it reads.
    #[inline]
    pub fn control(&self) -> u8 {
        match self.turn {
            Turn::Host { .. } => self.con | bit::SI,
            _ => self.con,
        }
    }

    /// Whether the bit (or any of the bits) of I2CCON is 1.
    #[inline]
    fn has(&self, bits: u8) -> bool {
        self.con & bits != 0
    }

    /// STA.
    #[inline]
    pub(crate) fn start_wanted(&self) -> bool {
        self.has(bit::STA)
    }

    /// ENSIO.
    #[inline]
    pub(crate) fn is_enabled(&self) -> bool {
        self.has(bit::ENSIO)
    }

    /// MODE 1.
    #[inline]
    fn is_buffered(&self) -> bool {
        self.has(bit::MODE)
    }

    /// BC.
    #[inline]
    fn byte_count(&self) -> u8 {
        self.count & 0x7F
    }

    /// LB.
    #[inline]
    fn nacks_last_byte(&self) -> bool {
        self.count & 0x80 != 0
    }

    /// TE.
    #[inline]
    fn has_timeout(&self) -> bool {
        self.timeout & 0x80 != 0
    }

    /// GC.
    #[inline]
    fn answers_general_call(&self) -> bool {
        self.own & 0x01 != 0
    }

    #[inline]
    fn own_address(&self) -> Address {
        Address::from_own_register(self.own)
    }
}

/// Whether the rules give this status to a Host turn.
const fn is_given(status: u8) -> bool {
    matches!(
        status,
        0x00 | 0x08
            | 0x10
            | 0x18
            | 0x20
            | 0x28
            | 0x30
            | 0x38
            | 0x40
            | 0x48
            | 0x50
            | 0x58
            | 0x60
            | 0x68
            | 0x70
            | 0x78
            | 0x80
            | 0x88
            | 0xA0
            | 0xA8
            | 0xB0
            | 0xB8
            | 0xC0
            | 0xC8
            | 0xD0
            | 0xD8
            | 0xE0
            | 0xE8
    )
}

#[cfg(test)]
mod tests;
