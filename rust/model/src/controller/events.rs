//! "Events".

use super::{Controller, bit};
use crate::address::{AddressByte, Direction};
use crate::call::{Call, Matched};
use crate::reason::Reason;
use crate::refusal::Refusal;
use crate::turn::{Called, Edge, Turn};

/// The value of an answer that tells ACK, or nothing.
const ACK: u8 = 0;
/// The value of an answer that tells NACK.
const NACK: u8 = 1;

impl Controller {
    /// Takes a bus event, 1 to 14, with its argument. The value is the byte
    /// of event 6, 1 for a NACK in events 5, 7 and 8, else 0.
    pub fn event(&mut self, event: u8, argument: u8) -> Result<u8, Refusal> {
        check_argument(event, argument)?;
        if event == 14 {
            self.reset();
            return Ok(0);
        }
        self.check_sound()?;
        match event {
            1 => self.own_start(),
            2 => self.other_start(),
            3 => self.other_stop(),
            4 => self.own_stop(),
            5 => self.address_in(argument),
            6 => self.byte_out(argument == NACK),
            7 => self.byte_in(argument),
            8 => self.lost_in_address(argument),
            9 => self.lost_in_data(),
            10 => self.illegal_edge(),
            11 => self.sda_held(),
            12 => self.scl_low(),
            _ => self.idle(),
        }
    }

    /// Leads to Host and sets the reason. The hand place goes back to 0 if SI
    /// becomes 1; at 38h, the one status from which an event gives another, it
    /// is 1 already.
    fn give(&mut self, status: u8) {
        self.give_with(status, Edge::Stop);
    }

    fn give_with(&mut self, status: u8, edge: Edge) {
        if !matches!(self.turn, Turn::Host { .. }) {
            self.hand = 0;
        }
        self.turn = Turn::Host { status, edge };
        self.reason = Reason::of_status(status);
    }

    /// Event 1.
    fn own_start(&mut self) -> Result<u8, Refusal> {
        match self.turn {
            Turn::Free if self.start_wanted() => self.give(0x08),
            Turn::Restarting => self.give(0x10),
            _ => return Err(Refusal::NotExpected),
        }
        Ok(0)
    }

    /// Event 2.
    fn other_start(&mut self) -> Result<u8, Refusal> {
        match self.turn {
            Turn::Free | Turn::Busy => self.turn = Turn::Listen,
            Turn::Restarting => self.give(0x10),
            Turn::SlaveReceive(_) => self.give_with(0xA0, Edge::Start),
            _ => return Err(Refusal::NotExpected),
        }
        Ok(0)
    }

    /// Event 3. At 38h it "leads to Free with F8h" (document 02, Ask 2).
    fn other_stop(&mut self) -> Result<u8, Refusal> {
        match self.turn {
            Turn::Busy | Turn::Host { status: 0x38, .. } => self.turn = Turn::Free,
            Turn::SlaveReceive(_) => self.give_with(0xA0, Edge::Stop),
            _ => return Err(Refusal::NotExpected),
        }
        Ok(0)
    }

    /// Event 4.
    fn own_stop(&mut self) -> Result<u8, Refusal> {
        if self.turn != Turn::Stopping {
            return Err(Refusal::NotExpected);
        }
        self.turn = Turn::Free;
        self.con &= !bit::STO;
        Ok(0)
    }

    /// Event 5.
    fn address_in(&mut self, byte: u8) -> Result<u8, Refusal> {
        if self.turn != Turn::Listen {
            return Err(Refusal::NotExpected);
        }
        match self.called_by(byte).call {
            Call::General => self.give(0xD0),
            Call::Own(Direction::Write) => self.give(0x60),
            Call::Own(Direction::Read) => self.give(0xA8),
            Call::None => {
                self.turn = Turn::Busy;
                return Ok(NACK);
            }
        }
        Ok(ACK)
    }

    /// Event 6. In SlaveSend the status after an ACK tells AA.
    fn byte_out(&mut self, nack: bool) -> Result<u8, Refusal> {
        match self.turn {
            Turn::Address => Ok(self.send_address(nack)),
            Turn::Send => {
                let status = if nack { 0x30 } else { 0x28 };
                Ok(self.send_data(nack, status))
            }
            Turn::SlaveSend => {
                let status = match (nack, self.has(bit::AA)) {
                    (true, _) => 0xC0,
                    (false, false) => 0xC8,
                    (false, true) => 0xB8,
                };
                Ok(self.send_data(nack, status))
            }
            _ => Err(Refusal::NotExpected),
        }
    }

    /// Sends the address byte in place 0; it doesn't count as moved.
    fn send_address(&mut self, nack: bool) -> u8 {
        let byte = self.buffer[0];
        self.give(match (AddressByte::new(byte).is_read(), nack) {
            (false, false) => 0x18,
            (false, true) => 0x20,
            (true, false) => 0x40,
            (true, true) => 0x48,
        });
        byte
    }

    /// Sends the next data byte and gives the status at the end of the move:
    /// in Byte mode always, in Buffered mode at the first NACK or at BC.
    fn send_data(&mut self, nack: bool, status: u8) -> u8 {
        // A sound record has moved at 0 in Byte mode, so this is place 0.
        let byte = self.buffer[usize::from(self.moved)];
        self.moved += 1;
        if nack || !self.is_buffered() || self.moved == self.byte_count() {
            self.give(status);
        }
        byte
    }

    /// Event 7.
    fn byte_in(&mut self, byte: u8) -> Result<u8, Refusal> {
        let (after_ack, after_nack) = match self.turn {
            Turn::Receive => (0x50, 0x58),
            Turn::SlaveReceive(Called::Own) => (0x80, 0x88),
            Turn::SlaveReceive(Called::General) => (0xE0, 0xE8),
            _ => return Err(Refusal::NotExpected),
        };
        // A sound record has moved at 0 in Byte mode, so this is place 0.
        self.buffer[usize::from(self.moved)] = byte;
        self.moved += 1;

        let ack = if !self.is_buffered() {
            self.has(bit::AA)
        } else if self.moved == self.byte_count() {
            !self.nacks_last_byte()
        } else {
            // Before the end every byte is ACKed and no status is set.
            return Ok(ACK);
        };
        if ack {
            self.give(after_ack);
            Ok(ACK)
        } else {
            self.give(after_nack);
            Ok(NACK)
        }
    }

    /// Event 8. The smaller byte wins, as a 0 wins each bit.
    fn lost_in_address(&mut self, winner: u8) -> Result<u8, Refusal> {
        if self.turn != Turn::Address || winner >= self.buffer[0] {
            return Err(Refusal::NotExpected);
        }
        match self.called_by(winner).call {
            Call::General => self.give(0xD8),
            Call::Own(Direction::Write) => self.give(0x68),
            Call::Own(Direction::Read) => self.give(0xB0),
            Call::None => {
                self.give(0x38);
                return Ok(NACK);
            }
        }
        Ok(ACK)
    }

    /// Event 9.
    fn lost_in_data(&mut self) -> Result<u8, Refusal> {
        match self.turn {
            Turn::Send | Turn::Receive => self.give(0x38),
            _ => return Err(Refusal::NotExpected),
        }
        Ok(0)
    }

    /// Event 10.
    fn illegal_edge(&mut self) -> Result<u8, Refusal> {
        match self.turn {
            Turn::Off | Turn::Host { .. } => return Err(Refusal::NotExpected),
            Turn::Free | Turn::Busy | Turn::Listen => {}
            _ => self.give(0x00),
        }
        Ok(0)
    }

    /// Event 11.
    fn sda_held(&mut self) -> Result<u8, Refusal> {
        match self.turn {
            Turn::Free if self.start_wanted() => self.give(0x70),
            Turn::Restarting => self.give(0x70),
            _ => return Err(Refusal::NotExpected),
        }
        Ok(0)
    }

    /// Event 12. "Both are expected at 38h with SI 1" (document 02, Ask 2): so
    /// is this one.
    fn scl_low(&mut self) -> Result<u8, Refusal> {
        match self.turn {
            Turn::Off => return Err(Refusal::NotExpected),
            Turn::Host { status, .. } if status != 0x38 => return Err(Refusal::NotExpected),
            _ if !self.has_timeout() => return Err(Refusal::NotExpected),
            _ => self.give(0x78),
        }
        Ok(0)
    }

    /// Event 13.
    fn idle(&mut self) -> Result<u8, Refusal> {
        match self.turn {
            Turn::Busy | Turn::Listen if self.has_timeout() && self.start_wanted() => {
                self.give(0x08);
            }
            _ => return Err(Refusal::NotExpected),
        }
        Ok(0)
    }

    /// What the address byte calls, as events 5 and 8 match it, and the
    /// byte's address.
    ///
    /// Only AA and I2CADR are looked at, and both events keep them: a log of
    /// an accepted event can ask before it or right after it. The match
    /// alone doesn't tell whether the event is expected.
    pub fn called_by(&self, byte: u8) -> Matched {
        let byte = AddressByte::new(byte);
        Matched {
            call: self.call_of(byte),
            address: byte.address(),
        }
    }

    /// "Byte 00h with AA and GC", else "AA 1, I2CADR's address not zero and
    /// equal to the byte's upper seven bits", else none.
    fn call_of(&self, byte: AddressByte) -> Call {
        let own = self.own_address();
        if !self.has(bit::AA) {
            Call::None
        } else if byte == AddressByte::GENERAL_CALL && self.answers_general_call() {
            Call::General
        } else if !own.is_zero() && own == byte.address() {
            Call::Own(byte.direction())
        } else {
            Call::None
        }
    }
}

/// Refusals 1 and 2 of an event.
fn check_argument(event: u8, argument: u8) -> Result<(), Refusal> {
    let allowed = match event {
        5 | 7 | 8 => true,
        6 => argument <= 1,
        1..=14 => argument == 0,
        _ => return Err(Refusal::Unknown),
    };
    if allowed {
        Ok(())
    } else {
        Err(Refusal::Argument)
    }
}
