//! What happens on the bus.

use crate::Refusal;
use alloc::vec::Vec;
use core::error::Error;
use core::fmt;

/// What happens on the bus, or at the reset pin.
#[derive(Clone, Copy, Debug, PartialEq, Eq, Hash)]
pub enum Event {
    /// The controller's own START, a repeated one too.
    OwnStart,
    /// Another's START.
    AnothersStart,
    /// Another's STOP.
    AnothersStop,
    /// The controller's own STOP.
    OwnStop,
    /// Another's address byte comes in.
    AddressByte(u8),
    /// The controller's byte goes out, and the other side acknowledges it or not.
    ByteOut(Acknowledge),
    /// A data byte comes in.
    ByteIn(u8),
    /// Arbitration is lost in the address byte; this is the winner's.
    LostInAddress(u8),
    /// Arbitration is lost in a data byte.
    LostInData,
    /// A START or STOP at an illegal place.
    IllegalPlace,
    /// SDA is held after nine clocks.
    SdaHeld,
    /// SCL is low past the time-out.
    SclLow,
    /// The bus is idle past the time-out.
    Idle,
    /// The reset pin is pulled.
    ResetPin,
}

/// Whether a byte is acknowledged.
#[derive(Clone, Copy, Debug, PartialEq, Eq, Hash)]
pub enum Acknowledge {
    /// It is.
    Ack,
    /// It is not.
    Nack,
}

impl Acknowledge {
    /// 0 for an ACK, 1 for a NACK.
    #[must_use]
    pub const fn number(self) -> u8 {
        self as u8
    }
}

impl Event {
    /// The event's number, 1 to 14, and its argument, 0 where it has none.
    #[must_use]
    pub const fn pair(self) -> [u8; 2] {
        match self {
            Event::OwnStart => [1, 0],
            Event::AnothersStart => [2, 0],
            Event::AnothersStop => [3, 0],
            Event::OwnStop => [4, 0],
            Event::AddressByte(byte) => [5, byte],
            Event::ByteOut(acknowledge) => [6, acknowledge.number()],
            Event::ByteIn(byte) => [7, byte],
            Event::LostInAddress(byte) => [8, byte],
            Event::LostInData => [9, 0],
            Event::IllegalPlace => [10, 0],
            Event::SdaHeld => [11, 0],
            Event::SclLow => [12, 0],
            Event::Idle => [13, 0],
            Event::ResetPin => [14, 0],
        }
    }

    /// The script in these bytes, pairs of an event's number and its argument.
    ///
    /// # Errors
    ///
    /// If the last pair is not whole, or a pair is no event; all pairs are looked at.
    ///
    /// ```
    /// use perlovasta::{Event, ScriptError};
    ///
    /// let script = Event::script(&[1, 0, 7, 0x5C])?;
    /// assert_eq!(script, [Event::OwnStart, Event::ByteIn(0x5C)]);
    /// assert_eq!(Event::script(&[1, 0, 7]), Err(ScriptError::Odd));
    /// # Ok::<(), ScriptError>(())
    /// ```
    pub fn script(bytes: &[u8]) -> Result<Vec<Event>, ScriptError> {
        let (pairs, rest) = bytes.as_chunks::<2>();
        if !rest.is_empty() {
            return Err(ScriptError::Odd);
        }
        let events = pairs.iter().zip(0..).map(|(&pair, index)| {
            Event::try_from(pair).map_err(|refusal| ScriptError::Pair { index, refusal })
        });
        events.collect()
    }
}

impl TryFrom<[u8; 2]> for Event {
    /// What a controller would refuse the pair for.
    type Error = Refusal;

    fn try_from([number, argument]: [u8; 2]) -> Result<Self, Refusal> {
        let event = match number {
            1 => Event::OwnStart,
            2 => Event::AnothersStart,
            3 => Event::AnothersStop,
            4 => Event::OwnStop,
            5 => Event::AddressByte(argument),
            6 if argument == 0 => Event::ByteOut(Acknowledge::Ack),
            6 => Event::ByteOut(Acknowledge::Nack),
            7 => Event::ByteIn(argument),
            8 => Event::LostInAddress(argument),
            9 => Event::LostInData,
            10 => Event::IllegalPlace,
            11 => Event::SdaHeld,
            12 => Event::SclLow,
            13 => Event::Idle,
            14 => Event::ResetPin,
            _ => return Err(Refusal::OutOfRange),
        };
        // An argument that the event does not take is not in its pair.
        if event.pair() == [number, argument] {
            Ok(event)
        } else {
            Err(Refusal::BadArgument)
        }
    }
}

impl fmt::Display for Acknowledge {
    fn fmt(&self, f: &mut fmt::Formatter<'_>) -> fmt::Result {
        f.write_str(match self {
            Acknowledge::Ack => "ACK",
            Acknowledge::Nack => "NACK",
        })
    }
}

impl fmt::Display for Event {
    fn fmt(&self, f: &mut fmt::Formatter<'_>) -> fmt::Result {
        f.write_str(match self {
            Event::OwnStart => "own START",
            Event::AnothersStart => "another's START",
            Event::AnothersStop => "another's STOP",
            Event::OwnStop => "own STOP",
            Event::AddressByte(byte) => return write!(f, "address byte {byte:02X}h"),
            Event::ByteOut(acknowledge) => return write!(f, "byte out, {acknowledge}"),
            Event::ByteIn(byte) => return write!(f, "byte in {byte:02X}h"),
            Event::LostInAddress(byte) => {
                return write!(f, "arbitration lost in the address byte to {byte:02X}h");
            }
            Event::LostInData => "arbitration lost in a data byte",
            Event::IllegalPlace => "START or STOP at an illegal place",
            Event::SdaHeld => "SDA held after nine clocks",
            Event::SclLow => "SCL low past the time-out",
            Event::Idle => "idle past the time-out",
            Event::ResetPin => "reset pin",
        })
    }
}

/// Why bytes are no script.
#[derive(Clone, Copy, Debug, PartialEq, Eq, Hash)]
pub enum ScriptError {
    /// The last pair is not whole.
    Odd,
    /// This pair is no event.
    Pair {
        /// Its number, counted from 0.
        index: usize,
        /// What a controller would refuse it for.
        refusal: Refusal,
    },
}

impl fmt::Display for ScriptError {
    fn fmt(&self, f: &mut fmt::Formatter<'_>) -> fmt::Result {
        match self {
            ScriptError::Odd => f.write_str("the script is not whole pairs of bytes"),
            ScriptError::Pair { index, refusal } => write!(f, "pair {index}: {refusal}"),
        }
    }
}

impl Error for ScriptError {
    fn source(&self) -> Option<&(dyn Error + 'static)> {
        match self {
            ScriptError::Odd => None,
            ScriptError::Pair { refusal, .. } => Some(refusal),
        }
    }
}

#[cfg(test)]
mod tests {
    use super::{Acknowledge, Event, ScriptError};
    use crate::{Refusal, VirtualChip};
    use alloc::string::ToString;
    use core::error::Error;

    /// The pair is taken exactly if a controller does not refuse it with 1 or 2.
    #[test]
    fn a_pair_is_an_event_where_a_controller_says_so() {
        for number in 0..=u8::MAX {
            for argument in 0..=u8::MAX {
                let pair = [number, argument];
                let event = Event::try_from(pair);
                let refused = VirtualChip::new().give(pair).err();
                let wanted = refused.filter(|why| why.number() <= 2);
                assert_eq!(event.err(), wanted, "{pair:?}");
                assert!(event.is_err() || event.is_ok_and(|event| event.pair() == pair));
            }
        }
    }

    #[test]
    fn words() {
        assert_eq!(Event::OwnStart.to_string(), "own START");
        assert_eq!(Event::ByteIn(0x5C).to_string(), "byte in 5Ch");
        let nacked = Event::ByteOut(Acknowledge::Nack);
        assert_eq!(nacked.to_string(), "byte out, NACK");
        let lost = Event::LostInAddress(9).to_string();
        assert_eq!(lost, "arbitration lost in the address byte to 09h");
    }

    #[test]
    fn the_wrong_pair_is_named() {
        let refusal = Refusal::BadArgument;
        let wrong = ScriptError::Pair { index: 1, refusal };
        assert_eq!(Event::script(&[1, 0, 6, 2, 15, 0]), Err(wrong));
        let source = wrong.source().and_then(|source| source.downcast_ref());
        assert_eq!(source, Some(&refusal));
    }
}
