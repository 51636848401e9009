//! The turn: what the controller waits for.

use core::fmt;

/// What the controller waits for, with what that wait needs.
#[derive(Clone, Copy, Debug, PartialEq, Eq, Hash)]
#[must_use]
pub enum Turn {
    /// Not enabled.
    Off,
    /// SI is 1, and the host has the next move.
    Host {
        /// What I2CSTA reads.
        status: u8,
        /// What ended the slave reception, exactly at A0h.
        edge: Option<Edge>,
    },
    /// The bus is free.
    Free,
    /// Other masters use the bus.
    Busy,
    /// Another's START came, and its address byte follows.
    Listen,
    /// The address byte goes out.
    Address,
    /// Data go out, as master.
    Send,
    /// Data come in, as master.
    Receive,
    /// Data come in, as slave.
    SlaveReceive(Called),
    /// Data go out, as slave.
    SlaveSend,
    /// Own STOP follows.
    Stopping,
    /// A repeated START follows.
    Restarting,
}

/// The bus condition that ended a slave reception.
#[derive(Clone, Copy, Debug, PartialEq, Eq, Hash)]
pub enum Edge {
    /// A STOP.
    Stop,
    /// A START.
    Start,
}

/// By which address the controller was called as a slave receiver.
#[derive(Clone, Copy, Debug, PartialEq, Eq, Hash)]
pub enum Called {
    /// By its own address.
    Own,
    /// By General Call.
    General,
}

/// Status of a slave reception that another's STOP or START ended.
const ENDED: u8 = 0xA0;

impl Turn {
    /// The turn of that number in a log or a record, with the status that stands beside it.
    pub(crate) fn from_number(number: u8, status: u8) -> Option<Self> {
        let turn = match number {
            0 => Turn::Off,
            1 => host(status, Edge::Stop),
            17 => host(status, Edge::Start),
            2 => Turn::Free,
            3 => Turn::Busy,
            4 => Turn::Listen,
            5 => Turn::Address,
            6 => Turn::Send,
            7 => Turn::Receive,
            8 => Turn::SlaveReceive(Called::Own),
            24 => Turn::SlaveReceive(Called::General),
            9 => Turn::SlaveSend,
            10 => Turn::Stopping,
            11 => Turn::Restarting,
            _ => return None,
        };
        Some(turn)
    }

    /// The turn of that number, which there is.
    ///
    /// # Panics
    ///
    /// For any other number; the library is proved not to give one.
    pub(crate) fn told(number: u8, status: u8) -> Self {
        let turn = Turn::from_number(number, status);
        turn.unwrap_or_else(|| panic!("no turn has number {number}"))
    }
}

/// The host's turn at this status; what came before it matters at A0h alone.
fn host(status: u8, edge: Edge) -> Turn {
    let edge = (status == ENDED).then_some(edge);
    Turn::Host { status, edge }
}

impl fmt::Display for Turn {
    fn fmt(&self, f: &mut fmt::Formatter<'_>) -> fmt::Result {
        let name = match self {
            Turn::Off => "Off",
            Turn::Host { status, edge } => {
                write!(f, "Host at {status:02X}h")?;
                match edge {
                    None => "",
                    Some(Edge::Stop) => " after a STOP",
                    Some(Edge::Start) => " after a START",
                }
            }
            Turn::Free => "Free",
            Turn::Busy => "Busy",
            Turn::Listen => "Listen",
            Turn::Address => "Address",
            Turn::Send => "Send",
            Turn::Receive => "Receive",
            Turn::SlaveReceive(Called::Own) => "SlaveReceive by own address",
            Turn::SlaveReceive(Called::General) => "SlaveReceive by General Call",
            Turn::SlaveSend => "SlaveSend",
            Turn::Stopping => "Stopping",
            Turn::Restarting => "Restarting",
        };
        f.write_str(name)
    }
}

#[cfg(test)]
mod tests {
    use super::{Called, Edge, Turn};
    use alloc::string::ToString;

    #[test]
    fn numbers() {
        let status = 0xA0;
        let edge = Some(Edge::Start);
        assert_eq!(Turn::told(17, 0xA0), Turn::Host { status, edge });
        let edge = Some(Edge::Stop);
        assert_eq!(Turn::told(1, 0xA0), Turn::Host { status, edge });
        let (status, edge) = (0x08, None);
        assert_eq!(Turn::told(1, 0x08), Turn::Host { status, edge });
        assert_eq!(Turn::told(24, 0xF8), Turn::SlaveReceive(Called::General));
        assert_eq!(Turn::told(8, 0xF8), Turn::SlaveReceive(Called::Own));
        assert_eq!(Turn::told(11, 0xF8), Turn::Restarting);
    }

    #[test]
    #[should_panic(expected = "no turn has number 12")]
    fn unknown_turn() {
        let _ = Turn::told(12, 0xF8);
    }

    #[test]
    fn words() {
        assert_eq!(Turn::told(1, 0x08).to_string(), "Host at 08h");
        assert_eq!(
            Turn::told(17, 0xA0).to_string(),
            "Host at A0h after a START"
        );
        assert_eq!(
            Turn::told(8, 0xF8).to_string(),
            "SlaveReceive by own address"
        );
    }
}
