//! The turn: what the controller waits for ("The controller record").

/// What the controller waits for.
#[derive(Clone, Copy, Debug, PartialEq, Eq, Hash)]
pub enum Turn {
    /// Not enabled.
    Off,
    /// The host is to serve a status; SI is 1 exactly in this turn.
    Host {
        /// The status that I2CSTA reads.
        status: u8,
        /// What came at A0h; always [`Edge::Stop`] at any other status.
        edge: Edge,
    },
    /// The bus is free.
    Free,
    /// Others use the bus.
    Busy,
    /// Another's START came, an address byte follows.
    Listen,
    /// The address byte in place 0 goes out.
    Address,
    /// Data go out as master.
    Send,
    /// Data come in as master.
    Receive,
    /// Data come in as slave.
    SlaveReceive(Called),
    /// Data go out as slave.
    SlaveSend,
    /// Own STOP is to come.
    Stopping,
    /// Own repeated START is to come.
    Restarting,
}

/// What ended a slave reception at A0h.
#[derive(Clone, Copy, Debug, PartialEq, Eq, Hash)]
pub enum Edge {
    /// A STOP came.
    Stop,
    /// A START came.
    Start,
}

/// How the slave receiver was addressed.
#[derive(Clone, Copy, Debug, PartialEq, Eq, Hash)]
pub enum Called {
    /// By its own address.
    Own,
    /// By the General Call.
    General,
}

impl Turn {
    /// Whether this is one of the wire turns, Address to Restarting.
    #[inline]
    pub const fn is_wire(self) -> bool {
        match self {
            Turn::Off | Turn::Host { .. } | Turn::Free | Turn::Busy | Turn::Listen => false,
            Turn::Address
            | Turn::Send
            | Turn::Receive
            | Turn::SlaveReceive(_)
            | Turn::SlaveSend
            | Turn::Stopping
            | Turn::Restarting => true,
        }
    }

    /// Whether data bytes move in this turn.
    #[inline]
    pub const fn moves_data(self) -> bool {
        matches!(
            self,
            Turn::Send | Turn::Receive | Turn::SlaveReceive(_) | Turn::SlaveSend
        )
    }
}
