//! What an address byte calls ("Events", 5 and 8), and by which address.

use crate::address::{Address, Direction};

/// What an address byte calls.
#[derive(Clone, Copy, Debug, PartialEq, Eq, Hash)]
pub enum Call {
    /// I2CADR's address, in this direction: 60h or A8h in event 5, 68h or
    /// B0h in event 8.
    Own(Direction),
    /// The General Call: D0h in event 5, D8h in event 8.
    General,
    /// Nothing here: Busy in event 5, 38h in event 8, both with a NACK.
    None,
}

/// The answer of the match: what was called, and the byte's address.
#[derive(Clone, Copy, Debug, PartialEq, Eq, Hash)]
pub struct Matched {
    /// What the byte calls.
    pub call: Call,
    /// The byte's upper seven bits, whatever it calls: I2CADR's address for
    /// [`Call::Own`], 00h for [`Call::General`].
    pub address: Address,
}
