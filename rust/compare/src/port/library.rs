//! The five functions of libdock.a by pointer, so that a test of these checks can put a wrong one
//! in the place of one.

use perlovasta_dock::sys;

/// The functions that are called; numbers and slices as in [`perlovasta_dock::sys`].
#[derive(Clone, Copy, Debug)]
pub struct Library {
    /// A job begins: state, kind, address, n, data.
    pub start: fn(&mut [u8], u8, u8, u8, &[u8]) -> u32,
    /// The chip is brought back: state, settings.
    pub recover: fn(&mut [u8], &[u8]) -> u32,
    /// The next step: state, value.
    pub next: fn(&mut [u8], u8) -> u32,
    /// The caller's clock ran out: state.
    pub give_up: fn(&mut [u8]) -> u32,
    /// The bytes of a finished read: state, destination.
    pub take: fn(&mut [u8], &mut [u8]) -> u8,
}

/// The proved library.
pub const LIBRARY: Library = Library {
    start: sys::start,
    recover: sys::recover,
    next: sys::next,
    give_up: sys::give_up,
    take: sys::take,
};
