//! The C interface with slices in place of pointers and lengths, numbers as they are.
//!
//! Most callers want [`Port`](crate::Port). All unsafe code of this crate is here. A state is any
//! slice; one shorter than [`STATE_LEN`](crate::STATE_LEN) is answered as too short. What a number
//! of a step means, [`Step::from_number`](crate::Step::from_number) tells.

/// The declarations of `perlovasta_dock.h`.
mod c {
    unsafe extern "C" {
        pub(super) fn perlovasta_start(
            state: *mut u8,
            state_len: usize,
            kind: u8,
            address: u8,
            n: u8,
            data: *const u8,
            data_len: usize,
        ) -> u32;

        pub(super) fn perlovasta_recover(
            state: *mut u8,
            state_len: usize,
            settings: *const u8,
            settings_len: usize,
        ) -> u32;

        pub(super) fn perlovasta_next(state: *mut u8, state_len: usize, value: u8) -> u32;

        pub(super) fn perlovasta_give_up(state: *mut u8, state_len: usize) -> u32;

        pub(super) fn perlovasta_take(
            state: *mut u8,
            state_len: usize,
            destination: *mut u8,
            destination_len: usize,
        ) -> u8;
    }
}

/// A job begins: kind 0 writes the first `n` bytes of `data`, kind 1 reads `n`. The first step.
#[must_use]
pub fn start(state: &mut [u8], kind: u8, address: u8, n: u8, data: &[u8]) -> u32 {
    // SAFETY: each pointer comes from a slice, with that slice's length, so it is not null and
    // lends that many bytes for the call; that of a `&mut` slice may be written. No two overlap: a
    // `&mut` slice shares no byte with any other. The library keeps no pointer.
    unsafe {
        c::perlovasta_start(
            state.as_mut_ptr(),
            state.len(),
            kind,
            address,
            n,
            data.as_ptr(),
            data.len(),
        )
    }
}

/// The chip is brought back, with settings in pairs of pointer and value. The first step.
#[must_use]
pub fn recover(state: &mut [u8], settings: &[u8]) -> u32 {
    // SAFETY: as in `start`.
    unsafe {
        c::perlovasta_recover(
            state.as_mut_ptr(),
            state.len(),
            settings.as_ptr(),
            settings.len(),
        )
    }
}

/// The next step; `value` is what the register read of the last step gave.
#[must_use]
pub fn next(state: &mut [u8], value: u8) -> u32 {
    // SAFETY: as in `start`.
    unsafe { c::perlovasta_next(state.as_mut_ptr(), state.len(), value) }
}

/// The caller's clock ran out: over with 27.
#[must_use]
pub fn give_up(state: &mut [u8]) -> u32 {
    // SAFETY: as in `start`.
    unsafe { c::perlovasta_give_up(state.as_mut_ptr(), state.len()) }
}

/// The bytes of a finished read go to the first `n` bytes of the destination, are gone from the
/// state, and it is 0. Else nothing is written, and it says why.
#[must_use]
pub fn take(state: &mut [u8], destination: &mut [u8]) -> u8 {
    // SAFETY: as in `start`.
    unsafe {
        c::perlovasta_take(
            state.as_mut_ptr(),
            state.len(),
            destination.as_mut_ptr(),
            destination.len(),
        )
    }
}
