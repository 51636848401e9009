//! The C interface with slices in place of pointers and lengths, numbers as they are.
//!
//! Most callers want [`read`](crate::read), [`write`](crate::write) and
//! [`VirtualChip`](crate::VirtualChip). All unsafe code of this crate is here.

use crate::{Bytes, PLACES};

/// The declarations of `perlovasta.h`.
mod c {
    unsafe extern "C" {
        pub(super) fn perlovasta_job(
            kind: u8,
            address: u8,
            n: u8,
            data: *const u8,
            data_len: usize,
            destination: *mut u8,
            destination_len: usize,
            out: *mut u8,
            out_len: usize,
            script: *const u8,
            script_len: usize,
            report: *mut u8,
            report_len: usize,
        ) -> u8;

        pub(super) fn perlovasta_trace(
            trace: *const u8,
            trace_len: usize,
            log: *mut u8,
            log_len: usize,
        ) -> u8;

        pub(super) fn perlovasta_chip_fresh(chip: *mut u8, chip_len: usize) -> u8;

        pub(super) fn perlovasta_chip_read_packed(
            chip: *mut u8,
            chip_len: usize,
            register: u8,
        ) -> u32;

        pub(super) fn perlovasta_chip_write_packed(
            chip: *mut u8,
            chip_len: usize,
            register: u8,
            value: u8,
        ) -> u32;

        pub(super) fn perlovasta_chip_event_packed(
            chip: *mut u8,
            chip_len: usize,
            event: u8,
            argument: u8,
        ) -> u32;

        pub(super) fn perlovasta_chip_job(
            chip: *mut u8,
            chip_len: usize,
            kind: u8,
            address: u8,
            n: u8,
            data: *const u8,
            data_len: usize,
            destination: *mut u8,
            destination_len: usize,
            out: *mut u8,
            out_len: usize,
            script: *const u8,
            script_len: usize,
            report: *mut u8,
            report_len: usize,
        ) -> u8;
    }
}

/// One job on a fresh, enabled controller: its answer. Its report is the first
/// [`REPORT_LEN`](crate::REPORT_LEN) bytes of `report`; if that is shorter the answer is 21, and
/// nothing at all is written.
#[expect(
    clippy::too_many_arguments,
    reason = "they are the C interface's, one for one"
)]
#[must_use]
pub fn job(
    kind: u8,
    address: u8,
    n: u8,
    data: &[u8],
    destination: &mut [u8],
    out: &mut [u8],
    script: &[u8],
    report: &mut [u8],
) -> u8 {
    let copy = overlap(data, script).then(|| copied(data));
    let data = copy.as_deref().unwrap_or(data);
    // SAFETY: each pointer comes from a slice, with that slice's length, so it is not null and
    // lends that many bytes for the call; those of `&mut` slices may be written. No two overlap:
    // a `&mut` slice shares no byte with any other, and `data` is a copy where it would share one
    // with `script`. The library keeps no pointer.
    unsafe {
        c::perlovasta_job(
            kind,
            address,
            n,
            data.as_ptr(),
            data.len(),
            destination.as_mut_ptr(),
            destination.len(),
            out.as_mut_ptr(),
            out.len(),
            script.as_ptr(),
            script.len(),
            report.as_mut_ptr(),
            report.len(),
        )
    }
}

/// One trace on a fresh controller; its log is the first [`ENTRY_LEN`](crate::ENTRY_LEN) bytes of
/// `log` for each group. 0 if it was run; 21, and nothing is written, if the trace is not whole
/// groups of kinds 0 to 2, or `log` is too short.
#[must_use]
pub fn trace(trace: &[u8], log: &mut [u8]) -> u8 {
    // SAFETY: as in `job`; `log` is a `&mut` slice and shares no byte with `trace`.
    unsafe { c::perlovasta_trace(trace.as_ptr(), trace.len(), log.as_mut_ptr(), log.len()) }
}

/// The first [`CHIP_LEN`](crate::CHIP_LEN) of these bytes hold a fresh controller now, and it is 0;
/// or 10, and nothing is written, if they are fewer.
#[must_use]
pub fn chip_fresh(chip: &mut [u8]) -> u8 {
    // SAFETY: as in `job`.
    unsafe { c::perlovasta_chip_fresh(chip.as_mut_ptr(), chip.len()) }
}

/// A register of the controller in these bytes is read: the refusal in bits 0 to 7, 0 for accepted,
/// and the value in bits 8 to 15.
#[must_use]
pub fn chip_read(chip: &mut [u8], register: u8) -> u32 {
    // SAFETY: as in `job`.
    unsafe { c::perlovasta_chip_read_packed(chip.as_mut_ptr(), chip.len(), register) }
}

/// A register of the controller in these bytes is written. Refusal and value as in [`chip_read`].
#[must_use]
pub fn chip_write(chip: &mut [u8], register: u8, value: u8) -> u32 {
    // SAFETY: as in `job`.
    unsafe { c::perlovasta_chip_write_packed(chip.as_mut_ptr(), chip.len(), register, value) }
}

/// An event is given to the controller in these bytes. Refusal and value as in [`chip_read`].
#[must_use]
pub fn chip_event(chip: &mut [u8], event: u8, argument: u8) -> u32 {
    // SAFETY: as in `job`.
    unsafe { c::perlovasta_chip_event_packed(chip.as_mut_ptr(), chip.len(), event, argument) }
}

/// One job on the controller in these bytes, else as [`job`].
#[expect(
    clippy::too_many_arguments,
    reason = "they are the C interface's, one for one"
)]
#[must_use]
pub fn chip_job(
    chip: &mut [u8],
    kind: u8,
    address: u8,
    n: u8,
    data: &[u8],
    destination: &mut [u8],
    out: &mut [u8],
    script: &[u8],
    report: &mut [u8],
) -> u8 {
    let copy = overlap(data, script).then(|| copied(data));
    let data = copy.as_deref().unwrap_or(data);
    // SAFETY: as in `job`; `chip` is a `&mut` slice as well.
    unsafe {
        c::perlovasta_chip_job(
            chip.as_mut_ptr(),
            chip.len(),
            kind,
            address,
            n,
            data.as_ptr(),
            data.len(),
            destination.as_mut_ptr(),
            destination.len(),
            out.as_mut_ptr(),
            out.len(),
            script.as_ptr(),
            script.len(),
            report.as_mut_ptr(),
            report.len(),
        )
    }
}

/// Whether the two share a byte. (An empty one inside the other counts too.) Slices that are only
/// read may do so in Rust, but not in one call of the library.
fn overlap(a: &[u8], b: &[u8]) -> bool {
    let (a, b) = (a.as_ptr_range(), b.as_ptr_range());
    a.start < b.end && b.start < a.end
}

/// As much of the data as any job looks at: no more than a buffer holds.
fn copied(data: &[u8]) -> Bytes {
    let mut copy = [0; PLACES];
    let length = data.len().min(PLACES);
    copy[..length].copy_from_slice(&data[..length]);
    Bytes::first(copy, length)
}

#[cfg(test)]
mod tests {
    use super::overlap;

    #[test]
    fn neighbours_do_not_overlap() {
        let bytes = [0; 6];
        assert!(!overlap(&bytes[..3], &bytes[3..]));
        assert!(!overlap(&bytes[3..], &bytes[..3]));
        assert!(overlap(&bytes[..4], &bytes[3..]));
        assert!(overlap(&bytes[3..], &bytes[..4]));
        assert!(overlap(&bytes, &bytes));
        assert!(!overlap(&[], &[]));
    }
}
