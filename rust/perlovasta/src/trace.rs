//! One trace on a fresh controller.

use crate::{Access, ENTRY_LEN, Entry, GROUP_LEN, sys};
use alloc::vec;
use alloc::vec::Vec;

/// Runs one trace on a fresh controller, as after reset but with no [reason](crate::Reason) yet,
/// and not enabled. What came of each access or event, one for one.
///
/// ```
/// use perlovasta::{Access, Acknowledge, Event, Refusal, Register, Turn, trace};
///
/// // Enable the controller, then ask for a byte out, which nothing has led to.
/// let entries = trace(&[
///     Access::Write(Register::Control, 0x40),
///     Access::Event(Event::ByteOut(Acknowledge::Ack)),
/// ]);
/// assert_eq!(entries[0].turn, Turn::Free);
/// assert_eq!(entries[1].reply, Err(Refusal::Unexpected));
/// ```
#[must_use]
pub fn trace(accesses: &[Access]) -> Vec<Entry> {
    let groups: Vec<[u8; GROUP_LEN]> = accesses.iter().map(|access| access.group()).collect();
    let mut log = vec![[0; ENTRY_LEN]; groups.len()];
    let answer = sys::trace(groups.as_flattened(), log.as_flattened_mut());
    assert_eq!(answer, 0, "whole groups, and a log of their length");
    log.into_iter().map(Entry::typed).collect()
}
