//! The independent model behind the interface of a virtual chip: the record is read from the bytes
//! and stored there.

use super::layout::{self, RECORD_LEN};
use crate::group::{EVENT, Group, READ, WRITE};
use crate::reference::{job_on, step};
use model::Controller;

/// The refusal of bytes that are no record.
pub const NO_RECORD: u8 = 10;

/// What `perlovasta::sys::chip_fresh` gives, by the model.
pub fn fresh(chip: &mut [u8]) -> u8 {
    match chip.first_chunk_mut() {
        Some(place) => {
            *place = layout::bytes(&Controller::fresh());
            0
        }
        None => NO_RECORD,
    }
}

/// What `perlovasta::sys::chip_read` gives, by the model.
pub fn read(chip: &mut [u8], register: u8) -> u32 {
    access(chip, [READ, register, 0])
}

/// What `perlovasta::sys::chip_write` gives, by the model.
pub fn write(chip: &mut [u8], register: u8, value: u8) -> u32 {
    access(chip, [WRITE, register, value])
}

/// What `perlovasta::sys::chip_event` gives, by the model.
pub fn event(chip: &mut [u8], event: u8, argument: u8) -> u32 {
    access(chip, [EVENT, event, argument])
}

fn access(chip: &mut [u8], group: Group) -> u32 {
    let mut controller = layout::controller(chip);
    let reply = reply(controller.as_mut(), group);
    if let (true, Some(controller)) = (is_accepted(reply), controller) {
        chip[..RECORD_LEN].copy_from_slice(&layout::bytes(&controller));
    }
    reply
}

/// The reply as one number: the refusal in bits 0 to 7, the value in bits 8 to 15.
pub fn reply(controller: Option<&mut Controller>, group: Group) -> u32 {
    match controller.map(|controller| step(controller, group)) {
        None => u32::from(NO_RECORD),
        Some(Ok(value)) => u32::from(value) << 8,
        Some(Err(refusal)) => u32::from(refusal.number()),
    }
}

/// Whether the reply is no refusal.
pub const fn is_accepted(reply: u32) -> bool {
    reply & 0xFF == 0
}

/// What `perlovasta::sys::chip_job` gives, by the model.
#[expect(
    clippy::too_many_arguments,
    reason = "they are those of `perlovasta::sys::chip_job`, one for one"
)]
pub fn job(
    chip: &mut [u8],
    kind: u8,
    address: u8,
    n: u8,
    data: &[u8],
    destination: &mut [u8],
    out: &mut [u8],
    script: &[u8],
    report: &mut [u8],
) -> u8 {
    let mut controller = standing(layout::controller(chip));
    let answer = job_on(
        &mut controller,
        kind,
        address,
        n,
        data,
        destination,
        out,
        script,
        report,
    );
    if leaves_another(answer) {
        chip[..RECORD_LEN].copy_from_slice(&layout::bytes(&controller));
    }
    answer
}

/// The controller that a job is run on. What stands for bytes that are no record is not ready: a
/// fresh one, not enabled.
pub fn standing(controller: Option<Controller>) -> Controller {
    controller.unwrap_or_else(Controller::fresh)
}

/// Whether a job with this answer has done anything to the controller.
pub const fn leaves_another(answer: u8) -> bool {
    !matches!(answer, 21 | 22)
}
