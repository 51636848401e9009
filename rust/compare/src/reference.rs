//! The independent model behind the library's interface: fresh controllers, numbers and bytes.

use crate::group::{CONTROL, Group, READ, WRITE};
use crate::pointer_byte::PointerByte;
use model::{Called, Controller, Edge, Job, Kind, Refusal, Report, Turn, run_job};
use perlovasta::{ENTRY_LEN, GROUP_LEN, REPORT_LEN};

/// The answer of a job that is itself wrong, and of a trace that is not run.
const MALFORMED: u8 = 21;

/// What `perlovasta::sys::job` gives, by the model.
#[expect(
    clippy::too_many_arguments,
    reason = "they are those of `perlovasta::sys::job`, one for one"
)]
pub fn job(
    kind: u8,
    address: u8,
    n: u8,
    data: &[u8],
    destination: &mut [u8],
    out: &mut [u8],
    script: &[u8],
    report: &mut [u8],
) -> u8 {
    if report.len() < REPORT_LEN {
        return MALFORMED;
    }
    job_on(
        &mut enabled(),
        kind,
        address,
        n,
        data,
        destination,
        out,
        script,
        report,
    )
}

/// The same on this controller.
#[expect(
    clippy::too_many_arguments,
    reason = "they are those of `perlovasta::sys::job`, and the controller"
)]
#[inline]
pub fn job_on(
    controller: &mut Controller,
    kind: u8,
    address: u8,
    n: u8,
    data: &[u8],
    destination: &mut [u8],
    out: &mut [u8],
    script: &[u8],
    report: &mut [u8],
) -> u8 {
    let Some(report) = report.first_chunk_mut() else {
        return MALFORMED;
    };
    *report = match kind_of(kind) {
        Some(kind) => {
            let job = Job {
                kind,
                address,
                n,
                data,
            };
            written(run_job(controller, &job, destination, out, script))
        }
        // Of another kind: nothing is done.
        None => [MALFORMED, 0, 0, 0, 0, 0, 0, 0, 0, 0, 0, 0],
    };
    report[0]
}

fn kind_of(number: u8) -> Option<Kind> {
    match number {
        0 => Some(Kind::Write),
        1 => Some(Kind::Read),
        _ => None,
    }
}

/// A fresh controller enabled by 40h, as a job's.
pub fn enabled() -> Controller {
    let mut controller = Controller::fresh();
    let written = controller.write(CONTROL, 0x40);
    assert!(written.is_ok(), "a fresh controller can be enabled");
    controller
}

/// The report's twelve bytes.
fn written(report: Report) -> [u8; REPORT_LEN] {
    let mut bytes = [0; REPORT_LEN];
    bytes[0] = report.answer.number();
    bytes[1] = report.answer.beside();
    bytes[2] = report.count;
    bytes[3] = u8::try_from(report.sent).expect("at most 69");
    bytes[4..].copy_from_slice(&(report.events as u64).to_le_bytes());
    bytes
}

/// What `perlovasta::sys::trace` gives, by the model.
pub fn trace(trace: &[u8], log: &mut [u8]) -> u8 {
    let (groups, rest) = trace.as_chunks::<GROUP_LEN>();
    let (entries, _) = log.as_chunks_mut::<ENTRY_LEN>();
    let whole = rest.is_empty() && groups.iter().all(|group| group[0] <= 2);
    if !whole || entries.len() < groups.len() {
        return MALFORMED;
    }
    let mut controller = Controller::fresh();
    for (&group, place) in groups.iter().zip(entries) {
        let answer = step(&mut controller, group);
        *place = entry(answer, &controller);
    }
    0
}

/// Gives the controller one group of a trace.
#[inline]
pub fn step(controller: &mut Controller, [kind, place, value]: Group) -> Result<u8, Refusal> {
    match kind {
        READ => controller.read(place),
        WRITE => controller.write(place, value),
        _ => controller.event(place, value),
    }
}

/// The entry of a log after a group with this answer.
#[inline]
fn entry(answer: Result<u8, Refusal>, controller: &Controller) -> [u8; ENTRY_LEN] {
    let (refusal, value) = match answer {
        Ok(value) => (0, value),
        Err(refusal) => (refusal.number(), 0),
    };
    let pointer = PointerByte {
        pointer: controller.pointer(),
        reason: controller.reason().number(),
        armed: controller.armed(),
    };
    [
        refusal,
        value,
        controller.status(),
        controller.control(),
        controller.hand(),
        controller.moved(),
        pointer.byte(),
        turn_number(controller.turn()),
    ]
}

/// The turn's number in a log.
#[inline]
pub const fn turn_number(turn: Turn) -> u8 {
    match turn {
        Turn::Off => 0,
        Turn::Host { edge, .. } => match edge {
            Edge::Stop => 1,
            Edge::Start => 17,
        },
        Turn::Free => 2,
        Turn::Busy => 3,
        Turn::Listen => 4,
        Turn::Address => 5,
        Turn::Send => 6,
        Turn::Receive => 7,
        Turn::SlaveReceive(Called::Own) => 8,
        Turn::SlaveReceive(Called::General) => 24,
        Turn::SlaveSend => 9,
        Turn::Stopping => 10,
        Turn::Restarting => 11,
    }
}
