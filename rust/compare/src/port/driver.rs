//! The same job by the model's driver, on any controller, and by `perlovasta_job`, on a fresh one.

use super::answer::DONE;
use super::asked::Asked;
use super::told::Told;
use crate::group::{CONTROL, DATA};
use crate::steer::pair;
use model::{Controller, Job, OUT_LENGTH, Reason, run_job};
use perlovasta::{OUT_LEN, REPORT_LEN, sys};

/// A destination that is longer than any n.
const ROOM: usize = 255;

/// What the model's driver tells of the job on a copy of this controller, and what it leaves.
pub fn on_model(controller: &Controller, job: &Job, script: &[u8]) -> (Told, Controller) {
    let mut left = controller.clone();
    let (mut destination, mut out) = ([0; ROOM], [0; OUT_LENGTH]);
    let report = run_job(&mut left, job, &mut destination, &mut out, script);
    let answer = report.answer.number();
    let is_handed_up = answer == DONE && job.kind == model::Kind::Read;
    let told = Told {
        answer,
        beside: report.answer.beside(),
        count: report.count,
        events: report.events,
        sent: out[..report.sent].to_vec(),
        handed: handed_up(&destination, job.n, is_handed_up),
    };
    (told, left)
}

/// What `perlovasta_job` tells of the job; its controller is fresh, and enabled by 40h.
pub fn on_library(job: &Asked, script: &[u8]) -> Told {
    let (mut destination, mut out, mut report) = ([0; ROOM], [0; OUT_LEN], [0; REPORT_LEN]);
    let answer = sys::job(
        job.kind,
        job.address,
        job.n,
        &job.data,
        &mut destination,
        &mut out,
        script,
        &mut report,
    );
    let [told, beside, count, sent, events @ ..] = report;
    assert_eq!(answer, told, "the answer is the report's first byte");
    Told {
        answer,
        beside,
        count,
        events: usize::try_from(u64::from_le_bytes(events)).expect("pairs of a slice fit"),
        sent: out[..usize::from(sent)].to_vec(),
        handed: handed_up(&destination, job.n, answer == DONE && job.is_read()),
    }
}

fn handed_up(destination: &[u8], n: u8, is_handed_up: bool) -> Vec<u8> {
    let n = if is_handed_up { usize::from(n) } else { 0 };
    destination[..n].to_vec()
}

/// Whether the controller is as one after reset that 40h enabled, whatever its buffer holds. (Why a
/// move ended is reset or none yet; no job looks at it.)
pub fn is_fresh(controller: &Controller) -> bool {
    let mut fresh = holding(controller.buffer());
    if controller.reason() == Reason::Reset {
        let reset = fresh.event(pair::RESET, 0);
        assert!(reset.is_ok(), "the reset pin always works");
    }
    let enabled = fresh.write(CONTROL, 0x40);
    enabled.is_ok() && fresh == *controller
}

/// A fresh controller whose buffer holds these bytes.
pub fn holding(bytes: &[u8]) -> Controller {
    let mut controller = Controller::fresh();
    for &byte in bytes {
        let written = controller.write(DATA, byte);
        assert!(written.is_ok(), "while it is off the buffer can be filled");
    }
    // The hand place goes back to 0 with a write of I2CCON, which leaves the rest.
    let written = controller.write(CONTROL, 0);
    assert!(written.is_ok(), "while it is off it can be left off");
    controller
}

#[cfg(test)]
mod tests {
    use super::{holding, is_fresh};
    use crate::group::{CONTROL, INDIRECT};
    use crate::reference::enabled;
    use model::Controller;

    #[test]
    fn only_the_buffer_is_filled() {
        assert_eq!(holding(&[0; 68]), Controller::fresh());
        assert_eq!(holding(&[7; 68]).buffer(), &[7; 68]);
    }

    #[test]
    fn fresh_is_told() {
        let mut controller = enabled();
        assert!(is_fresh(&controller));
        controller.event(14, 0).unwrap();
        assert!(!is_fresh(&controller));
        controller.write(CONTROL, 0x40).unwrap();
        assert!(is_fresh(&controller));
        controller.write(INDIRECT, 5).unwrap();
        assert!(!is_fresh(&controller));
    }
}
