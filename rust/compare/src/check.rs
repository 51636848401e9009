//! The same input to library and model, and all that they wrote compared.

use crate::difference::{Difference, Named, first, hex};
use crate::job_case::JobCase;
use crate::side::{LIBRARY, MODEL, Side};
use crate::trace_case::TraceCase;
use perlovasta::{ENTRY_LEN, GROUP_LEN};

/// Runs the trace on both. True if it was run; the log is then in the case.
pub fn trace(case: &mut TraceCase) -> Result<bool, Difference> {
    let mut model_log = case.log.clone();
    let answer = (LIBRARY.trace)(&case.trace, &mut case.log);
    let returned = [answer, (MODEL.trace)(&case.trace, &mut model_log)];
    let library: [Named; 2] = [("returned", &returned[..1]), ("log", &case.log)];
    let model: [Named; 2] = [("returned", &returned[1..]), ("log", &model_log)];
    match first(&library, &model) {
        None => Ok(answer == 0),
        Some(place) => Err(Difference {
            input: groups_until(&case.trace, &case.log, &model_log),
            place,
        }),
    }
}

/// The trace up to the group whose entries differ.
fn groups_until(trace: &[u8], library: &[u8], model: &[u8]) -> String {
    let mut entries = library.chunks(ENTRY_LEN).zip(model.chunks(ENTRY_LEN));
    let differs = entries.position(|(library, model)| library != model);
    let groups = differs.map_or(trace.len(), |group| (group + 1) * GROUP_LEN);
    let shown = &trace[..groups.min(trace.len())];
    let mut text = format!("trace of {} bytes, log of {}:", trace.len(), library.len());
    for group in shown.chunks(GROUP_LEN) {
        text.push_str("\n  ");
        text.push_str(&hex(group));
    }
    text
}

/// Runs the job on both: its answer. Report, destination and out record are then in the case.
pub fn job(case: &mut JobCase) -> Result<u8, Difference> {
    let before = case.clone();
    let mut other = case.clone();
    let answer = call(LIBRARY, case);
    let (library, model) = ([answer], [call(MODEL, &mut other)]);
    match first(&written(&library, case), &written(&model, &other)) {
        None => Ok(answer),
        Some(place) => Err(Difference {
            input: describe(&before),
            place,
        }),
    }
}

fn call(side: Side, case: &mut JobCase) -> u8 {
    (side.job)(
        case.kind,
        case.address,
        case.n,
        &case.data,
        &mut case.destination,
        &mut case.out,
        &case.script,
        &mut case.report,
    )
}

/// All that a job may write.
fn written<'a>(returned: &'a [u8], case: &'a JobCase) -> [Named<'a>; 4] {
    [
        ("returned", returned),
        ("report", &case.report),
        ("out", &case.out),
        ("destination", &case.destination),
    ]
}

/// The job in words.
pub fn describe(case: &JobCase) -> String {
    format!(
        "job of kind {}, address {:02X}, n {}\ndata {}\nscript {}\n\
         destination of {}, out of {}, report of {} bytes",
        case.kind,
        case.address,
        case.n,
        hex(&case.data),
        hex(&case.script),
        case.destination.len(),
        case.out.len(),
        case.report.len(),
    )
}
