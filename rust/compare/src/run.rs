//! The comparison: random traces and jobs until enough groups and pairs were compared.

use crate::check;
use crate::difference::Difference;
use crate::job_case::JobCase;
use crate::random::Random;
use crate::reference::enabled;
use crate::tally::Tally;
use crate::trace_case::{Flaw, TraceCase};

/// Jobs for each trace; a trace has more groups than a job takes pairs.
const JOBS: usize = 6;

/// Compares from this seed on, until `least` groups and pairs were.
pub fn compare(seed: u64, least: u64) -> Result<Tally, Difference> {
    let mut random = Random::new(seed);
    let mut tally = Tally::new();
    compare_job(JobCase::long(&mut random, &enabled()), &mut tally)?;
    // The pairs of the long job are all alike, and count for nothing here.
    let least = least + tally.total();
    while tally.total() < least {
        let mut case = TraceCase::random(&mut random);
        if check::trace(&mut case)? {
            tally.count_trace(&case.trace, &case.log);
        }
        for _ in 0..JOBS {
            compare_job(JobCase::random(&mut random, &enabled()), &mut tally)?;
        }
        let flaw = random.pick(&[Flaw::Length, Flaw::Kind, Flaw::Log]);
        let mut case = TraceCase::flawed(&mut random, flaw);
        if !check::trace(&mut case)? {
            tally.count_not_run(flaw);
        }
    }
    Ok(tally)
}

fn compare_job(mut case: JobCase, tally: &mut Tally) -> Result<(), Difference> {
    let answer = check::job(&mut case)?;
    tally.count_job(&case, answer);
    Ok(())
}
