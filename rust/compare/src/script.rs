//! The script of a random job, steered by the model's driver.

use crate::random::Random;
use crate::steer::pair;
use model::{Answer, Controller, Job, OUT_LENGTH, PLACES, run_job};

/// The most pairs of a steered script.
const LONGEST: usize = 120;

/// Pairs that lead the job on this controller to an answer, mostly, and at times some that nobody
/// looks at.
pub fn random_script(random: &mut Random, job: &Job, on: &Controller) -> Vec<u8> {
    if random.percent(3) {
        let pairs = random.below(6);
        return random.bytes(2 * pairs);
    }
    let noise = random.pick(&[0, 1, 1, 5, 20]);
    // A few scripts end early whatever happens.
    let early = random.below(80);
    let most = random.pick(&[LONGEST, LONGEST, LONGEST, early]);
    let mut script = Vec::new();
    while script.len() < 2 * most {
        let Some(controller) = standing(job, on, &script) else {
            break;
        };
        script.extend(pair::next(&controller, random, noise));
    }
    if random.percent(20) {
        let pairs = random.below(4);
        script.extend(random.bytes(2 * pairs));
    }
    script
}

/// The controller where the script leaves the job, if the job lasts.
fn standing(job: &Job, on: &Controller, script: &[u8]) -> Option<Controller> {
    let mut controller = on.clone();
    let mut destination = [0; PLACES as usize];
    let mut out = [0; OUT_LENGTH];
    let report = run_job(&mut controller, job, &mut destination, &mut out, script);
    (report.answer == Answer::Unfinished).then_some(controller)
}
