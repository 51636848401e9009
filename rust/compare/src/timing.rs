//! Times of two works on the same input, taken in turn.

use std::time::{Duration, Instant};

/// How long one run takes about.
const RUN: Duration = Duration::from_millis(4);

/// The least time of one call of each, in nanoseconds.
#[derive(Clone, Copy, Debug, PartialEq)]
pub struct Times {
    /// Of the library.
    pub library: f64,
    /// Of the model.
    pub model: f64,
}

/// Times both in so many runs, one after the other, so that what else the machine does hits both.
/// Each makes as many calls as it is told.
pub fn measure(runs: usize, mut library: impl FnMut(u32), mut model: impl FnMut(u32)) -> Times {
    let calls = (calls(&mut library), calls(&mut model));
    let mut times = Times {
        library: f64::INFINITY,
        model: f64::INFINITY,
    };
    for _ in 0..runs {
        times.library = times.library.min(one_call(&mut library, calls.0));
        times.model = times.model.min(one_call(&mut model, calls.1));
    }
    times
}

/// How many calls a run takes.
fn calls(work: &mut impl FnMut(u32)) -> u32 {
    let mut calls = 1;
    while run(work, calls) < RUN {
        calls *= 2;
    }
    calls
}

fn one_call(work: &mut impl FnMut(u32), calls: u32) -> f64 {
    run(work, calls).as_secs_f64() * 1e9 / f64::from(calls)
}

fn run(work: &mut impl FnMut(u32), calls: u32) -> Duration {
    let start = Instant::now();
    work(calls);
    start.elapsed()
}
