//! What a pair or a group costs library and model in ever longer jobs and traces, and what memory
//! the process takes for them.

use compare::rows::{ILLEGAL_EDGE, TRAFFIC};
use compare::scale::{Line, RUNS, buffer, traces, waiting};

const HEADING: &str = "\
of a job the time of its own eleven pairs is taken off; memory is the peak of the process in kB,
less those
                                              library     model   library    memory
                                                                  / model";

fn main() {
    let mut buffer = buffer();
    let lent = buffer.len() / 1024;
    println!("least of {RUNS} runs, in ns a pair or group; all inputs and logs lie in {lent} kB;");
    println!("{HEADING}");
    waiting("pairs of another master", &TRAFFIC, &mut buffer, show);
    waiting("pairs of event 10", &ILLEGAL_EDGE, &mut buffer, show);
    traces("groups of a trace", &mut buffer, show);
}

fn show(line: Line) {
    let times = line.times;
    println!(
        "{:8} {:34}{:10.2}{:10.2}{:10.2}{:10}",
        line.pieces,
        line.name,
        times.library,
        times.model,
        times.library / times.model,
        line.memory
    );
}
