//! Times of library and model on the same inputs, in the same process.
//!
//! `speed [--check]`: with `--check` in fewer runs. Speed is measured, never asserted.

use compare::row::Row;
use compare::rows::rows;
use std::env;
use std::process::ExitCode;

/// Runs of each row; the least time of all is shown.
const RUNS: usize = 15;
const RUNS_OF_A_CHECK: usize = 5;

const HEADING: &str = "\
both are called by pointer with the same slices; a job of the library's then tests data and script
for overlap and passes 13 arguments to C: the bare call, which returns at once, is what that takes
                                            ----- library -----   ------ model ------   library
                                                 call     piece        call     piece   / model";

fn main() -> ExitCode {
    let words: Vec<String> = env::args().skip(1).collect();
    let runs = match words.iter().map(String::as_str).collect::<Vec<_>>()[..] {
        [] => RUNS,
        ["--check"] => RUNS_OF_A_CHECK,
        _ => {
            eprintln!("usage: speed [--check]");
            return ExitCode::from(2);
        }
    };
    println!(
        "least of {runs} runs, in ns; a call is a job, a trace or some accesses to a virtual chip,"
    );
    println!("a piece a pair, a group or an access;");
    println!("{HEADING}");
    for row in rows() {
        show(&row, runs);
    }
    ExitCode::SUCCESS
}

fn show(row: &Row, runs: usize) {
    let times = row.times(runs, &mut vec![0; row.room()]);
    let pieces = row.pieces() as f64;
    println!(
        "{:43}{:10.1}{:10.2}{:12.1}{:10.2}{:10.2}",
        row.name,
        times.library,
        times.library / pieces,
        times.model,
        times.model / pieces,
        times.library / times.model
    );
}
