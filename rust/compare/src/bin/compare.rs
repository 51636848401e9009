//! Library and model on random traces and jobs, and on lists of accesses, events and jobs on one
//! virtual chip, compared byte for byte.
//!
//! `compare [--seed N] [--millions M]`: ends with 1 if they disagree anywhere, or if something that
//! has to occur never did.

use compare::difference::Difference;
use compare::options::{Options, options};
use compare::table::show;
use compare::{chip, run, sections};
use std::process::ExitCode;

const USAGE: &str = "usage: compare [--seed N] [--millions M]";

fn main() -> ExitCode {
    let Some(options) = options() else {
        eprintln!("{USAGE}");
        return ExitCode::from(2);
    };
    match fresh(options).and_then(|all| Ok(held(options)? && all)) {
        Ok(true) => ExitCode::SUCCESS,
        Ok(false) => ExitCode::FAILURE,
        Err(difference) => {
            println!("{difference}");
            ExitCode::FAILURE
        }
    }
}

/// Traces and jobs, each on a fresh controller. Whether all occurred.
fn fresh(Options { seed, least }: Options) -> Result<bool, Difference> {
    let tally = run::compare(seed, least)?;
    let all = show(&sections::sections(&tally));
    println!(
        "seed {seed}: {} traces of {} groups and {} jobs of {} pairs, library and model agree",
        tally.traces, tally.groups, tally.jobs, tally.pairs
    );
    Ok(all)
}

/// Lists on one virtual chip each. Whether all occurred.
fn held(Options { seed, least }: Options) -> Result<bool, Difference> {
    let tally = chip::compare::compare(chip::library::LIBRARY, seed, least)?;
    let all = show(&chip::sections::sections(&tally));
    println!(
        "seed {seed}: {} virtual chips with {} accesses and events and {} jobs of {} pairs, \
         library and model agree",
        tally.lists, tally.accesses, tally.jobs, tally.pairs
    );
    Ok(all)
}
