//! The port and the model on random lists of jobs; the port on chips that lie, and in states of any
//! content.
//!
//! `port [--seed N] [--millions M]`: ends with 1 if they disagree anywhere, or if something that
//! has to occur never did.

use compare::options::options;
use compare::port::compare::compare;
use compare::port::library::LIBRARY;
use compare::port::sections::sections;
use compare::port::tally::Tally;
use compare::table;
use std::process::ExitCode;

const USAGE: &str = "usage: port [--seed N] [--millions M]";

fn main() -> ExitCode {
    let Some(options) = options() else {
        eprintln!("{USAGE}");
        return ExitCode::from(2);
    };
    match compare(LIBRARY, options.seed, options.least) {
        Ok(tally) => show(options.seed, &tally),
        Err(difference) => {
            println!("{difference}");
            ExitCode::FAILURE
        }
    }
}

fn show(seed: u64, tally: &Tally) -> ExitCode {
    let all = table::show(&sections(tally));
    println!(
        "seed {seed}: {} lists of {} recoveries and {} jobs of {} pairs, port and model agree;\n\
         {} jobs of {} exchanges with a chip that lies, {} states of any content",
        tally.lists,
        tally.recoveries,
        tally.jobs,
        tally.pairs,
        tally.lies,
        tally.exchanges,
        tally.states.iter().sum::<u64>()
    );
    if all {
        ExitCode::SUCCESS
    } else {
        ExitCode::FAILURE
    }
}
