//! The calls of one row on one side, for a tool that counts their instructions.
//!
//! `calls SET` shows the rows of a set in order, each with its number of pairs or groups. `calls SET
//! ROW SIDE N` makes N calls of the row of this number, from 1, on `library` or `model`. What two
//! counts with different N differ by is the calls alone.

use compare::address_bytes::{address_bytes, before_address_bytes};
use compare::row::Row;
use compare::rows::rows;
use compare::side::{LIBRARY, MODEL, Side};
use std::env;
use std::process::ExitCode;

const USAGE: &str = "\
usage: calls SET [ROW library|model N]
SET: benchmark, address-bytes or before-address-bytes";

fn main() -> ExitCode {
    let words: Vec<String> = env::args().skip(1).collect();
    let done = match &words[..] {
        [set] => list(set),
        [set, row, side, calls] => call(set, row, side, calls),
        _ => None,
    };
    if done.is_none() {
        eprintln!("{USAGE}");
        return ExitCode::from(2);
    }
    ExitCode::SUCCESS
}

fn list(set: &str) -> Option<()> {
    for row in rows_of(set)? {
        println!("{} {}", row.pieces(), row.name);
    }
    Some(())
}

fn call(set: &str, row: &str, side: &str, calls: &str) -> Option<()> {
    let index = row.parse::<usize>().ok()?.checked_sub(1)?;
    let rows = rows_of(set)?;
    rows.get(index)?.calls(side_of(side)?, calls.parse().ok()?);
    Some(())
}

fn rows_of(set: &str) -> Option<Vec<Row<'static>>> {
    match set {
        "benchmark" => Some(rows()),
        "address-bytes" => Some(address_bytes()),
        "before-address-bytes" => Some(before_address_bytes()),
        _ => None,
    }
}

fn side_of(name: &str) -> Option<Side> {
    match name {
        "library" => Some(LIBRARY),
        "model" => Some(MODEL),
        _ => None,
    }
}
