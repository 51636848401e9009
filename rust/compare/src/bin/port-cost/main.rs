//! What a tool needs to tell what the port costs.
//!
//! `port-cost calls` makes the calls of a recovery and of one read of eight bytes, and shows them
//! in order, each with the kind of step that it gave. `port-cost stack` shows the bytes of stack
//! that each function takes.

mod calls;
mod painted;
mod stack;

use std::env;
use std::process::ExitCode;

fn main() -> ExitCode {
    let words: Vec<String> = env::args().skip(1).collect();
    match words.iter().map(String::as_str).collect::<Vec<_>>()[..] {
        ["calls"] => calls::show(),
        ["stack"] => stack::show(),
        _ => {
            eprintln!("usage: port-cost calls|stack");
            return ExitCode::from(2);
        }
    }
    ExitCode::SUCCESS
}
