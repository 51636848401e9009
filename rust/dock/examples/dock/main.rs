//! usage: dock SCRIPT     reads a badge of 8 bytes from the reader at 50h, through the port
//!
//! SCRIPT is a file of what the bus does, pairs of bytes (event, argument); one pair happens at
//! each wait. Prints the badge and ends with 0, or says why there is none and ends with 1. Where
//! nothing could be told it ends with 2.
//!
//! A dock has a board of its own in the place of [`ScriptedChip`]: the three methods of that file
//! are all that a board replaces.

mod scripted_chip;

use perlovasta::Refusal;
use perlovasta_dock::{Address, Answer, Bytes, Port, PortError};
use scripted_chip::ScriptedChip;
use std::error::Error;
use std::io::Write;
use std::process::ExitCode;
use std::{env, fs, io};

const READER: Address = match Address::new(0x50) {
    Ok(address) => address,
    Err(_) => panic!("no device's address"),
};
const BADGE: usize = 8;

fn main() -> ExitCode {
    let words: Vec<String> = env::args().skip(1).collect();
    let [file] = &words[..] else {
        eprintln!("usage: dock SCRIPT");
        return ExitCode::from(2);
    };
    match tell(file) {
        Ok(true) => ExitCode::SUCCESS,
        Ok(false) => ExitCode::FAILURE,
        Err(error) => {
            eprintln!("{file}: {error}");
            ExitCode::from(2)
        }
    }
}

/// Says what came of the script in this file: whether there is a badge.
fn tell(file: &str) -> Result<bool, Box<dyn Error>> {
    let badge = badge(&fs::read(file)?);
    writeln!(io::stdout(), "{}", said(&badge))?;
    Ok(badge.is_ok())
}

/// One badge. A dock keeps its port, and brings the chip back once and after a job that says so.
fn badge(script: &[u8]) -> Result<Bytes, PortError<Refusal>> {
    let (pairs, _) = script.as_chunks::<2>();
    let mut port = Port::new();
    let mut board = ScriptedChip::new(pairs.iter().copied());
    port.recover(&mut board, &[])?;
    port.read(&mut board, READER, BADGE)
}

/// The badge, or why there is none.
fn said(badge: &Result<Bytes, PortError<Refusal>>) -> String {
    match badge {
        Ok(bytes) => bytes.iter().fold("badge".to_owned(), |said, byte| {
            format!("{said} {byte:02X}")
        }),
        Err(error) => format!("no badge: {}", why(error)),
    }
}

fn why(error: &PortError<Refusal>) -> String {
    match error {
        PortError::Board(refusal) => {
            format!("{}: refusal {}", Answer::Refused, refusal.number())
        }
        error => error.answer().to_string(),
    }
}

#[cfg(test)]
mod tests {
    use super::{badge, said};
    use std::fs;
    use std::path::{Path, PathBuf};

    /// A file of the example in C.
    fn file(name: &str) -> PathBuf {
        let folder = Path::new(env!("CARGO_MANIFEST_DIR")).join("../../examples/c");
        folder.join(name)
    }

    /// The scripts of the example in C, which says the same of each.
    #[test]
    fn the_stored_scripts() {
        for name in ["badge", "badge-nacked", "badge-cut", "badge-refused"] {
            let script = fs::read(file(name).with_extension("script")).expect("a script");
            let expected = fs::read_to_string(file(name).with_extension("expected"));
            let expected = expected.expect("what it says");
            assert_eq!(said(&badge(&script)), expected.trim_end(), "{name}");
        }
    }

    /// A pair that is no event is refused when it happens, and not before.
    #[test]
    fn pairs_that_are_no_event() {
        let whole = fs::read(file("badge.script")).expect("a script");
        for (rest, refusal) in [(&[15, 0][..], 1), (&[6, 2], 2), (&[99], 0)] {
            let behind = [&whole[..], rest].concat();
            assert_eq!(said(&badge(&behind)), said(&badge(&whole)));
            let expected = match refusal {
                0 => "no badge: the script ended first".to_owned(),
                number => format!("no badge: the controller refused an event: refusal {number}"),
            };
            let amid = [&whole[..4], rest].concat();
            assert_eq!(said(&badge(&amid)), expected);
        }
    }
}
