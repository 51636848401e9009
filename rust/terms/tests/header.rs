//! What `perlovasta_terms.h` says as well.

#[path = "../../header.rs"]
mod header;

use header::Header;
use perlovasta_terms::{Answer, PLACES, Pointer, Register};

const TERMS: &str = "perlovasta_terms.h";

#[test]
fn answers() {
    let header = Header::of(TERMS);
    let names = [
        "DONE",
        "MALFORMED",
        "NOT_READY",
        "ADDRESS_NACKED",
        "DATA_NACKED",
        "LOST",
        "FAULT",
        "UNFINISHED",
        "REFUSED",
        "RESET",
    ];
    for (answer, name) in Answer::ALL.into_iter().zip(names) {
        header.assert_number(name, answer.number());
        header.assert_says(&format!("case PERLOVASTA_{name}: return \"{answer}\";"));
    }
}

#[test]
fn registers() {
    let header = Header::of(TERMS);
    header.assert_number("REGISTER_I2CSTA", Register::Status.number());
    header.assert_number("REGISTER_INDPTR", Register::POINTER.number());
    header.assert_number("REGISTER_I2CDAT", Register::Data.number());
    header.assert_number("REGISTER_AT_POINTER", Register::AtPointer.number());
    header.assert_number("REGISTER_I2CCON", Register::Control.number());
}

#[test]
fn pointers() {
    let header = Header::of(TERMS);
    for (pointer, name) in [
        (Pointer::Count, "I2CCOUNT"),
        (Pointer::OwnAddress, "I2CADR"),
        (Pointer::ClockLow, "I2CSCLL"),
        (Pointer::ClockHigh, "I2CSCLH"),
        (Pointer::TimeOut, "I2CTO"),
        (Pointer::Preset, "I2CPRESET"),
        (Pointer::BusMode, "I2CMODE"),
        (Pointer::MovedCount, "MOVED_COUNT"),
    ] {
        header.assert_number(&format!("POINTER_{name}"), pointer.number());
    }
}

#[test]
fn version_and_places() {
    let header = Header::of(TERMS);
    let version = env!("CARGO_PKG_VERSION");
    header.assert_says(&format!("#define PERLOVASTA_VERSION \"{version}\""));
    header.assert_says(&format!("#define PERLOVASTA_PLACES {PLACES}u"));
}
