//! The calls of a recovery and of one read of eight bytes, on a list of what the registers read.

use compare::port::step::Step;
use perlovasta_dock::{STATE_LEN, sys};

/// What the registers read in the read.
const REGISTERS: [u8; 19] = [
    0x40, 0xF8, // ready
    0x60, // nothing has come yet
    0x68, 0x08, // own START
    0x48, 0x40, // the address byte was acknowledged
    0x49, 0x58, // eight bytes came in
    0x04, 0xA2, 0x19, 0x6E, 0x35, 0x80, 0x00, 0x5C, // these
    0x49, // and nothing has happened to the chip meanwhile
    0x40, // own STOP
];

/// A call: its name, and the number of the step that it gave.
type Call = (&'static str, u32);

/// Makes the calls, then shows each: its name, and the kind of the step that it gave.
pub fn show() {
    let mut state = [0; STATE_LEN];
    let recovery = recovery(&mut state);
    let read = read(&mut state);
    let mut badge = [0; 8];
    let why_not = sys::take(&mut state, &mut badge);
    assert_eq!((why_not, &badge[..]), (0, &REGISTERS[9..17]), "not read");
    for (name, step) in [recovery, read].concat() {
        println!("{name} {}", kind(step));
    }
    println!("take bytes");
}

/// A recovery without settings.
fn recovery(state: &mut [u8]) -> Vec<Call> {
    let mut step = sys::recover(state, &[]);
    let mut calls = vec![("recover", step)];
    while !is_over(step) {
        step = sys::next(state, 0);
        calls.push(("recovering", step));
    }
    calls
}

/// A read of eight bytes from 50h.
fn read(state: &mut [u8]) -> Vec<Call> {
    let mut registers = REGISTERS.iter();
    let mut step = sys::start(state, 1, 0x50, 8, &[]);
    let mut calls = vec![("start", step)];
    while !is_over(step) {
        let value = match Step::from_number(step) {
            Some(Step::Read { .. }) => *registers.next().expect("a value for each read"),
            _ => 0,
        };
        step = sys::next(state, value);
        calls.push(("next", step));
    }
    calls
}

fn is_over(step: u32) -> bool {
    matches!(Step::from_number(step), None | Some(Step::Over { .. }))
}

fn kind(step: u32) -> &'static str {
    match Step::from_number(step) {
        Some(Step::Write { .. }) => "write",
        Some(Step::Read { .. }) => "read",
        Some(Step::Wait) => "wait",
        Some(Step::Pause) => "pause",
        Some(Step::Over { .. }) => "over",
        None => "none",
    }
}
