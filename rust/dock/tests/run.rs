//! Whole jobs on a board: a virtual chip with a script, and boards that fail.

#[path = "../examples/dock/scripted_chip.rs"]
mod scripted_chip;

use perlovasta::{Acknowledge, Event, Refusal};
use perlovasta_dock::{
    Address, Answer, Argument, Board, Clock, Port, PortError, Register, Setting, Wait,
};
use scripted_chip::ScriptedChip;
use std::convert::Infallible;
use std::error::Error;

const ACKED: Event = Event::ByteOut(Acknowledge::Ack);
const NACKED: Event = Event::ByteOut(Acknowledge::Nack);

fn device() -> Address {
    Address::new(0x50).expect("a device's address")
}

/// The script of a read.
fn read_script(bytes: &[u8]) -> Vec<Event> {
    let data = bytes.iter().copied().map(Event::ByteIn);
    let events = [Event::OwnStart, ACKED].into_iter().chain(data);
    events.chain([Event::OwnStop]).collect()
}

/// A board on which these events happen.
fn scripted(script: &[Event]) -> ScriptedChip<impl Iterator<Item = [u8; 2]>> {
    ScriptedChip::new(script.iter().map(|event| event.pair()))
}

/// A port that was recovered, and its board.
fn recovered(script: &[Event]) -> (Port, ScriptedChip<impl Iterator<Item = [u8; 2]>>) {
    let (mut port, mut board) = (Port::new(), scripted(script));
    assert_eq!(port.recover(&mut board, &[]), Ok(()));
    (port, board)
}

#[test]
fn reads_of_every_length() {
    let all: Vec<u8> = (100..168).collect();
    for n in 1..=68 {
        let script = read_script(&all[..n]);
        let (mut port, mut board) = recovered(&script);
        let bytes = port.read(&mut board, device(), n);
        assert_eq!(bytes.as_deref(), Ok(&all[..n]));
        // They were handed out.
        let error = port.take().unwrap_err();
        assert_eq!(error.answer(), Answer::Malformed);
    }
}

#[test]
fn one_job_after_the_other() {
    let script = [
        &read_script(&[0x5C])[..],
        &[Event::OwnStart, ACKED, ACKED, NACKED, Event::OwnStop],
        &[Event::OwnStart, NACKED, Event::OwnStop],
        &[Event::OwnStart, ACKED, ACKED, Event::OwnStop],
    ]
    .concat();
    let (mut port, mut board) = recovered(&script);
    let bytes = port.read(&mut board, device(), 1);
    assert_eq!(bytes.as_deref(), Ok(&[0x5C][..]));

    let error = port.write(&mut board, device(), &[1, 2]).unwrap_err();
    let (answer, moved) = (Answer::DataNacked, 2);
    assert_eq!(error, PortError::Answered { answer, moved });
    assert_eq!(error.to_string(), "the reader did not take a data byte");

    let error = port.read(&mut board, device(), 1).unwrap_err();
    assert_eq!(error.answer(), Answer::AddressNacked);
    assert_eq!(port.write(&mut board, device(), &[1]), Ok(()));
}

#[test]
fn which_argument_is_wrong() {
    let (mut port, mut board) = recovered(&[]);
    for n in [0, 69, 255, 256, 70_000] {
        let error = port.read(&mut board, device(), n).unwrap_err();
        assert_eq!(error, PortError::Malformed(Argument::Count(n)));
        let error = port.write(&mut board, device(), &vec![0; n]).unwrap_err();
        assert_eq!(error, PortError::Malformed(Argument::Data(n)));
    }
    let error = port.recover(&mut board, &[Setting::Count(1); 7]);
    let error = error.unwrap_err();
    assert_eq!(error, PortError::Malformed(Argument::Settings(7)));
    assert_eq!(
        error.to_string(),
        "a recovery takes six settings at most, not 7"
    );
}

#[test]
fn settings_reach_the_chip() {
    let (mut port, mut board) = (Port::new(), scripted(&[]));
    let settings = [Setting::BusMode(0x01), Setting::OwnAddress(0x22)];
    assert_eq!(port.recover(&mut board, &settings), Ok(()));
    assert_eq!(board.read(Register::AtPointer), Ok(0x22));
}

#[test]
fn a_new_port_wants_a_recovery() {
    let mut board = scripted(&[]);
    let error = Port::new().read(&mut board, device(), 1).unwrap_err();
    assert_eq!(error.answer(), Answer::NotReady);
    let words = "a recovery comes first, or the chip is not ready";
    assert_eq!(error.to_string(), words);
    assert!(error.source().is_none());
}

#[test]
fn the_clock_runs_out() {
    let whole = read_script(&[0x5C, 0x5D]);
    for events in 0..whole.len() {
        let (mut port, mut board) = recovered(&whole[..events]);
        let error = port.read(&mut board, device(), 2).unwrap_err();
        assert_eq!(error.answer(), Answer::Unfinished);
        assert_eq!(error.to_string(), "given up: the time ran out");
        let error = port.read(&mut board, device(), 2).unwrap_err();
        assert_eq!(error.answer(), Answer::NotReady);
        assert_eq!(port.recover(&mut board, &[]), Ok(()));
    }
}

#[test]
fn the_board_fails() {
    let script = [Event::OwnStart, Event::OwnStop];
    let (mut port, mut board) = recovered(&script);
    let error = port.read(&mut board, device(), 1).unwrap_err();
    assert_eq!(error, PortError::Board(Refusal::Unexpected));
    assert_eq!(error.answer(), Answer::Unfinished);
    let words = "the board failed: the event is not expected now";
    assert_eq!(error.to_string(), words);
    let source = error.source().and_then(|source| source.downcast_ref());
    assert_eq!(source, Some(&Refusal::Unexpected));
    // The job was given up.
    let error = port.read(&mut board, device(), 1).unwrap_err();
    assert_eq!(error.answer(), Answer::NotReady);
}

/// A port runs on a board that is lent, and on one whose type is not known.
#[test]
fn boards_behind_a_reference() {
    let script = [read_script(&[0x5C]), read_script(&[0x5D])].concat();
    let (mut port, mut board) = recovered(&script);
    let bytes = port.read(&mut &mut board, device(), 1).expect("it is done");
    assert_eq!(bytes, [0x5C]);
    let any: &mut dyn Board<Error = Refusal> = &mut board;
    let bytes = port.read(any, device(), 1).expect("it is done");
    assert_eq!(bytes, [0x5D]);
}

/// A board whose clock ran out before it was asked.
struct LateBoard;

impl Board for LateBoard {
    type Error = Infallible;

    fn read(&mut self, _: Register) -> Result<u8, Infallible> {
        Ok(0x40)
    }

    fn write(&mut self, _: Register, _: u8) -> Result<(), Infallible> {
        Ok(())
    }

    fn wait(&mut self, _: Wait) -> Result<Clock, Infallible> {
        Ok(Clock::RanOut)
    }
}

#[test]
fn the_clock_runs_out_in_a_recovery() {
    let mut port = Port::new();
    let error = port.recover(&mut LateBoard, &[]).unwrap_err();
    assert_eq!(error.answer(), Answer::Unfinished);
    let error = port.read(&mut LateBoard, device(), 1).unwrap_err();
    assert_eq!(error.answer(), Answer::NotReady);
}

/// A board whose chip is not there: its lines read FFh.
struct NoChip;

impl Board for NoChip {
    type Error = Infallible;

    fn read(&mut self, _: Register) -> Result<u8, Infallible> {
        Ok(0xFF)
    }

    fn write(&mut self, _: Register, _: u8) -> Result<(), Infallible> {
        Ok(())
    }

    fn wait(&mut self, _: Wait) -> Result<Clock, Infallible> {
        Ok(Clock::Running)
    }
}

#[test]
fn no_chip_is_no_badge() {
    let mut port = Port::new();
    assert_eq!(port.recover(&mut NoChip, &[]), Ok(()));
    let error = port.read(&mut NoChip, device(), 1).unwrap_err();
    assert_eq!(error.answer(), Answer::NotReady);
}
