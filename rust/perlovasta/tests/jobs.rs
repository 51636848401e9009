//! Jobs: the printed example of document 01, its cases a to g, and what an error tells.

use perlovasta::{Acknowledge, Address, Answer, Argument, Event, Refusal, read, write};
use std::error::Error;

const START: Event = Event::OwnStart;
const STOP: Event = Event::OwnStop;
const ACKED: Event = Event::ByteOut(Acknowledge::Ack);
const NACKED: Event = Event::ByteOut(Acknowledge::Nack);

fn device() -> Address {
    Address::new(0x50).expect("a device's address")
}

/// Runs a read that is not done: its answer, the bytes sent and the events taken.
#[track_caller]
fn read_fails(n: usize, script: &[Event]) -> (Answer, Vec<u8>, usize) {
    let error = read(device(), n, script).expect_err("it is not done");
    assert_eq!(error.moved(), 0);
    assert_eq!(
        error.argument().is_some(),
        error.answer() == Answer::Malformed
    );
    assert_eq!(error.refusal().is_some(), error.answer() == Answer::Refused);
    (error.answer(), error.sent().to_vec(), error.events())
}

/// The script of a read: what the reader sends, each byte in.
fn read_script(bytes: &[u8]) -> Vec<Event> {
    let data = bytes.iter().copied().map(Event::ByteIn);
    [START, ACKED]
        .into_iter()
        .chain(data)
        .chain([STOP])
        .collect()
}

#[test]
fn printed_example() {
    let written = write(device(), &[0x11, 0x22], &[START, ACKED, ACKED, ACKED, STOP]);
    let written = written.expect("it is done");
    assert_eq!(written.sent(), [0xA0, 0x11, 0x22]);
    assert_eq!(written.events(), 5);
}

#[test]
fn case_a() {
    let bytes = read(device(), 1, &read_script(&[0x5C])).expect("it is done");
    assert_eq!(bytes, [0x5C]);
    assert_eq!(bytes, [0x5C][..]);
    assert_eq!(bytes, bytes.as_ref());
    assert_eq!(bytes.bytes(), [0x5C]);
    for byte in &bytes {
        assert_eq!(*byte, 0x5C);
    }
    assert_eq!((bytes.sent(), bytes.events()), (&[0xA1][..], 4));
}

#[test]
fn case_b() {
    let nacked = (Answer::AddressNacked, vec![0xA1], 3);
    assert_eq!(read_fails(1, &[START, NACKED, STOP]), nacked);
}

#[test]
fn case_c() {
    let error = write(device(), &[0x11, 0x22], &[START, ACKED, NACKED, STOP]).unwrap_err();
    assert_eq!((error.answer(), error.moved()), (Answer::DataNacked, 1));
    assert_eq!((error.sent(), error.events()), (&[0xA0, 0x11][..], 4));
    assert_eq!(error.to_string(), "the reader did not take a data byte");
}

#[test]
fn case_d() {
    let bytes: Vec<u8> = (100..168).collect();
    let got = read(device(), 68, &read_script(&bytes)).expect("it is done");
    assert_eq!((&got[..], got.events()), (&bytes[..], 71));

    let script = [&[START][..], &[ACKED; 69], &[STOP]].concat();
    let written = write(device(), &bytes, &script).expect("it is done");
    assert_eq!(written.sent(), [&[0xA0], &bytes[..]].concat());
    assert_eq!(written.events(), 71);
}

#[test]
fn cases_e_and_f() {
    for n in [0, 69, 255, 256, 257, 256 + 68, 70_000] {
        let script = read_script(&[1; 69]);
        assert_eq!(read_fails(n, &script), (Answer::Malformed, vec![], 0));
        let error = read(device(), n, &script).unwrap_err();
        assert_eq!(error.argument(), Some(Argument::Count(n)));
        let words = format!("a read is of 1 to 68 bytes, not of {n}");
        assert_eq!(error.to_string(), words);

        let error = write(device(), &vec![1; n], &[START]).unwrap_err();
        assert_eq!(error.answer(), Answer::Malformed);
        assert_eq!(error.argument(), Some(Argument::Data(n)));
        let words = format!("a write is of 1 to 68 data bytes, not of {n}");
        assert_eq!(error.to_string(), words);
    }
}

#[test]
fn case_g() {
    assert_eq!(read_fails(1, &[]), (Answer::Unfinished, vec![], 0));
    let error: Box<dyn Error> = Box::new(read(device(), 1, &[]).unwrap_err());
    assert_eq!(error.to_string(), "the script ended first");
}

#[test]
fn first_and_last_address() {
    for (address, byte) in [(Address::FIRST, 0x11), (Address::LAST, 0xEF)] {
        let bytes = read(address, 1, &read_script(&[0x5C])).expect("it is done");
        assert_eq!(bytes.sent(), [byte]);
    }
}

#[test]
fn a_read_that_is_not_done_has_no_bytes() {
    let whole = read_script(&[0x5C, 0x5D, 0x5E]);
    for events in 0..whole.len() {
        // The second event sends the address byte.
        let sent = if events < 2 { vec![] } else { vec![0xA1] };
        let script = &whole[..events];
        let unfinished = (Answer::Unfinished, sent.clone(), events);
        assert_eq!(read_fails(3, script), unfinished);
        for (last, answer, taken) in [
            (Event::ResetPin, Answer::Reset, 1),
            (Event::AddressByte(0), Answer::Refused, 0),
            (Event::SclLow, Answer::Fault, 1),
        ] {
            let ended = (answer, sent.clone(), events + taken);
            assert_eq!(read_fails(3, &[script, &[last]].concat()), ended);
        }
    }
}

#[test]
fn a_refused_event_is_told() {
    let error = read(device(), 3, &[STOP]).unwrap_err();
    assert_eq!(error.refusal(), Some(Refusal::Unexpected));
    let source = error.source().and_then(|source| source.downcast_ref());
    assert_eq!(source, Some(&Refusal::Unexpected));
    assert_eq!(
        error.to_string(),
        "the controller refused an event: the event is not expected now"
    );
}

#[test]
fn arbitration_lost() {
    let error = write(device(), &[9], &[START, ACKED, Event::LostInData]).unwrap_err();
    assert_eq!((error.answer(), error.sent()), (Answer::Lost, &[0xA0][..]));
    let error = write(device(), &[9], &[START, Event::LostInAddress(0x9F)]).unwrap_err();
    assert_eq!((error.answer(), error.sent()), (Answer::Lost, &[][..]));
}

#[test]
fn later_events_are_not_looked_at() {
    let script = [&read_script(&[0x5C])[..], &[STOP, STOP]].concat();
    let bytes = read(device(), 1, &script).expect("it is done");
    assert_eq!((&bytes[..], bytes.events()), (&[0x5C][..], 4));
}
