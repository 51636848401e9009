//! A virtual chip is a record of `sys`: random accesses, events and jobs on both.

#[path = "../../random_bytes.rs"]
mod random_bytes;

use perlovasta::{
    Acknowledge, Address, CHIP_LEN, Event, JobError, OUT_LEN, PLACES, REPORT_LEN, Refusal,
    Register, Turn, VirtualChip, sys,
};
use random_bytes::RandomBytes;
use std::collections::{BTreeSet, HashSet};
use std::mem::discriminant;

const ACKED: Event = Event::ByteOut(Acknowledge::Ack);

/// A chip, and a record that has had the same calls.
struct Both {
    chip: VirtualChip,
    record: [u8; CHIP_LEN],
}

/// What came of a job, in the numbers of a report.
#[derive(Debug, PartialEq)]
struct Told {
    answer: u8,
    refusal: u8,
    count: u8,
    sent: Vec<u8>,
    events: usize,
    bytes: Vec<u8>,
}

/// The reply in one number, as `sys` has it.
fn packed(reply: Result<u8, Refusal>) -> u32 {
    match reply {
        Ok(value) => u32::from(value) << 8,
        Err(refusal) => refusal.number().into(),
    }
}

/// A random event that there is.
fn event(random: &mut RandomBytes) -> Event {
    let number = 1 + random.byte() % 14;
    let argument = match number {
        5 => 0xE0 + random.byte() % 2, // a chip's own address after reset
        7 | 8 => random.byte(),
        6 => random.byte() % 2,
        _ => 0,
    };
    Event::try_from([number, argument]).expect("an event")
}

/// An event that is often expected in this turn.
fn expected(turn: Turn) -> Event {
    match turn {
        Turn::Off | Turn::Host { .. } => Event::AnothersStart,
        Turn::Free | Turn::Restarting => Event::OwnStart,
        Turn::Busy => Event::AnothersStop,
        Turn::Listen => Event::AddressByte(0xE0),
        Turn::Address | Turn::Send | Turn::SlaveSend => ACKED,
        Turn::Receive | Turn::SlaveReceive(_) => Event::ByteIn(0x5C),
        Turn::Stopping => Event::OwnStop,
    }
}

/// The script of a read or a write of `n` bytes; often another event ends it, or it is cut.
fn script(random: &mut RandomBytes, read: bool, n: usize) -> Vec<Event> {
    let data = (0..n).map(|_| match read {
        true => Event::ByteIn(random.byte()),
        false => ACKED,
    });
    let mut script: Vec<Event> = [Event::OwnStart, ACKED].into_iter().chain(data).collect();
    script.push(Event::OwnStop);
    let place = usize::from(random.byte()) % script.len();
    match random.byte() {
        0..64 => {
            let any = event(random);
            let other = random.one_of(&[any, Event::ByteOut(Acknowledge::Nack)]);
            script.truncate(place);
            script.extend([other, Event::OwnStop]);
        }
        64..96 => script.truncate(place),
        _ => (),
    }
    script
}

/// What a job that is not done told.
fn not_done(error: &JobError) -> Told {
    Told {
        answer: error.answer().number(),
        refusal: error.refusal().map_or(0, Refusal::number),
        count: error.moved(),
        sent: error.sent().to_vec(),
        events: error.events(),
        bytes: vec![],
    }
}

/// What a job that is done told, of `n` bytes.
fn done(n: usize, sent: &[u8], events: usize, bytes: &[u8]) -> Told {
    Told {
        answer: 0,
        refusal: 0,
        count: u8::try_from(n).expect("68 at most"),
        sent: sent.to_vec(),
        events,
        bytes: bytes.to_vec(),
    }
}

impl Both {
    fn new() -> Self {
        let mut record = [0xEE; CHIP_LEN];
        assert_eq!(sys::chip_fresh(&mut record), 0);
        let chip = VirtualChip::new();
        Both { chip, record }
    }

    /// Both after 40h to I2CCON.
    fn enabled() -> Self {
        let mut both = Both::new();
        assert_eq!(both.chip.write(Register::Control, 0x40), Ok(()));
        assert_eq!(sys::chip_write(&mut both.record, 3, 0x40), 0);
        both
    }

    /// One random access or event of both: the refusal, 0 for accepted.
    fn access(&mut self, random: &mut RandomBytes) -> u8 {
        let register = random.one_of(&Register::ALL);
        let (number, value) = (register.number(), random.byte());
        let value = random.one_of(&[value, 0x00, 0x40, 0x41, 0x50, 0x60, 0xC0, 0xC1]);
        let (reply, expected) = match random.byte() {
            0..64 => {
                let reply = self.chip.read(register);
                (reply, sys::chip_read(&mut self.record, number))
            }
            64..144 => {
                let reply = self.chip.write(register, value).map(|()| 0);
                (reply, sys::chip_write(&mut self.record, number, value))
            }
            _ => {
                let any = event(random);
                let event = random.one_of(&[any, expected(self.chip.turn())]);
                let [number, argument] = event.pair();
                let reply = self.chip.event(event);
                (reply, sys::chip_event(&mut self.record, number, argument))
            }
        };
        assert_eq!(packed(reply), expected);
        reply.map_or_else(Refusal::number, |_| 0)
    }

    /// The hand place goes to the end of the buffer, if it can.
    fn hand_at_end(&mut self) {
        for _ in 0..PLACES {
            let reply = self.chip.read(Register::Data);
            assert_eq!(packed(reply), sys::chip_read(&mut self.record, 1));
        }
    }

    /// One random job of both: its answer.
    fn job(&mut self, random: &mut RandomBytes) -> u8 {
        let (read, n) = (random.byte() < 128, usize::from(random.byte()) % 72);
        let n = random.one_of(&[n, 1, 2]);
        let address = Address::new(8 + random.byte() % 112).expect("a device's address");
        let data: Vec<u8> = (0..n).map(|_| random.byte()).collect();
        let script = script(random, read, n);
        let told = if read {
            let read = self.chip.run_read(address, n, &script);
            read.map(|read| done(n, read.sent(), read.events(), &read))
        } else {
            let written = self.chip.run_write(address, &data, &script);
            written.map(|written| done(n, written.sent(), written.events(), &[]))
        };
        let told = told.unwrap_or_else(|error| not_done(&error));
        let data = if read { &[][..] } else { &data };
        let n = u8::try_from(n).expect("under 72");
        let expected = self.record_job(u8::from(read), address.number(), n, data, &script);
        assert_eq!(told, expected);
        told.answer
    }

    /// The job of the record alone.
    fn record_job(&mut self, kind: u8, address: u8, n: u8, data: &[u8], script: &[Event]) -> Told {
        let pairs: Vec<u8> = script.iter().flat_map(|event| event.pair()).collect();
        let (mut bytes, mut out) = ([0; PLACES], [0; OUT_LEN]);
        let (record, mut report) = (&mut self.record, [0; REPORT_LEN]);
        let answer = sys::chip_job(
            record,
            kind,
            address,
            n,
            data,
            &mut bytes,
            &mut out,
            &pairs,
            &mut report,
        );
        let [_, refusal, count, sent, events @ ..] = report;
        let handed = if kind == 1 && answer == 0 { count } else { 0 };
        Told {
            answer,
            refusal,
            count,
            sent: out[..sent.into()].to_vec(),
            events: u64::from_le_bytes(events) as usize,
            bytes: bytes[..handed.into()].to_vec(),
        }
    }

    /// Both are the same: the turn.
    fn turn(&self) -> Turn {
        assert_eq!(*self.chip.as_bytes(), self.record);
        let again = VirtualChip::from_bytes(&self.record).expect("it holds a controller");
        assert_eq!(again, self.chip);
        assert_eq!(self.chip.reason().number(), self.record[4]);
        let turn = self.chip.turn();
        if let Turn::Host { status, .. } = turn {
            assert_eq!(status, self.record[3]);
        }
        turn
    }
}

#[test]
fn a_chip_is_a_record() {
    let (mut random, mut both) = (RandomBytes(9665), Both::new());
    let (mut refusals, mut answers) = (BTreeSet::new(), BTreeSet::new());
    let mut turns = HashSet::new();
    for _ in 0..200_000 {
        match random.byte() {
            0 => both.hand_at_end(),
            1..8 => both = Both::enabled(), // else few jobs begin
            8..48 => drop(answers.insert(both.job(&mut random))),
            _ => drop(refusals.insert(both.access(&mut random))),
        }
        turns.insert(discriminant(&both.turn()));
    }
    assert!(answers.into_iter().eq([0].into_iter().chain(21..=29)));
    // All but those of numbers that there are not, and of a record that is not sound.
    assert!(refusals.into_iter().eq([0].into_iter().chain(3..=9)));
    assert_eq!(turns.len(), 12);
}
