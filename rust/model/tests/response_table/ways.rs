//! Ways to every status and to every turn at F8h, by accesses and events only.

use crate::step::{AA, ENSIO, I2CCON, I2CDAT, INDIRECT, INDPTR, NO_STATUS, STA, STO, Step};
use model::{Called, Controller, Turn};

use Step::Event;

/// I2CADR: own address 70h, GC 1.
const OWN: u8 = 0xE1;
const OWN_WRITE: u8 = 0xE0;
const OWN_READ: u8 = 0xE1;
const GENERAL_CALL: u8 = 0x00;
/// The address bytes of a slave on the bus, for a write and for a read.
const SLAVE_WRITE: u8 = 0xA0;
const SLAVE_READ: u8 = 0xA1;
/// An address byte that loses against the own address and the General Call.
const LOSING: u8 = 0xF0;

/// I2CCOUNT with a valid BC, 1 to 68, with LB 0 and LB 1.
pub const COUNTS: [u8; 6] = [0x04, 0x01, 0x44, 0x84, 0x81, 0xC4];

const fn data(byte: u8) -> Step {
    Step::Write(I2CDAT, byte)
}

const fn control(value: u8) -> Step {
    Step::Write(I2CCON, ENSIO | value)
}

/// The status given, the status before, and the steps from there.
type Way = (u8, u8, &'static [Step]);

/// "Own START. Free with STA: 08h. Restarting: 10h." "Another's START. [..]
/// Restarting: 10h." "Idle past the time-out, TE and STA 1, in Busy or Listen:
/// 08h."
const STARTS: [Way; 4] = [
    (0x08, NO_STATUS, &[control(STA), Event(1, 0)]),
    (0x08, NO_STATUS, &[control(STA), Event(2, 0), Event(13, 0)]),
    (0x10, 0x18, &[control(STA), Event(1, 0)]),
    (0x10, 0x18, &[control(STA), Event(2, 0)]),
];

/// "Address: 18h/20h, for R 1 40h/48h. Send: 28h/30h." "Receive 50h/58h", "and
/// a received byte is ACKed exactly when AA is 1".
const MASTER: [Way; 8] = [
    (0x18, 0x08, &[data(SLAVE_WRITE), control(0), Event(6, 0)]),
    (0x20, 0x08, &[data(SLAVE_WRITE), control(0), Event(6, 1)]),
    (0x28, 0x18, &[control(0), Event(6, 0)]),
    (0x30, 0x18, &[control(0), Event(6, 1)]),
    (0x40, 0x08, &[data(SLAVE_READ), control(0), Event(6, 0)]),
    (0x48, 0x08, &[data(SLAVE_READ), control(0), Event(6, 1)]),
    (0x50, 0x40, &[control(AA), Event(7, 0x5A)]),
    (0x58, 0x40, &[control(0), Event(7, 0x5A)]),
];

/// "Arbitration lost in Address, [..] Matched as in 5 it gives 68h, B0h or
/// D8h, else 38h." "Arbitration lost in Send or Receive: 38h."
const LOST: [Way; 6] = [
    (0x38, 0x08, &[data(LOSING), control(0), Event(8, OWN_WRITE)]),
    (0x38, 0x18, &[control(0), Event(9, 0)]),
    (0x38, 0x40, &[control(0), Event(9, 0)]),
    (
        0x68,
        0x08,
        &[data(LOSING), control(AA), Event(8, OWN_WRITE)],
    ),
    (0xB0, 0x08, &[data(LOSING), control(AA), Event(8, OWN_READ)]),
    (
        0xD8,
        0x08,
        &[data(LOSING), control(AA), Event(8, GENERAL_CALL)],
    ),
];

/// "Byte 00h with AA and GC: D0h. Else AA 1, I2CADR's address not zero and
/// equal to the byte's upper seven bits: 60h, or A8h for R 1." "own
/// SlaveReceive 80h/88h, General Call E0h/E8h." "SlaveSend: NACK C0h; ACK
/// gives C8h with AA 0, else B8h."
const SLAVE: [Way; 10] = [
    (
        0x60,
        NO_STATUS,
        &[control(AA), Event(2, 0), Event(5, OWN_WRITE)],
    ),
    (
        0xA8,
        NO_STATUS,
        &[control(AA), Event(2, 0), Event(5, OWN_READ)],
    ),
    (
        0xD0,
        NO_STATUS,
        &[control(AA), Event(2, 0), Event(5, GENERAL_CALL)],
    ),
    (0x80, 0x60, &[control(AA), Event(7, 0x5A)]),
    (0x88, 0x60, &[control(0), Event(7, 0x5A)]),
    (0xE0, 0xD0, &[control(AA), Event(7, 0x5A)]),
    (0xE8, 0xD0, &[control(0), Event(7, 0x5A)]),
    (0xB8, 0xA8, &[control(AA), Event(6, 0)]),
    (0xC0, 0xA8, &[control(AA), Event(6, 1)]),
    (0xC8, 0xA8, &[control(0), Event(6, 0)]),
];

/// "Another's STOP. [..] SlaveReceive: A0h."
const STOPPED: [Way; 2] = [
    (0xA0, 0x60, &[control(AA), Event(3, 0)]),
    (0xA0, 0xD0, &[control(AA), Event(3, 0)]),
];

/// "Another's START. [..] SlaveReceive: A0h."
const STARTED: [Way; 2] = [
    (0xA0, 0x60, &[control(AA), Event(2, 0)]),
    (0xA0, 0xD0, &[control(AA), Event(2, 0)]),
];

/// "START or STOP at an illegal place. Wire turns: 00h." "SDA held after nine
/// clocks. Free with STA, or Restarting: 70h." "SCL low past the time-out, TE
/// 1: 78h", at 38h too.
const FAULTS: [Way; 6] = [
    (0x00, 0x18, &[control(0), Event(10, 0)]),
    (0x00, 0x18, &[control(STO), Event(10, 0)]),
    (0x70, NO_STATUS, &[control(STA), Event(11, 0)]),
    (0x70, 0x18, &[control(STA), Event(11, 0)]),
    (0x78, NO_STATUS, &[control(0), Event(12, 0)]),
    (0x78, 0x38, &[Event(12, 0)]),
];

/// The turns with SI 0, each with a status before it and the steps from there.
const TURNS: [(Turn, u8, &[Step]); 13] = [
    (Turn::Off, NO_STATUS, &[]),
    (Turn::Free, NO_STATUS, &[control(0)]),
    (Turn::Busy, 0x88, &[control(0)]),
    (Turn::Listen, NO_STATUS, &[control(0), Event(2, 0)]),
    (Turn::Address, 0x08, &[data(SLAVE_WRITE), control(0)]),
    (Turn::Send, 0x18, &[control(0)]),
    (Turn::Receive, 0x40, &[control(0)]),
    (Turn::SlaveReceive(Called::Own), 0x60, &[control(0)]),
    (Turn::SlaveReceive(Called::General), 0xD0, &[control(0)]),
    (Turn::SlaveSend, 0xA8, &[control(0)]),
    (Turn::Stopping, 0x18, &[control(STO)]),
    (Turn::Stopping, 0x18, &[control(STA | STO)]),
    (Turn::Restarting, 0x18, &[control(STA)]),
];

/// All ways to a status.
fn ways() -> impl Iterator<Item = Way> {
    let master = STARTS.into_iter().chain(MASTER).chain(LOST);
    let slave = SLAVE.into_iter().chain(STOPPED).chain(STARTED);
    master.chain(slave).chain(FAULTS)
}

/// A fresh controller, in Off, with this I2CCOUNT and with I2CADR.
fn prepared(count: u8) -> Controller {
    let settings = [
        Step::Write(INDPTR, 0x00),
        Step::Write(INDIRECT, count),
        Step::Write(INDPTR, 0x01),
        Step::Write(INDIRECT, OWN),
    ];
    follow(Controller::fresh(), &settings)
}

/// Takes the steps, each of which must be accepted.
fn follow(mut controller: Controller, steps: &[Step]) -> Controller {
    for step in steps {
        let answer = step.take(&mut controller);
        assert!(answer.is_ok(), "{step:?} {answer:?} in {controller:?}");
    }
    controller
}

/// At this status by the first of its ways; F8h is Off.
fn at(status: u8, count: u8) -> Controller {
    if status == NO_STATUS {
        return prepared(count);
    }
    let way = ways().find(|&(given, ..)| given == status);
    by(way.expect("a status that events give"), count)
}

/// At the way's status, by that way.
fn by((status, from, steps): Way, count: u8) -> Controller {
    let controller = follow(at(from, count), steps);
    assert_eq!(controller.status(), status, "{controller:?}");
    controller
}

/// A record for each way to a status, in Host.
pub fn in_host(count: u8) -> Vec<Controller> {
    ways().map(|way| by(way, count)).collect()
}

/// Records at A0h after another's STOP.
pub fn after_stop(count: u8) -> Vec<Controller> {
    STOPPED.map(|way| by(way, count)).into()
}

/// Records at A0h after another's START.
pub fn after_start(count: u8) -> Vec<Controller> {
    STARTED.map(|way| by(way, count)).into()
}

/// A record for each turn at F8h.
pub fn at_f8h(count: u8) -> Vec<Controller> {
    let reach = |(turn, from, steps)| {
        let controller = follow(at(from, count), steps);
        assert_eq!(controller.turn(), turn);
        assert_eq!(controller.status(), NO_STATUS);
        controller
    };
    TURNS.into_iter().map(reach).collect()
}
