//! The next bus event for a controller, for traces and for the scripts of jobs.

use crate::group::{INDIRECT, POINTER};
use crate::random::Random;
use crate::steer::LOST;
use crate::steer::control::STA;
use model::{Controller, Turn};

const OWN_START: u8 = 1;
const OTHER_START: u8 = 2;
/// Another's STOP.
pub const OTHER_STOP: u8 = 3;
const OWN_STOP: u8 = 4;
const ADDRESS_IN: u8 = 5;
const BYTE_OUT: u8 = 6;
const BYTE_IN: u8 = 7;
const LOST_IN_ADDRESS: u8 = 8;
const LOST_IN_DATA: u8 = 9;
/// START or STOP at an illegal place.
pub const ILLEGAL_EDGE: u8 = 10;
const SDA_HELD: u8 = 11;
/// SCL low past the time-out.
pub const SCL_LOW: u8 = 12;
const IDLE: u8 = 13;
/// The reset pin.
pub const RESET: u8 = 14;

const ACK: u8 = 0;
const NACK: u8 = 1;
/// A byte out that was not acknowledged.
pub const NACKED: [u8; 2] = [BYTE_OUT, NACK];

/// An event and its argument: what carries on what is under way, or with `noise` percent something
/// else. With any noise at all there is more at the address byte, which can end in most ways.
pub fn next(controller: &Controller, random: &mut Random, noise: usize) -> [u8; 2] {
    let more = match controller.turn() {
        Turn::Address if noise > 0 => 20,
        _ => 0,
    };
    if !random.percent(noise + more) {
        usual(controller, random)
    } else if random.percent(60) {
        other(controller, random)
    } else {
        any(random)
    }
}

/// Any event, mostly one that there is, with an argument that it mostly takes.
pub fn any(random: &mut Random) -> [u8; 2] {
    let event = match random.below(20) {
        0 => random.byte(),
        _ => 1 + random.below(14) as u8,
    };
    [event, random.pick_or_any(&[0, 0, 0, 0, 1])]
}

/// The event that carries on.
fn usual(controller: &Controller, random: &mut Random) -> [u8; 2] {
    match controller.turn() {
        Turn::Free if controller.control() & STA != 0 => [OWN_START, 0],
        Turn::Free => [OTHER_START, 0],
        Turn::Busy | Turn::Host { status: LOST, .. } => [OTHER_STOP, 0],
        Turn::Listen => [ADDRESS_IN, calling_byte(controller, random)],
        Turn::Address | Turn::Send | Turn::SlaveSend => [BYTE_OUT, ACK],
        Turn::Receive | Turn::SlaveReceive(_) => [BYTE_IN, random.byte()],
        Turn::Stopping => [OWN_STOP, 0],
        Turn::Restarting => [OWN_START, 0],
        Turn::Off | Turn::Host { .. } => [RESET, 0],
    }
}

/// Another event that the turn expects.
fn other(controller: &Controller, random: &mut Random) -> [u8; 2] {
    let event = random.pick(others(controller.turn()));
    let argument = match event {
        ADDRESS_IN => random.byte(),
        BYTE_OUT => NACK,
        LOST_IN_ADDRESS => winner(controller, random),
        _ => 0,
    };
    [event, argument]
}

/// The events of [`other`], those that lead on oftener than faults.
const fn others(turn: Turn) -> &'static [u8] {
    match turn {
        Turn::Host { status: LOST, .. } => &[SCL_LOW, SCL_LOW, RESET],
        Turn::Off | Turn::Host { .. } => &[RESET],
        Turn::Free => &[OTHER_START, OTHER_START, ILLEGAL_EDGE, SDA_HELD, SCL_LOW],
        Turn::Busy => &[OTHER_START, OTHER_START, IDLE, IDLE, ILLEGAL_EDGE, SCL_LOW],
        Turn::Listen => &[ADDRESS_IN, IDLE, IDLE, ILLEGAL_EDGE, SCL_LOW],
        Turn::Address => &[
            BYTE_OUT,
            LOST_IN_ADDRESS,
            LOST_IN_ADDRESS,
            LOST_IN_ADDRESS,
            ILLEGAL_EDGE,
            SCL_LOW,
        ],
        Turn::Send => &[BYTE_OUT, BYTE_OUT, LOST_IN_DATA, ILLEGAL_EDGE, SCL_LOW],
        Turn::Receive => &[LOST_IN_DATA, LOST_IN_DATA, ILLEGAL_EDGE, SCL_LOW],
        Turn::SlaveReceive(_) => &[
            OTHER_START,
            OTHER_START,
            OTHER_STOP,
            OTHER_STOP,
            ILLEGAL_EDGE,
            SCL_LOW,
        ],
        Turn::SlaveSend => &[BYTE_OUT, BYTE_OUT, ILLEGAL_EDGE, SCL_LOW],
        Turn::Stopping => &[ILLEGAL_EDGE, SCL_LOW],
        Turn::Restarting => &[OTHER_START, SDA_HELD, ILLEGAL_EDGE, SCL_LOW],
    }
}

/// Arbitration lost at the address byte, to one that may call the controller.
pub fn lost(controller: &Controller, random: &mut Random) -> [u8; 2] {
    [LOST_IN_ADDRESS, winner(controller, random)]
}

/// A byte that may call the controller: its own address, General Call, or neither.
fn calling_byte(controller: &Controller, random: &mut Random) -> u8 {
    let register = own_register(controller);
    let (own, answers_general) = (register & !1, register & 1 != 0);
    let general = if answers_general { 0 } else { own };
    random.pick_or_any(&[own, own | 1, own | 1, general, general, general, 0, 1])
}

/// The byte that won arbitration; it must be smaller than the one in place 0.
fn winner(controller: &Controller, random: &mut Random) -> u8 {
    let ours = controller.buffer()[0];
    let calling = calling_byte(controller, random);
    let below = ours.wrapping_sub(1);
    random.pick_or_any(&[calling, calling, calling, ours, below])
}

/// I2CADR. It is read through the pointer, so from a copy.
fn own_register(controller: &Controller) -> u8 {
    let mut copy = controller.clone();
    let value = copy.write(POINTER, 1).and_then(|_| copy.read(INDIRECT));
    value.expect("I2CADR can be read in every turn")
}
