//! The record in the 88 bytes of a virtual chip: a mark, then every part at its place.

use crate::reference::turn_number;
use crate::steer::control::{AA, ENSIO, MODE, STA, STO};
use model::{Called, Controller, Edge, PLACES, Reason, Record, Turn};

/// The bytes of a record.
pub const RECORD_LEN: usize = HEAD + PLACES as usize;

/// The bytes before the buffer.
const HEAD: usize = 20;
const MARK: [u8; 2] = [0x50, 0x43];
/// The flags of I2CCON in their order.
const FLAGS: [u8; 5] = [AA, ENSIO, STA, STO, MODE];

/// The controller in its bytes.
pub fn bytes(controller: &Controller) -> [u8; RECORD_LEN] {
    let record = controller.record();
    let [aa, ensio, sta, sto, mode] = FLAGS.map(|flag| u8::from(record.control & flag != 0));
    let head: [u8; HEAD] = [
        MARK[0],
        MARK[1],
        turn_number(record.turn),
        controller.status(),
        record.reason.number(),
        aa,
        ensio,
        sta,
        sto,
        mode,
        u8::from(record.armed),
        record.hand,
        record.moved,
        record.pointer,
        record.count,
        record.own,
        record.clock_low,
        record.clock_high,
        record.timeout,
        record.bus_mode,
    ];
    let mut bytes = [0; RECORD_LEN];
    let (place, buffer) = bytes.split_at_mut(HEAD);
    place.copy_from_slice(&head);
    buffer.copy_from_slice(&record.buffer);
    bytes
}

/// The controller that these bytes hold, if they hold one. The status is not looked at outside
/// Host.
pub fn controller(bytes: &[u8]) -> Option<Controller> {
    let (head, rest) = bytes.split_first_chunk::<HEAD>()?;
    if !head.starts_with(&MARK) {
        return None;
    }
    let record = Record {
        turn: turn_of(head[2], head[3])?,
        reason: *Reason::ALL.get(usize::from(head[4]))?,
        control: control([head[5], head[6], head[7], head[8], head[9]])?,
        armed: flag(head[10])?,
        hand: head[11],
        moved: head[12],
        pointer: head[13],
        count: head[14],
        own: head[15],
        clock_low: head[16],
        clock_high: head[17],
        timeout: head[18],
        bus_mode: head[19],
        buffer: *rest.first_chunk()?,
    };
    Some(record.into())
}

fn flag(byte: u8) -> Option<bool> {
    match byte {
        0 => Some(false),
        1 => Some(true),
        _ => None,
    }
}

/// The five flags at their places in I2CCON.
fn control(bytes: [u8; 5]) -> Option<u8> {
    let mut control = 0;
    for (byte, bit) in bytes.into_iter().zip(FLAGS) {
        control |= if flag(byte)? { bit } else { 0 };
    }
    Some(control)
}

/// The turn of this number, with the status that stands beside it.
fn turn_of(number: u8, status: u8) -> Option<Turn> {
    let host = |edge| Turn::Host { status, edge };
    let turn = match number {
        0 => Turn::Off,
        1 => host(Edge::Stop),
        17 => host(Edge::Start),
        2 => Turn::Free,
        3 => Turn::Busy,
        4 => Turn::Listen,
        5 => Turn::Address,
        6 => Turn::Send,
        7 => Turn::Receive,
        8 => Turn::SlaveReceive(Called::Own),
        24 => Turn::SlaveReceive(Called::General),
        9 => Turn::SlaveSend,
        10 => Turn::Stopping,
        11 => Turn::Restarting,
        _ => return None,
    };
    Some(turn)
}

#[cfg(test)]
mod tests {
    use super::{RECORD_LEN, bytes, controller};
    use model::{Controller, Refusal, Turn};

    /// At each of the fourteen turns, with every other byte another.
    fn records() -> impl Iterator<Item = [u8; RECORD_LEN]> {
        let turns = [0, 1, 2, 3, 4, 5, 6, 7, 8, 9, 10, 11, 17, 24];
        turns.into_iter().map(|turn| {
            let mut bytes: [u8; RECORD_LEN] = std::array::from_fn(|place| 100 + place as u8);
            bytes[..5].copy_from_slice(&[0x50, 0x43, turn, 0xF8, turn % 7]);
            bytes[5..11].copy_from_slice(&[1, 0, 1, 1, 0, turn % 2]);
            bytes
        })
    }

    #[test]
    fn bytes_go_both_ways() {
        for record in records() {
            assert_eq!(
                controller(&record).map(|record| bytes(&record)),
                Some(record)
            );
        }
    }

    #[test]
    fn fresh() {
        let mut record = [0; RECORD_LEN];
        record[..5].copy_from_slice(&[0x50, 0x43, 0, 0xF8, 0]);
        record[14..20].copy_from_slice(&[0x01, 0xE0, 0x9D, 0x86, 0xFF, 0x00]);
        assert_eq!(bytes(&Controller::fresh()), record);
        assert_eq!(controller(&record), Some(Controller::fresh()));
    }

    #[test]
    fn no_record() {
        for record in records() {
            let wrong = [(0, 0), (1, 0), (2, 12), (2, 16), (2, 25), (4, 7)];
            let flags = (5..11).map(|place| (place, 2));
            for (place, byte) in wrong.into_iter().chain(flags) {
                let mut other = record;
                other[place] = byte;
                assert_eq!(controller(&other), None, "{place} {byte}");
            }
            assert_eq!(controller(&record[..87]), None);
            assert!(controller(&[&record[..], &[0]].concat()).is_some());
        }
    }

    #[test]
    fn a_status_outside_host_is_not_looked_at() {
        let mut record = bytes(&Controller::fresh());
        record[3] = 0x08;
        let off = controller(&record).expect("a record");
        assert_eq!((off.turn(), off.status()), (Turn::Off, 0xF8));
        record[2..4].copy_from_slice(&[1, 0x90]);
        let mut unsound = controller(&record).expect("a record");
        assert_eq!(unsound.read(0), Err(Refusal::Unsound));
    }
}
