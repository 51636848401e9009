//! Soundness, refusal 10, a kept STO and any reason in any turn, which need
//! records that no access leads to, and the whole record after the match of
//! events 5 and 8 and after all that can come at 38h.

use super::{Controller, bit};
use crate::address::Direction;
use crate::call::Call;
use crate::reason::Reason;
use crate::refusal::Refusal;
use crate::turn::{Called, Edge, Turn};

fn host(status: u8) -> Turn {
    Turn::Host {
        status,
        edge: Edge::Stop,
    }
}

/// One record for each way of not being sound.
fn unsound_records() -> Vec<Controller> {
    let changes: [fn(&mut Controller); 12] = [
        |c| c.pointer = 8,
        |c| c.hand = 69,
        |c| c.moved = 69,
        |c| c.bus_mode = 4,
        |c| c.turn = host(0xF8),
        |c| c.turn = host(0x90),
        |c| c.turn = host(0x01),
        |c| (c.turn, c.con, c.moved) = (Turn::Send, 0x40, 1),
        |c| (c.turn, c.con, c.moved, c.count) = (Turn::Receive, 0x41, 2, 0x82),
        |c| (c.turn, c.con, c.count) = (Turn::SlaveSend, 0x41, 69),
        |c| (c.turn, c.con, c.count) = (Turn::SlaveReceive(Called::Own), 0x41, 0x80),
        |c| (c.turn, c.con, c.moved, c.count) = (Turn::SlaveReceive(Called::General), 0x41, 1, 1),
    ];
    changes
        .iter()
        .map(|change| {
            let mut controller = Controller::fresh();
            change(&mut controller);
            controller
        })
        .collect()
}

#[test]
fn unsound_records_are_refused_10() {
    for record in unsound_records() {
        assert!(!record.is_sound(), "{record:?}");
        let mut c = record.clone();
        for register in 0..=3 {
            assert_eq!(c.read(register), Err(Refusal::Unsound));
            for value in 0..=255 {
                assert_eq!(c.write(register, value), Err(Refusal::Unsound));
            }
        }
        for event in 1..=13 {
            assert_eq!(c.event(event, 0), Err(Refusal::Unsound));
        }
        // 1 and 2 come before 10.
        assert_eq!(c.read(4), Err(Refusal::Unknown));
        assert_eq!(c.write(4, 0), Err(Refusal::Unknown));
        assert_eq!(c.event(15, 0), Err(Refusal::Unknown));
        assert_eq!(c.event(1, 1), Err(Refusal::Argument));
        assert_eq!(c.event(6, 2), Err(Refusal::Argument));
        assert_eq!(c.event(14, 1), Err(Refusal::Argument));
        assert_eq!(c, record);
        // Event 14 is taken.
        assert_eq!(c.event(14, 0), Ok(0));
        let mut reset = Controller::fresh();
        reset.reason = Reason::Reset;
        assert_eq!(c, reset);
    }
}

#[test]
fn unsound_comes_before_9_and_7() {
    let mut c = Controller::fresh();
    c.hand = 69;
    c.pointer = 7;
    assert_eq!(c.write(2, 0), Err(Refusal::Unsound));
    assert_eq!(c.read(1), Err(Refusal::Unsound));
}

#[test]
fn statuses_of_a_sound_record() {
    for status in 0..=255 {
        let mut c = Controller::fresh();
        c.turn = host(status);
        let given = status % 8 == 0 && !matches!(status, 0x90 | 0x98 | 0xF0 | 0xF8);
        assert_eq!(c.is_sound(), given, "{status:02X}");
    }
}

#[test]
fn sound_moves() {
    let mut c = Controller::fresh();
    c.turn = Turn::Send;
    assert!(c.is_sound());
    // In Byte mode BC doesn't matter.
    c.count = 0x7F;
    assert!(c.is_sound());
    c.con = 0x41;
    c.count = 68;
    c.moved = 67;
    assert!(c.is_sound());
    // Outside the turns that move data, moved can be 68.
    c.turn = host(0x28);
    c.moved = 68;
    assert!(c.is_sound());
}

/// Every I2CADR, each with AA 0 and AA 1.
fn own_and_aa() -> impl Iterator<Item = (u8, u8)> {
    (0..=255).flat_map(|own| [0, bit::AA].map(|aa| (own, aa)))
}

/// An enabled record in this turn, the hand place not at 0 and with a reason.
fn matching(turn: Turn, own: u8, aa: u8) -> Controller {
    let mut c = Controller::fresh();
    c.turn = turn;
    c.con = bit::ENSIO | aa;
    c.own = own;
    c.hand = 5;
    c.reason = Reason::Nack;
    c
}

#[test]
fn match_looks_at_aa_and_i2cadr_alone() {
    let mut records = unsound_records();
    records.extend([Turn::Off, Turn::Free, Turn::Address].map(|turn| {
        let mut record = Controller::fresh();
        record.turn = turn;
        record.con = bit::ENSIO | bit::STA | bit::STO | bit::MODE;
        record
    }));
    for mut c in records {
        for (own, aa) in own_and_aa() {
            c.own = own;
            c.con = c.con & !bit::AA | aa;
            let listening = matching(Turn::Listen, own, aa);
            for byte in 0..=255 {
                assert_eq!(c.called_by(byte), listening.called_by(byte));
            }
        }
    }
}

#[test]
fn event_5_by_the_match() {
    for (own, aa) in own_and_aa() {
        let before = matching(Turn::Listen, own, aa);
        for byte in 0..=255 {
            let matched = before.called_by(byte);
            let (turn, value) = match matched.call {
                Call::General => (host(0xD0), 0),
                Call::Own(Direction::Write) => (host(0x60), 0),
                Call::Own(Direction::Read) => (host(0xA8), 0),
                Call::None => (Turn::Busy, 1),
            };
            let mut after = before.clone();
            after.turn = turn;
            if turn != Turn::Busy {
                // SI becomes 1 for the three codes, so the hand place goes to
                // 0, and no move ended.
                (after.hand, after.reason) = (0, Reason::NoneYet);
            }
            let mut c = before.clone();
            assert_eq!(c.event(5, byte), Ok(value));
            assert_eq!(c, after);
            assert_eq!(c.called_by(byte), matched);
        }
    }
}

/// Event 8 with our byte in place 0, against the match.
fn check_event_8(before: &Controller, winner: u8) {
    let mut c = before.clone();
    if winner >= before.buffer[0] {
        assert_eq!(c.event(8, winner), Err(Refusal::NotExpected));
        assert_eq!(c, *before);
        return;
    }
    let matched = before.called_by(winner);
    let (status, value) = match matched.call {
        Call::General => (0xD8, 0),
        Call::Own(Direction::Write) => (0x68, 0),
        Call::Own(Direction::Read) => (0xB0, 0),
        Call::None => (0x38, 1),
    };
    let mut after = before.clone();
    after.turn = host(status);
    (after.hand, after.reason) = (0, Reason::ArbitrationLost);
    assert_eq!(c.event(8, winner), Ok(value));
    assert_eq!(c, after);
    assert_eq!(c.called_by(winner), matched);
}

#[test]
fn event_8_by_the_match() {
    for (own, aa) in own_and_aa() {
        let mut c = matching(Turn::Address, own, aa);
        for winner in 0..=255u8 {
            // The outermost bytes that don't lose to it, and that do.
            for ours in [0x00, winner, winner.saturating_add(1), 0xFF] {
                c.buffer[0] = ours;
                check_event_8(&c, winner);
            }
        }
    }
}

#[test]
fn event_8_by_the_match_for_each_byte_of_ours() {
    for own in [0xE0, 0xE1] {
        let mut c = matching(Turn::Address, own, bit::AA);
        for ours in 0..=255 {
            c.buffer[0] = ours;
            for winner in 0..=255 {
                check_event_8(&c, winner);
            }
        }
    }
}

/// Every I2CCON that a record can hold, SI left out.
fn controls() -> impl Iterator<Item = u8> {
    (0..=255).filter(|con| con & (bit::SI | 0x06) == 0)
}

/// At 38h, armed, with BC 0, the hand place and the moved count not at 0.
fn lost(con: u8, timeout: u8) -> Controller {
    let mut c = Controller::fresh();
    c.turn = host(0x38);
    (c.con, c.timeout, c.count) = (con, timeout, 0x80);
    (c.hand, c.moved, c.armed) = (5, 3, true);
    c
}

#[test]
fn control_writes_at_38h() {
    for con in controls() {
        let before = lost(con, 0xFF);
        for value in 0..=255 {
            let (turn, stored) = if value & bit::ENSIO == 0 {
                (Turn::Off, value & (bit::AA | bit::MODE))
            } else {
                (before.turn, value & !(bit::STO | bit::SI | 0x06))
            };
            let mut after = before.clone();
            (after.turn, after.con) = (turn, con & bit::STO | stored);
            (after.hand, after.moved, after.armed) = (0, 0, false);
            let mut c = before.clone();
            assert_eq!(c.write(3, value), Ok(0));
            assert_eq!(c, after);
        }
    }
}

/// An event at 38h, against the whole record after it.
fn check_event_at_38h(before: &Controller, event: u8, argument: u8) {
    let mut after = before.clone();
    let expected = match (event, argument) {
        (3, 0) => {
            after.turn = Turn::Free;
            Ok(0)
        }
        (12, 0) if before.has_timeout() => {
            (after.turn, after.reason) = (host(0x78), Reason::Fault);
            Ok(0)
        }
        (14, 0) => {
            after.reset();
            Ok(0)
        }
        (5 | 7 | 8, _) | (6, 1) | (_, 0) => Err(Refusal::NotExpected),
        _ => Err(Refusal::Argument),
    };
    let mut c = before.clone();
    assert_eq!(c.event(event, argument), expected);
    assert_eq!(c, after);
}

#[test]
fn events_at_38h() {
    let both = |con| [0x7F, 0x80].map(|timeout| lost(con, timeout));
    for before in controls().flat_map(both) {
        for event in 1..=14 {
            (0..=255).for_each(|argument| check_event_at_38h(&before, event, argument));
        }
    }
}

/// "STO is stored only where it leads to Stopping": elsewhere it stays.
#[test]
fn sto_stays_where_it_is_not_stored() {
    let turns = [Turn::Off, Turn::Free, Turn::Busy, Turn::Listen];
    for turn in turns.into_iter().chain((0..=255).map(host)) {
        for (old, value) in controls().flat_map(|old| (0..=255).map(move |value| (old, value))) {
            let mut c = Controller::fresh();
            (c.turn, c.con) = (turn, old);
            if c.write(3, value).is_ok() && c.turn != Turn::Stopping {
                assert_eq!(c.con & bit::STO, old & bit::STO);
            }
        }
    }
}

/// Every turn, and Host with every byte as its status.
fn turns() -> impl Iterator<Item = Turn> {
    let start = Turn::Host {
        status: 0xA0,
        edge: Edge::Start,
    };
    let turns = [
        start,
        Turn::Off,
        Turn::Free,
        Turn::Busy,
        Turn::Listen,
        Turn::Address,
        Turn::Send,
        Turn::Receive,
        Turn::SlaveReceive(Called::Own),
        Turn::SlaveReceive(Called::General),
        Turn::SlaveSend,
        Turn::Stopping,
        Turn::Restarting,
    ];
    turns.into_iter().chain((0..=255).map(host))
}

/// Sound records in every turn: AA 0 and AA 1, where a byte ends the move, and
/// Buffered mode, where it goes on and where the software reset is armed.
fn sound_records() -> impl Iterator<Item = Controller> {
    let record = |turn, con| {
        let mut c = matching(turn, 0xE1, 0);
        (c.con, c.count, c.buffer[0]) = (con, 2, 0xF0);
        if con & bit::MODE != 0 {
            (c.pointer, c.armed) = (5, true);
        }
        c
    };
    let by_control = move |turn| [0x60, 0xC0, 0xE1].map(|con| record(turn, con));
    turns().flat_map(by_control).filter(Controller::is_sound)
}

/// The reason after a call: "set with each new status but F8h, and by a
/// reset, and otherwise kept".
fn check_reason(
    before: &Controller,
    reset: bool,
    call: impl FnOnce(&mut Controller) -> Result<u8, Refusal>,
) {
    let mut c = before.clone();
    let result = call(&mut c);
    let status = c.status();
    let expected = if reset {
        Reason::Reset
    } else if status != 0xF8 && status != before.status() {
        Reason::of_status(status)
    } else {
        before.reason
    };
    assert_eq!(c.reason, expected, "{result:?} after {before:?}");
}

fn check_reason_after_every_call(before: &Controller) {
    for register in 0..=4 {
        check_reason(before, false, |c| c.read(register));
        for value in 0..=255 {
            let reset = before.armed && (register, value) == (2, 0x5A);
            check_reason(before, reset, |c| c.write(register, value));
        }
    }
    for event in 0..=15 {
        for argument in 0..=255 {
            let reset = (event, argument) == (14, 0);
            check_reason(before, reset, |c| c.event(event, argument));
        }
    }
}

#[test]
fn reason_after_every_call() {
    for mut c in sound_records() {
        for reason in Reason::ALL {
            c.reason = reason;
            check_reason_after_every_call(&c);
        }
    }
}

#[test]
fn a_record_goes_both_ways() {
    for controller in unsound_records().into_iter().chain([Controller::fresh()]) {
        assert_eq!(Controller::from(controller.record()), controller);
    }
    let mut record = Controller::fresh().record();
    record.control = 0xFF;
    let con = Controller::from(record).con;
    assert_eq!(con, bit::AA | bit::ENSIO | bit::STA | bit::STO | bit::MODE);
}
