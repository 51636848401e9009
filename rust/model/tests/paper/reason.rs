//! Why a move ended (document 02, Ask 8): "It is set with each new status but
//! F8h, and by a reset, and otherwise kept."

use super::{
    AA, ENSIO, LOST, MODE, STA, STATUSES, STO, Step, WIRE_TURNS, after, at, at_edge, by_pointer,
    enabled, in_turn, numbers, refused, run, run_read, set, steps, take, then, write,
};
use model::{Controller, Edge, Kind, Reason, Turn};

/// The paper's lists.
const LISTS: [(Reason, &[u8]); 5] = [
    (
        Reason::CountReached,
        &[0x18, 0x28, 0x40, 0x50, 0x80, 0xB8, 0xC8, 0xE0],
    ),
    (Reason::Nack, &[0x20, 0x30, 0x48, 0x58, 0x88, 0xC0, 0xE8]),
    (Reason::Outside, &[0xA0]),
    (Reason::ArbitrationLost, &[0x38, 0x68, 0xB0, 0xD8]),
    (Reason::Fault, &[0x00, 0x70, 0x78]),
];

/// By the lists. "All others, and the program's fresh controller: none yet."
fn listed(status: u8) -> Reason {
    let found = LISTS.iter().find(|(_, list)| list.contains(&status));
    found.map_or(Reason::NoneYet, |&(reason, _)| reason)
}

#[test]
fn numbers_of_reasons() {
    for (number, reason) in (0..).zip(Reason::ALL) {
        assert_eq!(reason.number(), number);
    }
}

#[test]
fn every_status_by_the_lists() {
    for status in 0..=255 {
        assert_eq!(Reason::of_status(status), listed(status), "{status:02X}");
    }
    let others = STATUSES.into_iter();
    let others = others.filter(|&status| listed(status) == Reason::NoneYet);
    assert!(others.eq([0x08, 0x10, 0x60, 0xA8, 0xD0]));
}

// Where it is set.

#[test]
fn fresh_controller_has_none_yet() {
    assert_eq!(Controller::fresh().reason(), Reason::NoneYet);
    assert_eq!(enabled().reason(), Reason::NoneYet);
}

#[test]
fn every_status_sets_it() {
    for status in STATUSES {
        assert_eq!(at(status).reason(), listed(status), "{status:02X}");
    }
    for edge in [Edge::Stop, Edge::Start] {
        assert_eq!(at_edge(edge).reason(), Reason::Outside);
    }
}

/// "NACK, also on the last byte": what is told is the NACK, not the count.
#[test]
fn last_byte() {
    for (start, event, count, argument, reason) in [
        (0x18, 6, 2, 0, Reason::CountReached),
        (0x18, 6, 2, 1, Reason::Nack),
        (0xA8, 6, 2, 0, Reason::CountReached),
        (0xA8, 6, 2, 1, Reason::Nack),
        (0x40, 7, 2, 0x5A, Reason::CountReached),
        (0x40, 7, 0x82, 0x5A, Reason::Nack),
        (0x60, 7, 2, 0x5A, Reason::CountReached),
        (0x60, 7, 0x82, 0x5A, Reason::Nack),
        (0xD0, 7, 2, 0x5A, Reason::CountReached),
        (0xD0, 7, 0x82, 0x5A, Reason::Nack),
    ] {
        let mut c = at(start);
        set(&mut c, 0, count);
        write(&mut c, 3, ENSIO | AA | MODE);
        take(&mut c, event, 0);
        // "Before the end no status is set."
        assert_eq!(c.reason(), listed(start), "{start:02X}");
        take(&mut c, event, argument);
        assert_eq!((c.moved(), c.reason()), (2, reason), "{start:02X}");
    }
}

#[test]
fn every_way_to_none_yet() {
    // Own START, another's at a repeated one, an idle bus: 08h and 10h.
    let again = |event| then(at(0x30), ENSIO | STA, event, 0);
    let idle = |status| then(at(status), ENSIO | STA, 13, 0);
    for c in [again(1), again(2), idle(0x88), idle(0xC0)] {
        assert!(matches!(c.status(), 0x08 | 0x10));
        assert_eq!(c.reason(), Reason::NoneYet);
    }
    // Called as slave: 60h, A8h and D0h, with a reason before.
    for (byte, status) in [(0xE0, 0x60), (0xE1, 0xA8), (0x00, 0xD0)] {
        let mut c = at(0xC0);
        set(&mut c, 1, 0xE1);
        write(&mut c, 3, ENSIO | AA);
        take(&mut c, 2, 0);
        assert_eq!(c.reason(), Reason::Nack);
        take(&mut c, 5, byte);
        assert_eq!((c.status(), c.reason()), (status, Reason::NoneYet));
    }
}

#[test]
fn both_resets() {
    let mut turns = vec![Turn::Off, Turn::Free, Turn::Busy, Turn::Listen];
    turns.extend(WIRE_TURNS);
    let mut records: Vec<_> = turns.into_iter().map(|turn| in_turn(turn, 0)).collect();
    records.extend(STATUSES.map(at));
    for pin in records {
        let mut soft = pin.clone();
        set(&mut soft, 5, 0xA5);
        assert_eq!(soft.reason(), pin.reason());
        write(&mut soft, 2, 0x5A);
        let pin = after(pin, 14, 0);
        for mut c in [pin, soft] {
            assert_eq!(c.reason(), Reason::Reset);
            // Kept by the enabling write, until own START sets none yet.
            write(&mut c, 3, ENSIO | STA);
            assert_eq!(c.reason(), Reason::Reset);
            take(&mut c, 1, 0);
            assert_eq!(c.reason(), Reason::NoneYet);
        }
    }
}

#[test]
fn no_reset() {
    let mut c = at(0x28);
    refused(&mut c, 2, |c| c.event(14, 1));
    // 5Ah alone, A5h alone, and disarmed between the two.
    set(&mut c, 5, 0x5A);
    set(&mut c, 5, 0xA5);
    set(&mut c, 5, 0x5A);
    assert_eq!((c.status(), c.reason()), (0x28, Reason::CountReached));
}

// Where it is kept.

/// A record for each reason, five of them at a status.
fn with_reasons() -> [Controller; 7] {
    let reset = after(at(0x28), 14, 0);
    let statuses = [0x28, 0x30, 0xA0, 0x38, 0x78].map(at);
    let [count, nack, outside, lost, fault] = statuses;
    [enabled(), count, nack, outside, lost, fault, reset]
}

#[test]
fn kept_by_reads_and_writes() {
    for (number, c) in (0..).zip(with_reasons()) {
        for mut c in by_pointer(&c) {
            for register in 0..=3 {
                let _ = c.read(register);
                assert_eq!(c.reason().number(), number);
            }
            // 5Ah would reset an armed one.
            for value in (0..=255).filter(|&value| value != 0x5A) {
                for register in [1, 2, 0] {
                    let _ = c.write(register, value);
                    assert_eq!(c.reason().number(), number);
                }
            }
        }
    }
}

/// Every I2CCON write, with ENSIO 0 and ENSIO 1, accepted or refused.
#[test]
fn kept_by_control_writes() {
    let turns = [Turn::Off, Turn::Free, Turn::Busy, Turn::Listen];
    let turns = turns.into_iter().chain(WIRE_TURNS);
    let others = turns.map(|turn| in_turn(turn, 0));
    let statuses = STATUSES.map(at).into_iter();
    for before in statuses.chain(others).chain(with_reasons()) {
        for value in 0..=255 {
            let mut c = before.clone();
            let _ = c.write(3, value);
            assert_eq!(c.reason(), before.reason(), "{value:02X} {before:?}");
        }
    }
}

#[test]
fn kept_by_own_stop() {
    for status in [0x18, 0x20, 0x28, 0x30, 0x48, 0x58] {
        let c = then(at(status), ENSIO | STO, 4, 0);
        assert_eq!((c.turn(), c.reason()), (Turn::Free, listed(status)));
    }
}

#[test]
fn kept_by_another_master() {
    // "88h, E8h, C0h, C8h: Busy."
    for status in [0x88, 0xE8, 0xC0, 0xC8] {
        let mut c = at(status);
        write(&mut c, 3, ENSIO | AA);
        for (event, argument, turn) in [
            (10, 0, Turn::Busy),
            (3, 0, Turn::Free),
            (10, 0, Turn::Free),
            (2, 0, Turn::Listen),
            (10, 0, Turn::Listen),
            // An address byte without a match, and a repeated START.
            (5, 0x22, Turn::Busy),
            (2, 0, Turn::Listen),
        ] {
            take(&mut c, event, argument);
            assert_eq!((c.turn(), c.reason()), (turn, listed(status)));
        }
    }
    // "A0h: Free after a STOP, Listen after a START."
    for (edge, turn) in [(Edge::Stop, Turn::Free), (Edge::Start, Turn::Listen)] {
        let mut c = at_edge(edge);
        write(&mut c, 3, ENSIO);
        assert_eq!((c.turn(), c.reason()), (turn, Reason::Outside));
    }
}

/// Only events 12 and 14 set it at 38h.
#[test]
fn kept_at_38h() {
    let mut c = at(0x38);
    for value in [ENSIO, ENSIO | AA | STA | STO | MODE] {
        write(&mut c, 3, value);
        assert_eq!((c.turn(), c.reason()), (LOST, Reason::ArbitrationLost));
        let free = after(c.clone(), 3, 0);
        assert_eq!(free.status(), 0xF8);
        assert_eq!(free.reason(), Reason::ArbitrationLost);
        let timeout = after(c.clone(), 12, 0);
        assert_eq!((timeout.status(), timeout.reason()), (0x78, Reason::Fault));
        assert_eq!(after(c.clone(), 14, 0).reason(), Reason::Reset);
        // "A write with ENSIO 0 still leads to Off."
        let mut off = c.clone();
        write(&mut off, 3, 0);
        assert_eq!(off.turn(), Turn::Off);
        assert_eq!(off.reason(), Reason::ArbitrationLost);
    }
}

#[test]
fn kept_when_refused() {
    for mut c in with_reasons() {
        let reason = c.reason();
        refused(&mut c, 1, |c| c.read(4));
        refused(&mut c, 1, |c| c.event(15, 0));
        refused(&mut c, 2, |c| c.event(14, 1));
        refused(&mut c, 8, |c| c.event(4, 0));
        assert_eq!(c.reason(), reason);
    }
}

// The rule as a whole.

/// The reason after a step, by the rule.
fn check_step(before: &Controller, step: Step) {
    let mut c = before.clone();
    let accepted = step.take(&mut c).is_ok();
    let reset = match step {
        Step::Event(14, 0) => true,
        // It is armed with the pointer at 05h alone.
        Step::Write(2, 0x5A) => before.armed(),
        _ => false,
    };
    let new = accepted && c.status() != before.status() && c.status() != 0xF8;
    let expected = match (reset, new) {
        (true, _) => Reason::Reset,
        (false, true) => listed(c.status()),
        (false, false) => before.reason(),
    };
    assert_eq!(c.reason(), expected, "{step:?} {before:?}");
}

/// Every access and event in every turn, with every pointer, and armed.
#[test]
fn every_step_in_every_turn() {
    let steps = steps();
    let turns = [Turn::Off, Turn::Free, Turn::Busy, Turn::Listen];
    let turns = turns.into_iter().chain(WIRE_TURNS);
    let records = turns.flat_map(|turn| [0, STA].map(|sta| in_turn(turn, sta)));
    let records = records
        .chain(STATUSES.map(at))
        .chain([at_edge(Edge::Start)]);
    for record in records.flat_map(|record| by_pointer(&record)) {
        for &step in &steps {
            check_step(&record, step);
        }
    }
}

// Jobs.

/// A write of two or a read of two, by its answer and what it leaves.
fn leaves(kind: Kind, script: &[u8], answer: u8, reason: Reason) {
    let mut c = enabled();
    let ran = run(&mut c, kind, 2, &[7, 8], script);
    assert_eq!(ran.numbers().0, answer, "{kind:?} {script:?}");
    assert_eq!(c.reason(), reason, "{kind:?} {script:?}");
}

#[test]
fn what_a_write_leaves() {
    let leaves = |script: &[u8], answer, reason| leaves(Kind::Write, script, answer, reason);
    leaves(&[1, 0, 6, 0, 6, 0, 6, 0, 4, 0], 0, Reason::CountReached);
    leaves(&[1, 0, 6, 1, 4, 0], 23, Reason::Nack);
    leaves(&[1, 0, 6, 0, 6, 1, 4, 0], 24, Reason::Nack);
    leaves(&[1, 0, 6, 0, 6, 0, 6, 1, 4, 0], 24, Reason::Nack);
    leaves(&[1, 0, 8, 0x9F], 25, Reason::ArbitrationLost);
    leaves(&[1, 0, 6, 0, 6, 0, 9, 0], 25, Reason::ArbitrationLost);
}

/// A read that is done ends with the NACK of its last byte, 58h.
#[test]
fn what_a_read_leaves() {
    let leaves = |script: &[u8], answer, reason| leaves(Kind::Read, script, answer, reason);
    leaves(&[1, 0, 6, 0, 7, 1, 7, 2, 4, 0], 0, Reason::Nack);
    leaves(&[1, 0, 6, 1, 4, 0], 23, Reason::Nack);
    leaves(&[1, 0, 8, 0x9F], 25, Reason::ArbitrationLost);
    leaves(&[1, 0, 6, 0, 7, 1, 9, 0], 25, Reason::ArbitrationLost);
}

#[test]
fn what_faults_and_resets_in_a_job_leave() {
    for kind in [Kind::Write, Kind::Read] {
        for (script, answer, reason) in [
            (&[11, 0][..], 26, Reason::Fault),
            (&[12, 0], 26, Reason::Fault),
            (&[1, 0, 10, 0], 26, Reason::Fault),
            (&[1, 0, 6, 1, 10, 0], 26, Reason::Fault),
            (&[14, 0], 29, Reason::Reset),
            (&[1, 0, 6, 0, 14, 0], 29, Reason::Reset),
        ] {
            leaves(kind, script, answer, reason);
        }
    }
}

/// 27 and 28 leave the record as reached: after each pair of a read.
#[test]
fn what_an_unfinished_job_leaves() {
    let script = [1, 0, 6, 0, 7, 1, 7, 2];
    for (taken, reason) in [
        Reason::NoneYet,
        Reason::NoneYet,
        Reason::CountReached,
        Reason::CountReached,
        Reason::Nack,
    ]
    .into_iter()
    .enumerate()
    {
        let script = &script[..2 * taken];
        leaves(Kind::Read, script, 27, reason);
        let refused = [script, &[0, 0]].concat();
        leaves(Kind::Read, &refused, 28, reason);
    }
}

/// Nor does the work before the first pair set it.
#[test]
fn a_job_without_a_status_keeps_it() {
    let outside = || {
        let mut c = at(0xA0);
        write(&mut c, 3, ENSIO);
        c
    };
    for (n, script, answer) in [(0, &[][..], 21), (1, &[], 27), (1, &[4, 0], 28)] {
        let mut c = outside();
        assert_eq!(run_read(&mut c, n, script).numbers().0, answer);
        assert_eq!(c.reason(), Reason::Outside);
    }
    let mut c = at(0xA0);
    assert_eq!(run_read(&mut c, 1, &[14, 0]).numbers().0, 22);
    assert_eq!(c.reason(), Reason::Outside);
    // Traffic before own START sets none either.
    let mut c = outside();
    let traffic = [10, 0, 2, 0, 5, 0x22, 10, 0, 3, 0];
    assert_eq!(run_read(&mut c, 1, &traffic).numbers().0, 27);
    assert_eq!(c.reason(), Reason::Outside);
}

// Demand 3: "after each one on the list it is the same in both records".

/// A job of two whose script is at times cut or disturbed.
fn job_on_the_list(c: &mut Controller, [value, place, style]: [u8; 3]) -> (u8, u8) {
    let (kind, data) = [(Kind::Write, 6), (Kind::Read, 7)][usize::from(value % 2)];
    let mut script = vec![1, 0, 6, 0, data, 0, data, style >> 7, 4, 0];
    let place = usize::from(place % 5) * 2;
    match style % 4 {
        0 => script.truncate(place),
        1 => script[place] = 1 + (value >> 1) % 14,
        2 => script[3] = 1,
        _ => {}
    }
    let (answer, beside, ..) = run(c, kind, 2, &[7, 8], &script).numbers();
    (answer, beside)
}

/// A job, reset, enabling write or other master's event, and its answer.
fn one_on_the_list(c: &mut Controller, [kind, value, rest @ ..]: [u8; 4]) -> (u8, u8) {
    let result = match kind % 16 {
        0 => c.event(14, 0),
        1 => c.write(0, 5).and(c.write(2, 0xA5)).and(c.write(2, 0x5A)),
        2..7 => c.write(3, value | ENSIO),
        7..9 => c.event(2, 0),
        9 => c.event(3, 0),
        10..12 => c.event(5, [0xE0, 0xE1, 0x00, value][usize::from(value % 4)]),
        _ => return job_on_the_list(c, [value, rest[0], rest[1]]),
    };
    result.map_or_else(|refusal| (0, refusal.number()), |value| (value, 0))
}

#[test]
fn the_same_whatever_the_places_held() {
    let mut random = numbers();
    let mut both = [0x00, 0xFF].map(|old| {
        let mut c = Controller::fresh();
        (0..68).for_each(|_| write(&mut c, 1, old));
        c
    });
    let mut seen = [0; 7];
    for _ in 0..300_000 {
        let drawn = random().to_le_bytes();
        let [one, other] = both.each_mut().map(|c| one_on_the_list(c, drawn));
        assert_eq!(one, other);
        let [one, other] = both.each_ref().map(Controller::reason);
        assert_eq!(one, other);
        seen[usize::from(one.number())] += 1;
    }
    assert!(seen.iter().all(|&count| count > 0), "{seen:?}");
    // Places that no job reached still tell the two apart.
    assert_ne!(both[0].buffer(), both[1].buffer());
}
