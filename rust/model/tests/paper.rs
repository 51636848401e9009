//! The cases a to m, the printed example, and checks of each refusal, each
//! I2CCON rule and each event. Why a move ended has a module of its own.

#[path = "paper/reason.rs"]
mod reason;

use model::{
    Answer, Call, Called, Controller, Direction, Edge, Job, Kind, Matched, Refusal, Report, Turn,
    run_job,
};

const AA: u8 = 0x80;
const ENSIO: u8 = 0x40;
const STA: u8 = 0x20;
const STO: u8 = 0x10;
const SI: u8 = 0x08;
const MODE: u8 = 0x01;

const STATUSES: [u8; 28] = [
    0x00, 0x08, 0x10, 0x18, 0x20, 0x28, 0x30, 0x38, 0x40, 0x48, 0x50, 0x58, 0x60, 0x68, 0x70, 0x78,
    0x80, 0x88, 0xA0, 0xA8, 0xB0, 0xB8, 0xC0, 0xC8, 0xD0, 0xD8, 0xE0, 0xE8,
];

/// Arbitration lost.
const LOST: Turn = Turn::Host {
    status: 0x38,
    edge: Edge::Stop,
};

const WIRE_TURNS: [Turn; 8] = [
    Turn::Address,
    Turn::Send,
    Turn::Receive,
    Turn::SlaveReceive(Called::Own),
    Turn::SlaveReceive(Called::General),
    Turn::SlaveSend,
    Turn::Stopping,
    Turn::Restarting,
];

// Helpers that lead a fresh controller where a check begins.

fn write(c: &mut Controller, register: u8, value: u8) {
    assert_eq!(c.write(register, value), Ok(0), "{register} {value:02X}");
}

fn set(c: &mut Controller, pointer: u8, value: u8) {
    write(c, 0, pointer);
    write(c, 2, value);
}

fn get(c: &mut Controller, pointer: u8) -> u8 {
    write(c, 0, pointer);
    c.read(2).unwrap()
}

fn take(c: &mut Controller, event: u8, argument: u8) -> u8 {
    c.event(event, argument)
        .unwrap_or_else(|refusal| panic!("event {event} refused: {refusal:?} in {c:?}"))
}

fn enabled() -> Controller {
    let mut c = Controller::fresh();
    write(&mut c, 3, ENSIO);
    c
}

/// At status 08h.
fn started() -> Controller {
    let mut c = enabled();
    write(&mut c, 3, ENSIO | STA);
    assert_eq!(take(&mut c, 1, 0), 0);
    assert_eq!(c.status(), 0x08);
    c
}

/// In Address with this byte in place 0.
fn addressing(byte: u8, control: u8) -> Controller {
    let mut c = started();
    write(&mut c, 1, byte);
    write(&mut c, 3, control);
    assert_eq!(c.turn(), Turn::Address);
    c
}

/// The own address is 70h after reset; GC set on demand.
fn listening(general: bool) -> Controller {
    let mut c = enabled();
    if general {
        set(&mut c, 1, 0xE1);
        write(&mut c, 0, 0);
    }
    write(&mut c, 3, ENSIO | AA);
    assert_eq!(take(&mut c, 2, 0), 0);
    assert_eq!(c.turn(), Turn::Listen);
    c
}

/// In Listen with this I2CADR and AA.
fn listening_as(own: u8, aa: u8) -> Controller {
    let mut c = enabled();
    set(&mut c, 1, own);
    write(&mut c, 3, ENSIO | aa);
    take(&mut c, 2, 0);
    c
}

fn then(mut c: Controller, control: u8, event: u8, argument: u8) -> Controller {
    write(&mut c, 3, control);
    take(&mut c, event, argument);
    c
}

fn after(mut c: Controller, event: u8, argument: u8) -> Controller {
    take(&mut c, event, argument);
    c
}

/// A controller at the status, all in Byte mode, pointer 0.
fn at(status: u8) -> Controller {
    let general = || {
        let mut c = started();
        set(&mut c, 1, 0xE1);
        write(&mut c, 0, 0);
        write(&mut c, 1, 0xE2);
        write(&mut c, 3, ENSIO | AA);
        c
    };
    let c = match status {
        0x00 => then(at(0x18), ENSIO, 10, 0),
        0x08 => started(),
        0x10 => then(at(0x18), ENSIO | STA, 1, 0),
        0x18 => after(addressing(0xA0, ENSIO), 6, 0),
        0x20 => after(addressing(0xA0, ENSIO), 6, 1),
        0x28 => then(at(0x18), ENSIO, 6, 0),
        0x30 => then(at(0x18), ENSIO, 6, 1),
        0x38 => then(at(0x18), ENSIO, 9, 0),
        0x40 => after(addressing(0xA1, ENSIO), 6, 0),
        0x48 => after(addressing(0xA1, ENSIO), 6, 1),
        0x50 => then(at(0x40), ENSIO | AA, 7, 0x5A),
        0x58 => then(at(0x40), ENSIO, 7, 0x5A),
        0x60 => after(listening(false), 5, 0xE0),
        0x68 => after(addressing(0xE2, ENSIO | AA), 8, 0xE0),
        0x70 => then(enabled(), ENSIO | STA, 11, 0),
        0x78 => after(enabled(), 12, 0),
        0x80 => then(at(0x60), ENSIO | AA, 7, 0x5A),
        0x88 => then(at(0x60), ENSIO, 7, 0x5A),
        0xA0 => at_edge(Edge::Stop),
        0xA8 => after(listening(false), 5, 0xE1),
        0xB0 => after(addressing(0xE2, ENSIO | AA), 8, 0xE1),
        0xB8 => then(at(0xA8), ENSIO | AA, 6, 0),
        0xC0 => then(at(0xA8), ENSIO | AA, 6, 1),
        0xC8 => then(at(0xA8), ENSIO, 6, 0),
        0xD0 => after(listening(true), 5, 0x00),
        0xD8 => after(general(), 8, 0x00),
        0xE0 => then(at(0xD0), ENSIO | AA, 7, 0x5A),
        0xE8 => then(at(0xD0), ENSIO, 7, 0x5A),
        _ => panic!("no status {status:02X}"),
    };
    assert_eq!(c.status(), status);
    assert_eq!(c.pointer(), 0);
    c
}

/// At A0h after this edge.
fn at_edge(edge: Edge) -> Controller {
    let event = match edge {
        Edge::Stop => 3,
        Edge::Start => 2,
    };
    let c = then(at(0x60), ENSIO | AA, event, 0);
    assert_eq!(c.turn(), Turn::Host { status: 0xA0, edge });
    c
}

/// A controller in a turn with SI 0; STA as asked where the turn allows it.
fn in_turn(turn: Turn, sta: u8) -> Controller {
    let c = match turn {
        Turn::Off => Controller::fresh(),
        Turn::Free => then(enabled(), ENSIO | sta, 10, 0),
        Turn::Busy => {
            let mut c = at(0x88);
            write(&mut c, 3, ENSIO | sta);
            c
        }
        Turn::Listen => after(in_turn(Turn::Free, sta), 2, 0),
        Turn::Address => addressing(0xA0, ENSIO | sta),
        Turn::Send => {
            let mut c = at(0x18);
            write(&mut c, 3, ENSIO);
            c
        }
        Turn::Receive => {
            let mut c = at(0x40);
            write(&mut c, 3, ENSIO);
            c
        }
        Turn::SlaveReceive(called) => {
            let mut c = at(match called {
                Called::Own => 0x60,
                Called::General => 0xD0,
            });
            write(&mut c, 3, ENSIO | sta);
            c
        }
        Turn::SlaveSend => {
            let mut c = at(0xA8);
            write(&mut c, 3, ENSIO | sta);
            c
        }
        Turn::Stopping => {
            let mut c = at(0x18);
            write(&mut c, 3, ENSIO | STO | sta);
            c
        }
        Turn::Restarting => {
            let mut c = at(0x18);
            write(&mut c, 3, ENSIO | STA);
            c
        }
        Turn::Host { status, .. } => at(status),
    };
    assert_eq!(c.turn(), turn);
    assert!(c.is_sound());
    c
}

/// Checks that a call is refused with this number and changes nothing.
#[track_caller]
fn refused(
    c: &mut Controller,
    number: u8,
    call: impl FnOnce(&mut Controller) -> Result<u8, Refusal>,
) {
    let before = c.clone();
    let refusal = call(c).expect_err("must be refused");
    assert_eq!(refusal.number(), number, "{before:?}");
    assert_eq!(*c, before);
}

// Jobs.

struct Ran {
    report: Report,
    out: [u8; 69],
    destination: [u8; 68],
}

impl Ran {
    fn numbers(&self) -> (u8, u8, u8, usize) {
        let Report {
            answer,
            count,
            events,
            ..
        } = self.report;
        (answer.number(), answer.beside(), count, events)
    }

    /// The bytes sent as expected, the rest of the out record as lent.
    #[track_caller]
    fn sent(&self, bytes: &[u8]) {
        assert_eq!(self.report.sent, bytes.len());
        begins(&self.out, bytes);
    }
}

const UNTOUCHED: u8 = 0xEE;

fn run(c: &mut Controller, kind: Kind, n: u8, data: &[u8], script: &[u8]) -> Ran {
    let mut out = [UNTOUCHED; 69];
    let mut destination = [UNTOUCHED; 68];
    let job = Job {
        kind,
        address: 0x50,
        n,
        data,
    };
    let report = run_job(c, &job, &mut destination, &mut out, script);
    Ran {
        report,
        out,
        destination,
    }
}

fn run_read(c: &mut Controller, n: u8, script: &[u8]) -> Ran {
    run(c, Kind::Read, n, &[], script)
}

/// The head of a lent record as expected, the rest as lent.
#[track_caller]
fn begins(record: &[u8], head: &[u8]) {
    assert_eq!(&record[..head.len()], head);
    assert!(record[head.len()..].iter().all(|&b| b == UNTOUCHED));
}

#[test]
fn printed_example() {
    let mut c = enabled();
    let script = [1, 0, 6, 0, 6, 0, 6, 0, 4, 0];
    let ran = run(&mut c, Kind::Write, 2, &[0x11, 0x22], &script);
    assert_eq!(ran.numbers(), (0, 0, 2, 5));
    ran.sent(&[0xA0, 0x11, 0x22]);
    begins(&ran.destination, &[]);
    assert_eq!(c.turn(), Turn::Free);
    assert_eq!(c.control(), ENSIO);
    assert_eq!(c.pointer(), 0);
}

#[test]
fn case_a_read_of_one() {
    let mut c = enabled();
    let ran = run_read(&mut c, 1, &[1, 0, 6, 0, 7, 0x5C, 4, 0]);
    assert_eq!(ran.numbers(), (0, 0, 1, 4));
    ran.sent(&[0xA1]);
    begins(&ran.destination, &[0x5C]);
}

#[test]
fn case_b_address_nacked() {
    let mut c = enabled();
    let ran = run_read(&mut c, 1, &[1, 0, 6, 1, 4, 0]);
    assert_eq!(ran.numbers(), (23, 0, 0, 3));
    ran.sent(&[0xA1]);
    begins(&ran.destination, &[]);

    let ran = run(&mut c, Kind::Write, 1, &[9], &[1, 0, 6, 1, 4, 0]);
    assert_eq!(ran.numbers(), (23, 0, 0, 3));
    ran.sent(&[0xA0]);
}

#[test]
fn case_c_data_nacked() {
    let mut c = enabled();
    let script = [1, 0, 6, 0, 6, 1, 4, 0];
    let ran = run(&mut c, Kind::Write, 2, &[0x11, 0x22], &script);
    assert_eq!(ran.numbers(), (24, 0, 1, 4));
    ran.sent(&[0xA0, 0x11]);
    assert_eq!(c.pointer(), 0);
    assert_eq!(c.turn(), Turn::Free);

    // NACK of the last byte is 24 as well, with count n.
    let script = [1, 0, 6, 0, 6, 0, 6, 1, 4, 0];
    let ran = run(&mut c, Kind::Write, 2, &[0x11, 0x22], &script);
    assert_eq!(ran.numbers(), (24, 0, 2, 5));
    ran.sent(&[0xA0, 0x11, 0x22]);

    // Only after own STOP.
    let script = [1, 0, 6, 0, 6, 1];
    let ran = run(&mut c, Kind::Write, 2, &[0x11, 0x22], &script);
    assert_eq!(ran.numbers(), (27, 0, 0, 3));
    assert_eq!(c.turn(), Turn::Stopping);
    assert_eq!(c.pointer(), 0);
}

#[test]
fn case_d_n_68() {
    let data: Vec<u8> = (100..168).collect();
    let mut script = vec![1, 0];
    script.extend([6, 0].repeat(69));
    script.extend([4, 0]);
    let mut c = enabled();
    let ran = run(&mut c, Kind::Write, 68, &data, &script);
    assert_eq!(ran.numbers(), (0, 0, 68, 71));
    ran.sent(&[&[0xA0], &data[..]].concat());

    let mut script = vec![1, 0, 6, 0];
    script.extend(data.iter().flat_map(|&b| [7, b]));
    script.extend([4, 0]);
    let ran = run_read(&mut c, 68, &script);
    assert_eq!(ran.numbers(), (0, 0, 68, 71));
    ran.sent(&[0xA1]);
    assert_eq!(ran.destination[..], data);
}

#[test]
fn cases_e_and_f_n_0_and_69() {
    let mut c = enabled();
    let before = c.clone();
    for n in [0, 69, 255] {
        let ran = run(&mut c, Kind::Write, n, &[7; 255], &[1, 0]);
        assert_eq!(ran.numbers(), (21, 0, 0, 0));
        let ran = run_read(&mut c, n, &[1, 0]);
        assert_eq!(ran.numbers(), (21, 0, 0, 0));
        ran.sent(&[]);
        begins(&ran.destination, &[]);
    }
    assert_eq!(c, before);
}

#[test]
fn case_g_empty_script() {
    let mut c = enabled();
    let ran = run_read(&mut c, 3, &[]);
    assert_eq!(ran.numbers(), (27, 0, 0, 0));
    assert_eq!(c.turn(), Turn::Free);
    assert_eq!(c.control(), ENSIO | STA);
    assert_eq!(get(&mut c, 0), 0x83);
}

#[test]
fn case_h_byte_count_0() {
    for status in [0x18, 0x28, 0x40, 0x60, 0xD0, 0xA8] {
        for count in [0, 69, 127, 128, 128 + 69] {
            let mut c = at(status);
            set(&mut c, 0, count);
            refused(&mut c, 6, |c| c.write(3, ENSIO | MODE));
            // Byte mode doesn't look at BC.
            write(&mut c, 3, ENSIO);
        }
        for count in [1, 68, 128 + 1, 128 + 68] {
            let mut c = at(status);
            set(&mut c, 0, count);
            write(&mut c, 3, ENSIO | MODE);
        }
    }
}

#[test]
fn case_i_general_call_without_gc() {
    let mut c = listening(false);
    assert_eq!(c.event(5, 0x00), Ok(1));
    assert_eq!(c.turn(), Turn::Busy);
}

#[test]
fn case_j_own_address_0() {
    for own in [0x00, 0x01] {
        let mut c = enabled();
        set(&mut c, 1, own);
        write(&mut c, 3, ENSIO | AA);
        take(&mut c, 2, 0);
        assert_eq!(c.event(5, 0x01), Ok(1));
        assert_eq!(c.turn(), Turn::Busy);
    }
}

#[test]
fn case_k_equal_byte() {
    let mut c = addressing(0xA0, ENSIO);
    refused(&mut c, 8, |c| c.event(8, 0xA0));
    refused(&mut c, 8, |c| c.event(8, 0xA1));
    assert_eq!(c.event(8, 0x9F), Ok(1));
    assert_eq!(c.status(), 0x38);
}

#[test]
fn case_l_no_timeout() {
    let mut c = enabled();
    set(&mut c, 4, 0x7F);
    refused(&mut c, 8, |c| c.event(12, 0));
}

#[test]
fn case_m_69th_read() {
    for control in [0x00, ENSIO, ENSIO | MODE] {
        let mut c = Controller::fresh();
        write(&mut c, 3, control);
        for _ in 0..68 {
            assert_eq!(c.read(1), Ok(0));
        }
        refused(&mut c, 7, |c| c.read(1));
        refused(&mut c, 7, |c| c.write(1, 0x55));
        assert_eq!(c.hand(), 68);
    }
}

// The record and the registers.

#[test]
fn fresh_controller() {
    let mut c = Controller::fresh();
    assert_eq!(c.turn(), Turn::Off);
    assert_eq!((c.hand(), c.moved(), c.pointer()), (0, 0, 0));
    assert!(!c.armed());
    assert_eq!(c.buffer(), &[0; 68]);
    assert_eq!(c.read(0), Ok(0xF8));
    assert_eq!(c.read(3), Ok(0x00));
    let expected = [0x01, 0xE0, 0x9D, 0x86, 0xFF, 0, 0x00, 0x00];
    for pointer in [0, 1, 2, 3, 4, 6, 7] {
        assert_eq!(get(&mut c, pointer), expected[usize::from(pointer)]);
    }
}

#[test]
fn registers_keep_their_bits() {
    let mut c = Controller::fresh();
    for value in 0..=255 {
        write(&mut c, 0, value);
        assert_eq!(c.pointer(), value & 7);
        for pointer in [0, 1, 2, 3, 4] {
            set(&mut c, pointer, value);
            assert_eq!(c.read(2), Ok(value));
        }
        set(&mut c, 6, value);
        assert_eq!(c.read(2), Ok(value & 3));
    }
}

#[test]
fn hand_place() {
    let mut c = enabled();
    for value in 1..=5 {
        write(&mut c, 1, value);
    }
    assert_eq!(c.hand(), 5);
    assert_eq!(c.buffer()[..6], [1, 2, 3, 4, 5, 0]);
    write(&mut c, 3, ENSIO | STA);
    assert_eq!(c.hand(), 0);
    assert_eq!(c.read(1), Ok(1));
    assert_eq!(c.read(1), Ok(2));
    assert_eq!(c.hand(), 2);
    // SI becomes 1.
    take(&mut c, 1, 0);
    assert_eq!(c.hand(), 0);
    // Other accesses leave it.
    write(&mut c, 1, 0xA0);
    set(&mut c, 0, 1);
    c.read(2).unwrap();
    c.read(0).unwrap();
    c.read(3).unwrap();
    assert_eq!(c.hand(), 1);
    // A refused I2CCON write leaves it.
    refused(&mut c, 5, |c| c.write(3, ENSIO | MODE));
    assert_eq!(c.hand(), 1);
    write(&mut c, 3, ENSIO);
    assert_eq!(c.hand(), 0);
    // ENSIO 0 as well.
    let mut c = Controller::fresh();
    write(&mut c, 1, 1);
    write(&mut c, 3, 0);
    assert_eq!(c.hand(), 0);
}

#[test]
fn moved_count() {
    let mut c = at(0x18);
    assert_eq!(c.moved(), 0);
    set(&mut c, 0, 3);
    write(&mut c, 3, ENSIO | MODE);
    for sent in 1..=3 {
        assert_eq!(c.status(), 0xF8);
        take(&mut c, 6, 0);
        assert_eq!(c.moved(), sent);
    }
    assert_eq!(c.status(), 0x28);
    assert_eq!(get(&mut c, 7), 3);
    write(&mut c, 3, ENSIO | STA);
    assert_eq!(c.moved(), 0);
    assert_eq!(get(&mut c, 7), 0);
}

#[test]
fn software_reset() {
    let mut c = at(0x28);
    let buffer = *c.buffer();
    write(&mut c, 0, 5);
    write(&mut c, 2, 0xA5);
    assert!(c.armed());
    // Reads, events and refused writes don't disarm.
    c.read(0).unwrap();
    c.read(1).unwrap();
    c.read(3).unwrap();
    refused(&mut c, 9, |c| c.read(2));
    refused(&mut c, 1, |c| c.write(4, 0));
    assert!(c.armed());
    write(&mut c, 2, 0xA5);
    assert!(c.armed());
    write(&mut c, 2, 0x5A);
    assert_eq!(c.buffer(), &buffer);
    assert_ne!(buffer, [0; 68]);
    let mut reset = at(0x28);
    take(&mut reset, 14, 0);
    assert_eq!(c, reset);
    assert_eq!((c.turn(), c.pointer()), (Turn::Off, 0));
}

#[test]
fn software_reset_needs_the_next_write() {
    // Any other accepted write disarms, INDPTR included.
    for (register, value) in [(0, 5), (1, 0), (2, 0x00), (2, 0x5B), (3, ENSIO)] {
        let mut c = enabled();
        write(&mut c, 0, 5);
        write(&mut c, 2, 0xA5);
        write(&mut c, register, value);
        assert!(!c.armed());
        write(&mut c, 2, 0x5A);
        assert_eq!(c.turn(), Turn::Free);
        assert!(!c.armed());
    }
    // 5Ah to another register is not I2CPRESET.
    let mut c = enabled();
    set(&mut c, 5, 0xA5);
    set(&mut c, 2, 0x5A);
    assert_eq!(c.turn(), Turn::Free);
    // A5h to another register doesn't arm.
    set(&mut c, 2, 0xA5);
    write(&mut c, 1, 0xA5);
    assert!(!c.armed());
    // Events between don't disarm.
    set(&mut c, 5, 0xA5);
    take(&mut c, 2, 0);
    write(&mut c, 2, 0x5A);
    assert_eq!(c.turn(), Turn::Off);
}

#[test]
fn resets_in_every_turn() {
    let mut turns = vec![Turn::Off, Turn::Free, Turn::Busy, Turn::Listen];
    turns.extend(WIRE_TURNS);
    turns.extend(STATUSES.map(|status| Turn::Host {
        status,
        edge: Edge::Stop,
    }));
    for turn in turns {
        let mut pin = in_turn(turn, 0);
        let buffer = *pin.buffer();
        let mut soft = pin.clone();
        set(&mut soft, 5, 0xA5);
        write(&mut soft, 2, 0x5A);
        assert_eq!(pin.event(14, 0), Ok(0));
        assert_eq!(pin, soft);
        assert_eq!(pin.buffer(), &buffer);
        assert_eq!(pin.turn(), Turn::Off);
        refused(&mut pin, 2, |c| c.event(14, 1));
    }
}

// Refusals.

#[test]
fn refusal_1() {
    let mut c = enabled();
    for register in 4..=255 {
        refused(&mut c, 1, |c| c.read(register));
        refused(&mut c, 1, |c| c.write(register, 0));
    }
    for event in (0..=0).chain(15..=255) {
        for argument in [0, 1, 2, 255] {
            refused(&mut c, 1, |c| c.event(event, argument));
        }
    }
}

#[test]
fn refusal_2() {
    // 2 comes before 8: nothing is expected in Off.
    let mut c = Controller::fresh();
    for event in 1..=14 {
        for argument in 0..=255 {
            match event {
                5 | 7 | 8 => refused(&mut c, 8, |c| c.event(event, argument)),
                6 if argument <= 1 => refused(&mut c, 8, |c| c.event(event, argument)),
                14 if argument == 0 => assert_eq!(c.event(14, 0), Ok(0)),
                _ if argument == 0 => refused(&mut c, 8, |c| c.event(event, argument)),
                _ => refused(&mut c, 2, |c| c.event(event, argument)),
            }
        }
    }
}

#[test]
fn refusal_3() {
    for turn in WIRE_TURNS {
        let mut c = in_turn(turn, 0);
        assert_eq!(c.read(0), Ok(0xF8));
        refused(&mut c, 3, |c| c.read(1));
        c.read(2).unwrap();
        c.read(3).unwrap();
        refused(&mut c, 3, |c| c.write(1, 0));
        for value in 0..=255 {
            refused(&mut c, 3, |c| c.write(3, value));
        }
        for pointer in [0, 1, 2, 3, 4, 6] {
            write(&mut c, 0, pointer);
            refused(&mut c, 3, |c| c.write(2, 0));
        }
        // 9 comes before 3.
        write(&mut c, 0, 7);
        refused(&mut c, 9, |c| c.write(2, 0));
        write(&mut c, 0, 5);
        refused(&mut c, 9, |c| c.read(2));
        write(&mut c, 2, 0x00);
        write(&mut c, 2, 0xA5);
        assert!(c.armed());
    }
}

#[test]
fn refusal_4() {
    for status in [0x00, 0x70, 0x78] {
        let mut c = at(status);
        for value in 0..=255 {
            refused(&mut c, 4, |c| c.write(3, value));
        }
        // The rest works as in any Host turn.
        write(&mut c, 1, 0);
        set(&mut c, 0, 5);
        c.read(1).unwrap();
    }
}

#[test]
fn refusal_5_comes_before_6() {
    let mut c = at(0x40);
    set(&mut c, 0, 0);
    refused(&mut c, 5, |c| c.write(3, ENSIO | STA | MODE));
    refused(&mut c, 6, |c| c.write(3, ENSIO | MODE));
}

#[test]
fn refusal_6_only_for_a_data_move() {
    for (status, value) in [
        (0x18, ENSIO | STO | MODE),
        (0x18, ENSIO | STA | MODE),
        (0x48, ENSIO | STO | MODE),
        (0x38, ENSIO | MODE),
        (0x88, ENSIO | MODE),
        (0xA0, ENSIO | MODE),
        (0x60, MODE),
    ] {
        let mut c = at(status);
        set(&mut c, 0, 0);
        write(&mut c, 3, value);
    }
    let mut c = Controller::fresh();
    set(&mut c, 0, 0);
    write(&mut c, 3, ENSIO | MODE);
    write(&mut c, 3, ENSIO | MODE | STA);
    assert_eq!(c.control(), ENSIO | MODE | STA);
}

#[test]
fn refusal_9() {
    let mut c = enabled();
    write(&mut c, 0, 7);
    refused(&mut c, 9, |c| c.write(2, 0));
    assert_eq!(c.read(2), Ok(0));
    write(&mut c, 0, 5);
    refused(&mut c, 9, |c| c.read(2));
    write(&mut c, 2, 0);
}

// I2CCON writes.

/// The turn after an I2CCON write at a status, or the number of its refusal,
/// for BC 1.
fn expected_after(status: u8, edge: Edge, value: u8) -> Result<Turn, u8> {
    let sta = value & STA != 0;
    let sto = value & STO != 0;
    let mode = value & MODE != 0;
    if [0x00, 0x70, 0x78].contains(&status) {
        return Err(4);
    }
    if value & ENSIO == 0 {
        return Ok(Turn::Off);
    }
    match (status, sta, sto) {
        (0x08 | 0x10, _, _) if mode => Err(5),
        (0x08 | 0x10, _, _) => Ok(Turn::Address),
        (0x18 | 0x20 | 0x28 | 0x30, false, false) => Ok(Turn::Send),
        (0x18 | 0x20 | 0x28 | 0x30 | 0x48 | 0x58, true, false) => Ok(Turn::Restarting),
        (0x18 | 0x20 | 0x28 | 0x30 | 0x48 | 0x58, _, true) => Ok(Turn::Stopping),
        (0x48 | 0x58, false, false) => Err(5),
        (0x40 | 0x50, false, false) => Ok(Turn::Receive),
        (0x40 | 0x50, _, _) => Err(5),
        (0x38, _, _) => Ok(LOST),
        (0x88 | 0xE8 | 0xC0 | 0xC8, _, _) => Ok(Turn::Busy),
        (0x60 | 0x68 | 0x80, _, _) => Ok(Turn::SlaveReceive(Called::Own)),
        (0xD0 | 0xD8 | 0xE0, _, _) => Ok(Turn::SlaveReceive(Called::General)),
        (0xA0, _, _) if edge == Edge::Stop => Ok(Turn::Free),
        (0xA0, _, _) => Ok(Turn::Listen),
        (0xA8 | 0xB0 | 0xB8, _, _) => Ok(Turn::SlaveSend),
        _ => unreachable!(),
    }
}

fn check_control_write(start: &Controller, value: u8, expected: Result<Turn, u8>) {
    let mut c = start.clone();
    write(&mut c, 1, 0x33);
    match expected {
        Err(number) => refused(&mut c, number, |c| c.write(3, value)),
        Ok(turn) => {
            write(&mut c, 3, value);
            assert_eq!(c.turn(), turn, "{start:?} {value:02X}");
            let (status, si) = if turn == LOST { (0x38, SI) } else { (0xF8, 0) };
            assert_eq!(c.status(), status);
            assert_eq!((c.hand(), c.moved()), (0, 0));
            let mut control = si | value & (AA | ENSIO | STA | MODE);
            if turn == Turn::Off {
                control &= !STA;
            }
            if turn == Turn::Stopping {
                control |= STO;
            }
            assert_eq!(c.read(3), Ok(control), "{start:?} {value:02X}");
            assert!(c.is_sound());
        }
    }
}

#[test]
fn every_control_write_at_every_status() {
    for status in STATUSES {
        let c = at(status);
        assert_eq!(c.control() & SI, SI);
        for value in 0..=255 {
            check_control_write(&c, value, expected_after(status, Edge::Stop, value));
        }
    }
    let c = at_edge(Edge::Start);
    for value in 0..=255 {
        check_control_write(&c, value, expected_after(0xA0, Edge::Start, value));
    }
}

#[test]
fn every_control_write_at_f8h() {
    for turn in [Turn::Off, Turn::Free, Turn::Busy, Turn::Listen] {
        let c = in_turn(turn, 0);
        for value in 0..=255 {
            let expected = match (value & ENSIO != 0, turn) {
                (false, _) => Turn::Off,
                (true, Turn::Off) => Turn::Free,
                (true, _) => turn,
            };
            check_control_write(&c, value, Ok(expected));
        }
    }
}

#[test]
fn both_sta_and_sto() {
    let mut c = at(0x28);
    write(&mut c, 3, ENSIO | STA | STO);
    assert_eq!(c.turn(), Turn::Stopping);
    assert_eq!(c.control(), ENSIO | STA | STO);
    take(&mut c, 4, 0);
    assert_eq!(c.turn(), Turn::Free);
    assert_eq!(c.control(), ENSIO | STA);
    take(&mut c, 1, 0);
    assert_eq!(c.status(), 0x08);
}

// Events.

/// The events accepted in a turn, with argument 0 (event 8: below A0h).
fn expected_events(turn: Turn, sta: bool, te: bool) -> Vec<u8> {
    let mut events = match turn {
        LOST if te => return vec![3, 12, 14],
        LOST => return vec![3, 14],
        Turn::Off | Turn::Host { .. } => return vec![14],
        Turn::Free if sta => vec![1, 2, 11],
        Turn::Free => vec![2],
        Turn::Busy => vec![2, 3],
        Turn::Listen => vec![5],
        Turn::Address => vec![6, 8],
        Turn::Send => vec![6, 9],
        Turn::Receive => vec![7, 9],
        Turn::SlaveReceive(_) => vec![2, 3, 7],
        Turn::SlaveSend => vec![6],
        Turn::Stopping => vec![4],
        Turn::Restarting => vec![1, 2, 11],
    };
    events.push(10);
    if te {
        events.push(12);
        if sta && matches!(turn, Turn::Busy | Turn::Listen) {
            events.push(13);
        }
    }
    events.push(14);
    events.sort();
    events
}

#[test]
fn every_event_in_every_turn() {
    let mut turns = vec![Turn::Off, Turn::Free, Turn::Busy, Turn::Listen];
    turns.extend(WIRE_TURNS);
    turns.extend(STATUSES.map(|status| Turn::Host {
        status,
        edge: Edge::Stop,
    }));
    for turn in turns {
        for sta in [0, STA] {
            // In the wire turns I2CTO can't be written.
            for te in [true, false] {
                let mut c = in_turn(turn, sta);
                if !te {
                    if turn.is_wire() {
                        continue;
                    }
                    set(&mut c, 4, 0x7F);
                }
                let accepted = expected_events(turn, c.control() & STA != 0, te);
                for event in 1..=14 {
                    let mut c = c.clone();
                    if accepted.contains(&event) {
                        take(&mut c, event, 0);
                    } else {
                        refused(&mut c, 8, |c| c.event(event, 0));
                    }
                }
            }
        }
    }
}

#[test]
fn event_1() {
    let mut c = in_turn(Turn::Restarting, 0);
    assert_eq!(c.event(1, 0), Ok(0));
    assert_eq!(c.status(), 0x10);
    // STA stays until the host writes it.
    assert_eq!(c.control(), ENSIO | STA | SI);
}

#[test]
fn event_2() {
    for turn in [Turn::Free, Turn::Busy] {
        let c = after(in_turn(turn, 0), 2, 0);
        assert_eq!(c.turn(), Turn::Listen);
    }
    let c = after(in_turn(Turn::Restarting, 0), 2, 0);
    assert_eq!(c.status(), 0x10);
    for called in [Called::Own, Called::General] {
        let c = after(in_turn(Turn::SlaveReceive(called), 0), 2, 0);
        let edge = Edge::Start;
        assert_eq!(c.turn(), Turn::Host { status: 0xA0, edge });
    }
}

#[test]
fn event_3() {
    let c = after(in_turn(Turn::Busy, 0), 3, 0);
    assert_eq!(c.turn(), Turn::Free);
    for called in [Called::Own, Called::General] {
        let c = after(in_turn(Turn::SlaveReceive(called), 0), 3, 0);
        let edge = Edge::Stop;
        assert_eq!(c.turn(), Turn::Host { status: 0xA0, edge });
    }
}

#[test]
fn event_4() {
    let mut c = in_turn(Turn::Stopping, 0);
    assert_eq!(c.control(), ENSIO | STO);
    assert_eq!(c.event(4, 0), Ok(0));
    assert_eq!(c.turn(), Turn::Free);
    assert_eq!(c.control(), ENSIO);
}

#[test]
fn event_5_and_8_matching() {
    for own in 0..=255 {
        for aa in [0, AA] {
            let listen = listening_as(own, aa);
            let mut lost = started();
            set(&mut lost, 1, own);
            write(&mut lost, 1, 0xFF);
            write(&mut lost, 3, ENSIO | aa);

            for byte in 0..=255u8 {
                let called = if aa == 0 {
                    None
                } else if byte == 0 && own & 1 == 1 {
                    Some((0xD0, 0xD8))
                } else if own >> 1 != 0 && own >> 1 == byte >> 1 {
                    Some(if byte & 1 == 0 {
                        (0x60, 0x68)
                    } else {
                        (0xA8, 0xB0)
                    })
                } else {
                    None
                };
                let value = u8::from(called.is_none());

                let mut c = listen.clone();
                assert_eq!(c.event(5, byte), Ok(value));
                match called {
                    Some((status, _)) => assert_eq!(c.status(), status),
                    None => assert_eq!(c.turn(), Turn::Busy),
                }

                let mut c = lost.clone();
                if byte == 0xFF {
                    refused(&mut c, 8, |c| c.event(8, byte));
                    continue;
                }
                assert_eq!(c.event(8, byte), Ok(value));
                assert_eq!(c.status(), called.map_or(0x38, |(_, status)| status));
            }
        }
    }
}

#[test]
fn match_tells_call_and_address() {
    let [mut written, mut read, mut general, mut none] = [0; 4];
    for own in 0..=255u8 {
        for aa in [0, AA] {
            let c = listening_as(own, aa);
            for byte in 0..=255u8 {
                let Matched { call, address } = c.called_by(byte);
                let address = address.number();
                assert_eq!(address, byte >> 1);
                match call {
                    Call::Own(direction) => {
                        assert_eq!((aa, address), (AA, own >> 1));
                        assert_ne!(address, 0);
                        let (r, seen) = match direction {
                            Direction::Write => (0, &mut written),
                            Direction::Read => (1, &mut read),
                        };
                        assert_eq!(2 * address + r, byte);
                        *seen += 1;
                    }
                    Call::General => {
                        assert_eq!((aa, own & 1, byte, address), (AA, 1, 0x00, 0));
                        general += 1;
                    }
                    Call::None => none += 1,
                }
            }
        }
    }
    // With AA 1: each I2CADR but 00h and 01h has one byte to write to it and
    // one to read from it, and each with GC 1 has the byte 00h.
    assert_eq!((written, read, general), (254, 254, 128));
    assert_eq!(none, 2 * 256 * 256 - 254 - 254 - 128);
}

#[test]
fn match_of_one_record() {
    let c = listening_as(0xE1, AA);
    for (byte, call, address) in [
        (0xE0, Call::Own(Direction::Write), 0x70),
        (0xE1, Call::Own(Direction::Read), 0x70),
        (0x00, Call::General, 0x00),
        (0x01, Call::None, 0x00),
        (0xDF, Call::None, 0x6F),
        (0xE2, Call::None, 0x71),
        (0xFF, Call::None, 0x7F),
    ] {
        let matched = c.called_by(byte);
        assert_eq!((matched.call, matched.address.number()), (call, address));
    }
}

#[test]
fn event_8_compares_with_our_byte() {
    for ours in 0..=255u8 {
        for winner in [0, 1, 0x7F, 0x80, 0xA0, 0xFE, 0xFF] {
            let mut c = addressing(ours, ENSIO);
            if winner < ours {
                assert_eq!(c.event(8, winner), Ok(1));
                assert_eq!(c.status(), 0x38);
            } else {
                refused(&mut c, 8, |c| c.event(8, winner));
            }
        }
    }
}

#[test]
fn event_6_address() {
    for (byte, argument, status) in [
        (0xA0, 0, 0x18),
        (0xA0, 1, 0x20),
        (0xA1, 0, 0x40),
        (0xA1, 1, 0x48),
        (0x00, 0, 0x18),
        (0xFF, 1, 0x48),
    ] {
        let mut c = addressing(byte, ENSIO);
        refused(&mut c, 2, |c| c.event(6, 2));
        assert_eq!(c.event(6, argument), Ok(byte));
        assert_eq!(c.status(), status);
        assert_eq!((c.moved(), c.hand()), (0, 0));
    }
}

#[test]
fn event_6_byte_mode() {
    for (status, aa, argument, expected) in [
        (0x18, 0, 0, 0x28),
        (0x18, AA, 1, 0x30),
        (0xA8, AA, 0, 0xB8),
        (0xA8, 0, 0, 0xC8),
        (0xA8, AA, 1, 0xC0),
        (0xA8, 0, 1, 0xC0),
    ] {
        let mut c = at(status);
        set(&mut c, 0, 9);
        write(&mut c, 1, 0x77);
        write(&mut c, 3, ENSIO | aa);
        assert_eq!(c.event(6, argument), Ok(0x77));
        assert_eq!(c.status(), expected);
        assert_eq!(c.moved(), 1);
    }
}

#[test]
fn event_6_buffered() {
    for (start, aa, acked, nacked) in [
        (0x18, 0, 0x28, 0x30),
        (0x18, AA, 0x28, 0x30),
        (0xA8, AA, 0xB8, 0xC0),
        (0xA8, 0, 0xC8, 0xC0),
    ] {
        for bc in [1, 2, 67, 68] {
            for lb in [0, 0x80] {
                let mut c = at(start);
                set(&mut c, 0, lb | bc);
                for place in 0..bc {
                    write(&mut c, 1, place ^ 0x5A);
                }
                write(&mut c, 3, ENSIO | MODE | aa);
                for place in 0..bc {
                    // A NACK at each place ends the move there.
                    let mut early = c.clone();
                    assert_eq!(early.event(6, 1), Ok(place ^ 0x5A));
                    assert_eq!(early.status(), nacked);
                    assert_eq!(early.moved(), place + 1);

                    assert_eq!(c.status(), 0xF8);
                    assert_eq!(c.event(6, 0), Ok(place ^ 0x5A));
                    assert_eq!(c.moved(), place + 1);
                }
                assert_eq!(c.status(), acked);
                refused(&mut c, 8, |c| c.event(6, 0));
            }
        }
    }
}

#[test]
fn event_7_byte_mode() {
    for (start, acked, nacked) in [(0x40, 0x50, 0x58), (0x60, 0x80, 0x88), (0xD0, 0xE0, 0xE8)] {
        for count in [0x00, 0x81] {
            for aa in [0, AA] {
                let mut c = at(start);
                set(&mut c, 0, count);
                write(&mut c, 3, ENSIO | aa);
                let mut buffer = *c.buffer();
                buffer[0] = 0xC3;
                assert_eq!(c.event(7, 0xC3), Ok(u8::from(aa == 0)));
                assert_eq!(c.status(), if aa == 0 { nacked } else { acked });
                assert_eq!(c.buffer(), &buffer);
                assert_eq!((c.moved(), c.hand()), (1, 0));
            }
        }
    }
}

#[test]
fn event_7_buffered() {
    for (start, acked, nacked) in [(0x40, 0x50, 0x58), (0x60, 0x80, 0x88), (0xD0, 0xE0, 0xE8)] {
        for bc in [1, 2, 67, 68] {
            for lb in [0, 0x80] {
                for aa in [0, AA] {
                    let mut c = at(start);
                    set(&mut c, 0, lb | bc);
                    write(&mut c, 3, ENSIO | MODE | aa);
                    let mut buffer = *c.buffer();
                    for place in 0..bc {
                        assert_eq!(c.status(), 0xF8);
                        buffer[usize::from(place)] = place ^ 0xA5;
                        let last = place + 1 == bc;
                        let value = u8::from(last && lb != 0);
                        assert_eq!(c.event(7, place ^ 0xA5), Ok(value));
                        assert_eq!(c.moved(), place + 1);
                        assert_eq!(c.buffer(), &buffer);
                    }
                    assert_eq!(c.status(), if lb == 0 { acked } else { nacked });
                }
            }
        }
    }
}

#[test]
fn event_9() {
    for turn in [Turn::Send, Turn::Receive] {
        let mut c = in_turn(turn, 0);
        assert_eq!(c.event(9, 0), Ok(0));
        assert_eq!(c.status(), 0x38);
    }
}

#[test]
fn event_10() {
    for turn in WIRE_TURNS {
        let c = after(in_turn(turn, 0), 10, 0);
        assert_eq!(c.status(), 0x00);
    }
    for turn in [Turn::Free, Turn::Busy, Turn::Listen] {
        let mut c = in_turn(turn, STA);
        let before = c.clone();
        assert_eq!(c.event(10, 0), Ok(0));
        assert_eq!(c, before);
    }
}

#[test]
fn events_11_12_13() {
    let c = after(in_turn(Turn::Free, STA), 11, 0);
    assert_eq!(c.status(), 0x70);
    let c = after(in_turn(Turn::Restarting, 0), 11, 0);
    assert_eq!(c.status(), 0x70);
    for turn in WIRE_TURNS
        .into_iter()
        .chain([Turn::Free, Turn::Busy, Turn::Listen])
    {
        let c = after(in_turn(turn, 0), 12, 0);
        assert_eq!(c.status(), 0x78);
    }
    for turn in [Turn::Busy, Turn::Listen] {
        let c = after(in_turn(turn, STA), 13, 0);
        assert_eq!(c.status(), 0x08);
    }
}

#[test]
fn event_12_needs_te_in_wire_turns() {
    for (status, control) in [
        (0x08, ENSIO),
        (0x18, ENSIO),
        (0x40, ENSIO),
        (0x60, ENSIO),
        (0xD0, ENSIO),
        (0xA8, ENSIO),
        (0x18, ENSIO | STO),
        (0x18, ENSIO | STA),
    ] {
        let mut c = at(status);
        set(&mut c, 4, 0x7F);
        write(&mut c, 3, control);
        assert!(c.turn().is_wire());
        refused(&mut c, 8, |c| c.event(12, 0));
    }
}

// Status 38h (document 02, Ask 2).

/// At 38h with this I2CTO: as reached, and after each I2CCON write with
/// ENSIO 1. BC is 0, and the hand place 3.
fn lost_records(timeout: u8) -> Vec<Controller> {
    let mut reached = at(0x18);
    set(&mut reached, 4, timeout);
    set(&mut reached, 0, 3);
    write(&mut reached, 3, ENSIO | MODE);
    for (event, argument) in [(6, 0), (6, 0), (9, 0)] {
        take(&mut reached, event, argument);
    }
    assert_eq!((reached.turn(), reached.moved()), (LOST, 2));
    set(&mut reached, 0, 0);

    let mut records = vec![reached.clone()];
    for value in (0..=255).filter(|value| value & ENSIO != 0) {
        let mut written = reached.clone();
        write(&mut written, 3, value);
        records.push(written);
    }
    for record in &mut records {
        (0..3).for_each(|value| write(record, 1, value));
        assert_eq!(record.hand(), 3);
    }
    records
}

#[test]
fn every_control_write_at_38h() {
    for c in lost_records(0xFF) {
        for value in 0..=255 {
            check_control_write(&c, value, expected_after(0x38, Edge::Stop, value));
        }
    }
}

/// "Both are expected at 38h with SI 1": events 3 and 12. The hand place
/// stays, as SI doesn't become 1, and so does the moved count.
fn check_event_at_38h(before: &Controller, event: u8, te: bool) {
    let mut c = before.clone();
    let (status, control) = match event {
        3 => (0xF8, before.control() & !SI),
        12 if te => (0x78, before.control()),
        14 => return assert_eq!(after(c, 14, 0).turn(), Turn::Off),
        _ => return refused(&mut c, 8, |c| c.event(event, 0)),
    };
    assert_eq!(c.event(event, 0), Ok(0));
    assert_eq!((c.status(), c.control()), (status, control));
    assert_eq!(c.turn() == Turn::Free, event == 3);
    assert_eq!((c.hand(), c.moved()), (before.hand(), before.moved()));
    assert_eq!(c.buffer(), before.buffer());
}

#[test]
fn every_event_at_38h() {
    for timeout in [0x00, 0x7F, 0x80, 0xFF] {
        for before in lost_records(timeout) {
            (1..=14).for_each(|event| check_event_at_38h(&before, event, timeout & 0x80 != 0));
        }
    }
}

#[derive(Clone, Copy, Debug)]
enum Step {
    Read(u8),
    Write(u8, u8),
    Event(u8, u8),
}

impl Step {
    fn take(self, c: &mut Controller) -> Result<u8, Refusal> {
        match self {
            Step::Read(register) => c.read(register),
            Step::Write(register, value) => c.write(register, value),
            Step::Event(event, argument) => c.event(event, argument),
        }
    }
}

/// Every access and every event, and the first numbers that there aren't.
fn steps() -> Vec<Step> {
    let values = |number: u8| (0..=255).map(move |value| (number, value));
    let writes = (0..=4).flat_map(values);
    let events = (0..=15).flat_map(values);
    (0..=4)
        .map(Step::Read)
        .chain(writes.map(|(register, value)| Step::Write(register, value)))
        .chain(events.map(|(event, argument)| Step::Event(event, argument)))
        .collect()
}

/// "38h is left only by time-out, reset or an outside STOP", and by a write
/// with ENSIO 0.
fn leaves_38h(before: &Controller, te: bool, step: Step) -> bool {
    match step {
        Step::Event(3 | 14, 0) => true,
        Step::Event(12, 0) => te,
        // The software reset: it is armed with the pointer at 05h alone.
        Step::Write(2, 0x5A) => before.armed(),
        Step::Write(3, value) => value & ENSIO == 0,
        _ => false,
    }
}

fn check_step_at_38h(before: &Controller, te: bool, step: Step) {
    let mut c = before.clone();
    let result = step.take(&mut c);
    let leaves = leaves_38h(before, te, step);
    assert_eq!(c.turn() != LOST, leaves, "{step:?} {before:?}");
    assert_eq!(c.status() != 0x38, leaves, "{step:?} {before:?}");
    assert!(!leaves || result.is_ok(), "{step:?} {before:?}");
}

/// The record with each pointer, and armed.
fn by_pointer(record: &Controller) -> Vec<Controller> {
    let mut records = vec![record.clone(); 9];
    for (pointer, c) in (0..8).zip(&mut records) {
        write(c, 0, pointer);
    }
    set(&mut records[8], 5, 0xA5);
    records
}

#[test]
fn what_leaves_38h() {
    let steps = steps();
    for (timeout, te) in [(0x7F, false), (0xFF, true)] {
        let records = lost_records(timeout);
        // As reached, and after a write of all bits.
        let both = [records.first(), records.last()].into_iter().flatten();
        for c in both.flat_map(by_pointer) {
            let check = |&step| check_step_at_38h(&c, te, step);
            steps.iter().for_each(check);
        }
    }
}

#[test]
fn sta_written_at_38h_waits_for_the_stop() {
    let mut c = at(0x38);
    write(&mut c, 3, ENSIO | STA | STO);
    refused(&mut c, 8, |c| c.event(1, 0));
    take(&mut c, 3, 0);
    assert_eq!((c.turn(), c.control()), (Turn::Free, ENSIO | STA));
    take(&mut c, 1, 0);
    assert_eq!(c.status(), 0x08);
}

// The driver.

#[test]
fn malformed_jobs() {
    let job = Job {
        kind: Kind::Write,
        address: 0x50,
        n: 3,
        data: &[1, 2, 3],
    };
    let read = Job {
        kind: Kind::Read,
        data: &[],
        ..job
    };
    let mut c = enabled();
    let before = c.clone();
    let mut check = |job: &Job<'_>, destination: usize, out: usize, script: &[u8]| {
        let mut destination = vec![UNTOUCHED; destination];
        let mut out = vec![UNTOUCHED; out];
        let report = run_job(&mut c, job, &mut destination, &mut out, script);
        assert_eq!((report.count, report.sent, report.events), (0, 0, 0));
        begins(&out, &[]);
        begins(&destination, &[]);
        if report.answer == Answer::Malformed {
            assert_eq!(c, before);
        }
        c = before.clone();
        report.answer.number()
    };
    for address in [0x00, 0x07, 0x78, 0x7F, 0x80, 0xD0, 0xFF] {
        assert_eq!(check(&Job { address, ..job }, 0, 69, &[]), 21);
        assert_eq!(check(&Job { address, ..read }, 3, 69, &[]), 21);
    }
    for address in [0x08, 0x77] {
        assert_eq!(check(&Job { address, ..job }, 0, 69, &[]), 27);
        assert_eq!(check(&Job { address, ..read }, 3, 69, &[]), 27);
    }
    assert_eq!(check(&Job { n: 4, ..job }, 68, 69, &[]), 21);
    assert_eq!(check(&read, 2, 69, &[]), 21);
    assert_eq!(check(&job, 0, 68, &[]), 21);
    assert_eq!(check(&read, 3, 68, &[]), 21);
    assert_eq!(check(&job, 0, 69, &[1]), 21);
    assert_eq!(check(&job, 0, 69, &[15]), 21);
    assert_eq!(check(&read, 3, 69, &[0, 0, 0]), 21);
}

#[test]
fn not_ready() {
    let mut records = vec![Controller::fresh(), in_turn(Turn::Free, STA)];
    records.extend([Turn::Busy, Turn::Listen].map(|turn| in_turn(turn, 0)));
    records.extend(WIRE_TURNS.map(|turn| in_turn(turn, 0)));
    records.extend(STATUSES.map(at));
    for mut c in records {
        let before = c.clone();
        let ran = run_read(&mut c, 1, &[14, 0]);
        assert_eq!(ran.numbers(), (22, 0, 0, 0));
        ran.sent(&[]);
        begins(&ran.destination, &[]);
        // 21 comes before 22.
        assert_eq!(run_read(&mut c, 0, &[]).numbers(), (21, 0, 0, 0));
        assert_eq!(run_read(&mut c, 1, &[14]).numbers(), (21, 0, 0, 0));
        assert_eq!(c, before);
    }
}

#[test]
fn jobs_in_any_free_record() {
    // AA, MODE, pointer, arming and old counts don't matter.
    let mut c = enabled();
    write(&mut c, 3, ENSIO | AA | MODE);
    set(&mut c, 0, 0);
    set(&mut c, 5, 0xA5);
    let ran = run_read(&mut c, 1, &[1, 0, 6, 0, 7, 0x5C, 4, 0]);
    assert_eq!(ran.numbers(), (0, 0, 1, 4));
    assert_eq!((c.pointer(), c.armed()), (0, false));
    assert_eq!(get(&mut c, 0), 0x81);
}

#[test]
fn later_pairs_are_not_looked_at() {
    let mut c = enabled();
    let ran = run_read(&mut c, 1, &[1, 0, 6, 0, 7, 0x5C, 4, 0, 14, 0, 99, 99]);
    assert_eq!(ran.numbers(), (0, 0, 1, 4));
    assert_eq!(c.turn(), Turn::Free);
}

#[test]
fn lost_jobs() {
    let mut c = enabled();
    let ran = run(&mut c, Kind::Write, 1, &[7], &[1, 0, 8, 0x9F, 4, 0]);
    assert_eq!(ran.numbers(), (25, 0, 0, 2));
    ran.sent(&[]);
    assert_eq!(c.turn(), LOST);
    // The driver has written 40h, and SI stays 1.
    assert_eq!(c.control(), ENSIO | SI);

    let mut c = enabled();
    let script = [1, 0, 6, 0, 6, 0, 9, 0, 4, 0];
    let ran = run(&mut c, Kind::Write, 2, &[7, 8], &script);
    assert_eq!(ran.numbers(), (25, 0, 0, 4));
    ran.sent(&[0xA0, 7]);
    assert_eq!((c.turn(), c.moved()), (LOST, 0));

    let mut c = enabled();
    let ran = run_read(&mut c, 2, &[1, 0, 6, 0, 7, 3, 9, 0]);
    assert_eq!(ran.numbers(), (25, 0, 0, 4));
    begins(&ran.destination, &[]);
}

/// Answer 22, whatever the script has, and nothing changes.
#[track_caller]
fn not_begun(c: &mut Controller) {
    let before = c.clone();
    for script in [&[][..], &[3, 0, 1, 0, 6, 0, 7, 0x5C, 4, 0], &[14, 0]] {
        assert_eq!(run_read(c, 1, script).numbers(), (22, 0, 0, 0));
        assert_eq!(*c, before);
    }
}

/// A read that is done.
#[track_caller]
fn reads(c: &mut Controller) {
    let ran = run_read(c, 1, &[1, 0, 6, 0, 7, 0x5C, 4, 0]);
    assert_eq!(ran.numbers(), (0, 0, 1, 4));
    begins(&ran.destination, &[0x5C]);
}

#[test]
fn jobs_after_a_lost_one() {
    for (kind, script) in [
        (Kind::Write, &[1, 0, 8, 0x9F][..]),
        (Kind::Write, &[1, 0, 6, 0, 6, 0, 9, 0]),
        (Kind::Read, &[1, 0, 8, 0x9F]),
        (Kind::Read, &[1, 0, 6, 0, 7, 3, 9, 0]),
    ] {
        let mut c = enabled();
        let ran = run(&mut c, kind, 2, &[7, 8], script);
        assert_eq!(ran.numbers(), (25, 0, 0, script.len() / 2));
        not_begun(&mut c);
        // Neither another START, nor an idle bus, nor a write ends the wait.
        refused(&mut c, 8, |c| c.event(2, 0));
        refused(&mut c, 8, |c| c.event(13, 0));
        write(&mut c, 3, ENSIO);
        not_begun(&mut c);
        // "Another's STOP then leads to Free with F8h."
        take(&mut c, 3, 0);
        assert_eq!((c.turn(), c.status()), (Turn::Free, 0xF8));
        assert_eq!(c.control(), ENSIO);
        reads(&mut c);
    }
}

#[test]
fn jobs_after_a_lost_one_and_a_reset() {
    let mut lost = enabled();
    let ran = run(&mut lost, Kind::Write, 1, &[7], &[1, 0, 8, 0x9F]);
    assert_eq!(ran.numbers(), (25, 0, 0, 2));
    // The time-out leads to a fault, which only a reset ends.
    let mut faulty = after(lost.clone(), 12, 0);
    not_begun(&mut faulty);
    for mut c in [lost, faulty] {
        take(&mut c, 14, 0);
        not_begun(&mut c);
        write(&mut c, 3, ENSIO);
        reads(&mut c);
    }
}

#[test]
fn faults() {
    for (script, status, events) in [
        (&[11, 0][..], 0x70, 1),
        (&[12, 0], 0x78, 1),
        (&[1, 0, 10, 0], 0x00, 2),
        (&[1, 0, 6, 0, 12, 0], 0x78, 3),
        (&[1, 0, 6, 0, 7, 1, 10, 0], 0x00, 4),
        // After 58h the STOP fails: nothing is handed up.
        (&[1, 0, 6, 0, 7, 1, 7, 2, 10, 0, 4, 0], 0x00, 5),
        (&[1, 0, 6, 0, 7, 1, 7, 2, 12, 0], 0x78, 5),
    ] {
        let mut c = enabled();
        let ran = run_read(&mut c, 2, script);
        assert_eq!(ran.numbers(), (26, 0, 0, events));
        assert_eq!(c.status(), status);
        begins(&ran.destination, &[]);
    }
    // The count found at 30h isn't given for another answer.
    let mut c = enabled();
    let ran = run(&mut c, Kind::Write, 1, &[7], &[1, 0, 6, 0, 6, 1, 10, 0]);
    assert_eq!(ran.numbers(), (26, 0, 0, 4));
}

#[test]
fn refused_events() {
    for (script, number, events) in [
        (&[4, 0][..], 8, 0),
        (&[0, 0], 1, 0),
        (&[15, 3], 1, 0),
        (&[1, 1], 2, 0),
        (&[14, 1], 2, 0),
        (&[1, 0, 6, 2], 2, 1),
        (&[1, 0, 1, 0], 8, 1),
        (&[1, 0, 8, 0xA1], 8, 1),
        (&[1, 0, 6, 0, 6, 0], 8, 2),
        (&[1, 0, 6, 0, 7, 1, 7, 2, 7, 3, 4, 0], 8, 4),
    ] {
        let mut c = enabled();
        let ran = run_read(&mut c, 2, script);
        assert_eq!(ran.numbers(), (28, number, 0, events));
        begins(&ran.destination, &[]);
        // The record is the one before that event.
        let mut before = enabled();
        let ran = run_read(&mut before, 2, &script[..2 * events]);
        assert_eq!(ran.numbers(), (27, 0, 0, events));
        assert_eq!(c, before);
    }
}

#[test]
fn reset_in_a_job() {
    let script = [1, 0, 6, 0, 7, 0x11, 7, 0x22];
    for taken in 0..=4 {
        let mut c = enabled();
        let mut script = script[..2 * taken].to_vec();
        script.extend([14, 0, 1, 0]);
        let ran = run_read(&mut c, 2, &script);
        assert_eq!(ran.numbers(), (29, 0, 0, taken + 1));
        begins(&ran.destination, &[]);
        let mut reset = c.clone();
        take(&mut reset, 14, 0);
        assert_eq!(c, reset);
    }
}

#[test]
fn waiting_for_the_bus() {
    // Another master goes first; the job isn't called with AA 0.
    let mut c = enabled();
    set(&mut c, 1, 0xE1);
    let script = [
        10, 0, 2, 0, 5, 0x00, 2, 0, 5, 0xE0, 3, 0, 1, 0, 6, 0, 7, 0x42, 4, 0,
    ];
    let ran = run_read(&mut c, 1, &script);
    assert_eq!(ran.numbers(), (0, 0, 1, 10));
    begins(&ran.destination, &[0x42]);
    // Idle past the time-out while Busy or Listen.
    for script in [
        &[2, 0, 13, 0, 6, 0, 7, 0x42, 4, 0][..],
        &[2, 0, 5, 0x33, 13, 0, 6, 0, 7, 0x42, 4, 0],
    ] {
        let ran = run_read(&mut c, 1, script);
        assert_eq!(ran.numbers(), (0, 0, 1, script.len() / 2));
    }
}

#[test]
fn unfinished_at_each_pair() {
    let script = [1, 0, 6, 0, 7, 1, 7, 2];
    let turns = [
        Turn::Free,
        Turn::Address,
        Turn::Receive,
        Turn::Receive,
        Turn::Stopping,
    ];
    for (taken, turn) in turns.into_iter().enumerate() {
        let mut c = enabled();
        let ran = run_read(&mut c, 2, &script[..2 * taken]);
        assert_eq!(ran.numbers(), (27, 0, 0, taken));
        assert_eq!(c.turn(), turn);
        begins(&ran.destination, &[]);
    }
}

#[test]
fn numbers_of_answers_and_refusals() {
    let answers = [
        (Answer::Done, 0),
        (Answer::Malformed, 21),
        (Answer::NotReady, 22),
        (Answer::AddressNacked, 23),
        (Answer::DataNacked, 24),
        (Answer::Lost, 25),
        (Answer::Fault, 26),
        (Answer::Unfinished, 27),
        (Answer::Reset, 29),
    ];
    for (answer, number) in answers {
        assert_eq!((answer.number(), answer.beside()), (number, 0));
    }
    let refused = Answer::Refused(Refusal::NotExpected);
    assert_eq!((refused.number(), refused.beside()), (28, 8));
    assert_eq!(Refusal::Unsound.number(), 10);
}

// Long walks over jobs, accesses and events.

/// A small source of numbers (xorshift).
fn numbers() -> impl FnMut() -> u32 {
    let mut state = 0x1234_5678_9ABC_DEF0_u64;
    move || {
        state ^= state << 13;
        state ^= state >> 7;
        state ^= state << 17;
        (state >> 32) as u32
    }
}

#[test]
fn random_jobs_keep_the_rules_of_lent_bytes() {
    let mut random = numbers();
    let mut seen = [0; 30];
    let mut c = enabled();
    for _ in 0..200_000 {
        let [kind, n, style, _] = random().to_le_bytes();
        let kind = [Kind::Write, Kind::Read][usize::from(kind % 2)];
        let n = n % 5;
        let data = random().to_le_bytes();
        let data_event = match kind {
            Kind::Write => 6,
            Kind::Read => 7,
        };
        let mut script = vec![1, 0, 6, 0];
        (0..n).for_each(|place| script.extend([data_event, (style >> place) & 1]));
        script.extend([4, 0]);
        // Some scripts are cut, and some have one pair changed.
        let place = random() as usize % (script.len() / 2) * 2;
        match style % 4 {
            0 => script.truncate(place),
            1 => script[place] = (random() % 16) as u8,
            2 => script = vec![1, 0, 6, (random() % 3) as u8, 4, 0],
            _ => {}
        }

        let ran = run(&mut c, kind, n, &data, &script);
        let (answer, beside, count, events) = ran.numbers();
        seen[usize::from(answer)] += 1;
        let taken = &script[..2 * events];
        let of = |event| taken.chunks(2).filter(move |pair| pair[0] == event);

        let sent = of(6).count();
        let mut wire = vec![0xA0 | (kind == Kind::Read) as u8];
        wire.extend(data);
        ran.sent(&wire[..sent]);
        let handed: Vec<u8> = match (answer, kind) {
            (0, Kind::Read) => of(7).map(|pair| pair[1]).collect(),
            _ => vec![],
        };
        begins(&ran.destination, &handed);
        if answer == 0 && kind == Kind::Read {
            assert_eq!(handed.len(), usize::from(n));
        }
        assert_eq!(beside != 0, answer == 28);
        match answer {
            0 => assert_eq!(count, n),
            24 => assert_eq!(usize::from(count), sent - 1),
            27 => assert_eq!(events, script.len() / 2),
            _ => assert_eq!(count, 0),
        }
        assert_eq!(c.pointer(), 0);
        assert!(c.is_sound());
        match answer {
            0 | 23 | 24 => assert_eq!((c.turn(), c.control()), (Turn::Free, ENSIO)),
            25 => assert_eq!((c.turn(), c.control()), (LOST, ENSIO | SI)),
            26 => assert!(matches!(c.status(), 0x00 | 0x70 | 0x78)),
            29 => assert_eq!((c.turn(), c.control()), (Turn::Off, 0)),
            _ => {}
        }
        if c.turn() != Turn::Free || c.control() != ENSIO {
            c = enabled();
        }
    }
    for answer in [0, 21, 23, 24, 25, 26, 27, 28, 29] {
        assert!(seen[answer] > 0, "{answer} never given");
    }
}

#[test]
fn random_walk_keeps_the_record_sound() {
    let mut random = numbers();
    let mut c = Controller::fresh();
    let mut seen = [false; 256];
    for _ in 0..2_000_000 {
        let before = c.clone();
        let [kind, number, value, spice] = random().to_le_bytes();
        const BYTES: [u8; 8] = [0x00, 0x01, 0x02, 0x83, 0x44, 0xE0, 0xE1, 0xFF];
        let byte = match spice {
            0..64 => value,
            _ => BYTES[usize::from(value % 8)],
        };
        let result = match kind % 16 {
            0 => c.read(number % 5),
            1 => c.write(number % 5, value),
            2 => c.write(0, number),
            3 => c.write(2, byte),
            4 => c.write(1, byte),
            5..8 => c.write(3, value | ENSIO),
            _ => {
                // The faults are rare and a reset often follows.
                const OFTEN: [u8; 15] = [1, 1, 1, 2, 3, 4, 5, 6, 6, 6, 7, 7, 8, 9, 13];
                let event = match before.status() {
                    0x00 | 0x70 | 0x78 if spice < 64 => 14,
                    _ if spice < 8 => number % 16,
                    _ => OFTEN[usize::from(number % 15)],
                };
                let argument = match event {
                    5 | 7 | 8 => byte,
                    6 => value & 1,
                    _ if spice < 4 => value,
                    _ => 0,
                };
                c.event(event, argument)
            }
        };
        if result.is_err() {
            assert_eq!(c, before);
        }
        assert!(c.is_sound());
        assert!(c.hand() <= 68 && c.moved() <= 68 && c.pointer() <= 7);
        let host = matches!(c.turn(), Turn::Host { .. });
        assert_eq!(c.status() != 0xF8, host);
        assert_eq!(c.control() & SI != 0, host);
        assert_eq!(c.control() & ENSIO == 0, c.turn() == Turn::Off);
        if c.control() & STO != 0 {
            assert!(c.turn() == Turn::Stopping || matches!(c.status(), 0x00 | 0x78));
        }
        seen[usize::from(c.status())] = true;
    }
    for status in STATUSES {
        assert!(seen[usize::from(status)], "{status:02X} never reached");
    }
}
