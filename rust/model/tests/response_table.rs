//! The printed response table against the model (document 02, Ask 4): what an
//! I2CCON write with ENSIO 1 and a valid BC does at each status, by the four
//! bits STA, STO, AA and MODE.
//!
//! The table is read as the program has to print it; the model is led to each
//! status by accesses and events only.

#[path = "response_table/step.rs"]
mod step;
#[path = "response_table/table.rs"]
mod table;
#[path = "response_table/walk.rs"]
mod walk;
#[path = "response_table/ways.rs"]
mod ways;

use model::{Controller, Edge, Refusal, Turn};
use std::collections::BTreeSet;
use step::{AA, ENSIO, I2CCON, INDIRECT, INDPTR, MODE, NO_STATUS, STA, STO, Step};
use table::{Cell, Table, WORDS, statuses};
use walk::{Taken, walk};

/// The sixteen patterns of STA, STO, AA and MODE, highest first.
const PATTERNS: std::ops::Range<u8> = 0..16;

/// "written bits 3, 2, 1 are ignored"
const IGNORED: u8 = 0x0E;

/// The status and the four bits of each of the 512 entries.
fn cells() -> impl Iterator<Item = (u8, u8)> {
    statuses().flat_map(|status| PATTERNS.map(move |bits| (status, bits)))
}

/// What the model did with one I2CCON write with ENSIO 1.
#[derive(Clone, Copy, Debug)]
struct Response {
    /// The turn before it.
    before: Turn,
    /// The status before it.
    status: u8,
    /// STA, STO, AA and MODE as written, highest first.
    bits: u8,
    /// The turn after it, or the number of its refusal.
    answer: Result<Turn, u8>,
}

/// The I2CCON value with ENSIO 1 and these four bits.
fn control(bits: u8) -> u8 {
    [(8, STA), (4, STO), (2, AA), (1, MODE)]
        .into_iter()
        .filter(|(place, _)| bits & place != 0)
        .fold(ENSIO, |value, (_, bit)| value | bit)
}

/// The four bits of an I2CCON value.
fn bits_of(value: u8) -> u8 {
    PATTERNS
        .into_iter()
        .find(|&bits| control(bits) == (value | ENSIO) & !IGNORED)
        .expect("sixteen patterns are all there are")
}

/// Writes I2CCON with ENSIO 1. Where it is refused "the whole record stays".
fn respond(before: &Controller, value: u8) -> Response {
    let mut controller = before.clone();
    let answer = match controller.write(I2CCON, value) {
        Ok(value) => {
            assert_eq!(value, 0);
            Ok(controller.turn())
        }
        Err(refusal) => {
            assert_eq!(controller, *before);
            Err(refusal.number())
        }
    };
    Response {
        before: before.turn(),
        status: before.status(),
        bits: bits_of(value),
        answer,
    }
}

/// The responses of these records to all sixteen patterns.
fn responses_of(records: Vec<Controller>) -> impl Iterator<Item = Response> {
    let patterns = PATTERNS.flat_map(|bits| [control(bits), control(bits) | IGNORED]);
    records.into_iter().flat_map(move |record| {
        let respond = move |value| respond(&record, value);
        patterns.clone().map(respond)
    })
}

/// The responses at every status, by every way there, with each of [`ways::COUNTS`].
fn responses() -> Vec<Response> {
    let records = |count| [ways::in_host(count), ways::at_f8h(count)].concat();
    let records = ways::COUNTS.into_iter().flat_map(records);
    responses_of(records.collect()).collect()
}

/// What is beside the table. "A0h: Free after a STOP, Listen after a START";
/// "all that F8h does (Off to Free, refusal 3, the turn kept)".
fn beside(before: Turn) -> Option<Result<Turn, u8>> {
    match before {
        Turn::Host { status: 0xA0, edge } => Some(Ok(match edge {
            Edge::Stop => Turn::Free,
            Edge::Start => Turn::Listen,
        })),
        Turn::Host { .. } => None,
        Turn::Off => Some(Ok(Turn::Free)),
        Turn::Free | Turn::Busy | Turn::Listen => Some(Ok(before)),
        Turn::Address
        | Turn::Send
        | Turn::Receive
        | Turn::SlaveReceive(_)
        | Turn::SlaveSend
        | Turn::Stopping
        | Turn::Restarting => Some(Err(3)),
    }
}

/// The answer that a cell names for a record in this turn; none where the cell
/// denies that there is such a record.
fn named(cell: Cell, before: Turn) -> Option<Result<Turn, u8>> {
    match (cell, before) {
        (Cell::Next(turn), _) => Some(Ok(turn)),
        // "SI stays 1 and status 38h."
        (Cell::Stays, Turn::Host { .. }) => Some(Ok(before)),
        (Cell::Refused(number), _) => Some(Err(number)),
        (Cell::Beside, _) => beside(before),
        (Cell::Stays | Cell::Never, _) => None,
    }
}

/// The statuses that a walk shows.
fn shown(steps: usize) -> BTreeSet<u8> {
    let statuses = walk(steps).map(|taken| taken.after.status());
    statuses.chain([Controller::fresh().status()]).collect()
}

/// The cells that are not what the model does: those that give another answer
/// than one of the responses, and those that are `never` at a status that is
/// shown or something else at one that is not.
fn wrong_cells(table: &Table, responses: &[Response], shown: &BTreeSet<u8>) -> BTreeSet<(u8, u8)> {
    let answered = responses.iter().filter(|response| {
        let cell = table.cell(response.status, response.bits);
        named(cell, response.before) != Some(response.answer)
    });
    let answered = answered.map(|response| (response.status, response.bits));
    let occurring = cells().filter(|&(status, bits)| {
        (table.cell(status, bits) == Cell::Never) == shown.contains(&status)
    });
    answered.chain(occurring).collect()
}

/// Steps of the walk that looks for statuses.
const STEPS: usize = 200_000;

#[test]
fn every_cell_is_what_the_model_does() {
    let table = Table::printed();
    for response in responses() {
        let Response {
            before,
            status,
            bits,
            answer,
        } = response;
        let cell = table.cell(status, bits);
        assert_eq!(
            named(cell, before),
            Some(answer),
            "{status:02X}h {bits:04b} says {cell:?}, in {before:?}"
        );
    }
}

/// All 28 x 16 cells of the statuses that events give, and the 16 of F8h.
#[test]
fn every_cell_is_met() {
    let met: BTreeSet<(u8, u8)> = responses()
        .iter()
        .map(|response| (response.status, response.bits))
        .collect();
    let at_f8h = met.iter().filter(|(status, _)| *status == NO_STATUS);
    assert_eq!(at_f8h.count(), 16);
    assert_eq!(met.len(), 28 * 16 + 16);
}

/// "The two ways of A0h [..] are beside the table": "A0h: Free after a STOP,
/// Listen after a START". Which of the two it was, the event says.
#[test]
fn beside_the_table_at_a0h() {
    let table = Table::printed();
    for count in ways::COUNTS {
        for (records, turn) in [
            (ways::after_stop(count), Turn::Free),
            (ways::after_start(count), Turn::Listen),
        ] {
            for response in responses_of(records) {
                assert_eq!(response.status, 0xA0);
                assert_eq!(table.cell(0xA0, response.bits), Cell::Beside);
                assert_eq!(response.answer, Ok(turn), "{response:?}");
            }
        }
    }
}

/// "all that F8h does (Off to Free, refusal 3, the turn kept)": "ENSIO 1 from
/// Off leads to Free", "F8h: the turn stays", and refusal 3 in a "wire turn:
/// any write but to INDPTR or to register 2 with pointer 05h".
#[test]
fn beside_the_table_at_f8h() {
    let table = Table::printed();
    let mut wire = 0;
    for response in responses_of(ways::at_f8h(0x04)) {
        assert_eq!(response.status, NO_STATUS);
        assert_eq!(table.cell(NO_STATUS, response.bits), Cell::Beside);
        let expected = match response.before {
            Turn::Off => Ok(Turn::Free),
            Turn::Free | Turn::Busy | Turn::Listen => Ok(response.before),
            _ => Err(3),
        };
        assert_eq!(response.answer, expected, "{response:?}");
        wire += u32::from(expected == Err(3));
    }
    // Nine records in the seven wire turns: SlaveReceive own and General Call,
    // Stopping with STA and without.
    assert_eq!(wire, 9 * 2 * 16);
}

/// Only A0h and F8h are beside the table: "their 32 entries say only that".
#[test]
fn beside_is_said_at_a0h_and_f8h_only() {
    let table = Table::printed();
    for (status, bits) in cells() {
        let beside = table.cell(status, bits) == Cell::Beside;
        assert_eq!(beside, matches!(status, 0xA0 | 0xF8), "{status:02X}h");
    }
}

/// "codes that never occur have an entry of their own kind": the walk shows
/// none of them, and every other one, F8h included.
#[test]
fn never_is_said_of_the_statuses_never_shown() {
    let table = Table::printed();
    let mut occurring = BTreeSet::new();
    for status in statuses() {
        let never = |&bits: &u8| table.cell(status, bits) == Cell::Never;
        match PATTERNS.filter(never).count() {
            0 => assert!(occurring.insert(status)),
            16 => {}
            some => panic!("{status:02X}h says never {some} times"),
        }
    }
    assert_eq!(shown(STEPS), occurring);
    assert_eq!(occurring.len(), 28 + 1);
}

/// The walk meets each of the 14 events, with many arguments, and every value
/// of I2CCON.
#[test]
fn the_walk_is_rich() {
    let mut events = BTreeSet::new();
    let mut arguments = BTreeSet::new();
    let mut controls = BTreeSet::new();
    for Taken { step, answer, .. } in walk(STEPS) {
        match step {
            Step::Event(event, argument) if answer.is_ok() => {
                events.insert(event);
                arguments.insert((event, argument));
            }
            Step::Write(I2CCON, value) if answer.is_ok() => {
                controls.insert(value);
            }
            _ => {}
        }
    }
    assert!(events.into_iter().eq(1..=14));
    assert!(arguments.len() > 500, "{}", arguments.len());
    assert_eq!(controls.len(), 256);
}

/// Whether BC is 1..68.
fn is_byte_count_valid(controller: &Controller) -> bool {
    let mut copy = controller.clone();
    assert_eq!(copy.write(INDPTR, 0x00), Ok(0));
    let count = copy.read(INDIRECT).expect("I2CCOUNT can be read");
    (1..=68).contains(&(count & 0x7F))
}

/// The answer by the table. As it is "for a valid BC", refusal 6 stands beside
/// it: "that write would start a buffered data move and BC is not 1..68".
fn by_table(table: &Table, before: &Controller, value: u8) -> Option<Result<Turn, u8>> {
    let cell = table.cell(before.status(), bits_of(value));
    let answer = named(cell, before.turn());
    let moves = matches!(
        answer,
        Some(Ok(Turn::Send
            | Turn::Receive
            | Turn::SlaveReceive(_)
            | Turn::SlaveSend))
    );
    if moves && value & MODE != 0 && !is_byte_count_valid(before) {
        return Some(Err(6));
    }
    answer
}

/// Every I2CCON write with ENSIO 1 of a longer walk, whatever came before it,
/// does what the table says; every cell that isn't `never` is met.
#[test]
fn every_write_of_a_walk_is_as_the_table_says() {
    let table = Table::printed();
    let mut met = BTreeSet::new();
    for taken in walk(10 * STEPS) {
        let Taken { before, step, .. } = &taken;
        let Step::Write(I2CCON, value @ (0x40..=0x7F | 0xC0..=0xFF)) = *step else {
            continue;
        };
        let answer = taken.answer.map(|_| taken.after.turn());
        let answer = answer.map_err(Refusal::number);
        let expected = by_table(&table, before, value);
        assert_eq!(expected, Some(answer), "{value:02X} in {before:?}");
        if answer != Err(6) {
            met.insert((before.status(), bits_of(value)));
        }
    }
    assert_eq!(met.len(), 29 * 16);
}

/// A table with one wrong cell is found out, whichever of the 512 cells it is
/// and whatever other word stands there, and just that cell is named.
#[test]
fn every_wrong_cell_is_found() {
    let table = Table::printed();
    let responses = responses_of([ways::in_host(0x04), ways::at_f8h(0x04)].concat());
    let responses: Vec<Response> = responses.collect();
    let shown = shown(STEPS);
    assert_eq!(wrong_cells(&table, &responses, &shown), BTreeSet::new());
    let mut wrong = 0;
    for (status, bits) in cells() {
        for (word, cell) in WORDS {
            if cell == table.cell(status, bits) {
                continue;
            }
            let other = table.with(status, bits, cell);
            let found = wrong_cells(&other, &responses, &shown);
            assert!(found.into_iter().eq([(status, bits)]), "{word}");
            wrong += 1;
        }
    }
    assert_eq!(wrong, 512 * 13);
}
