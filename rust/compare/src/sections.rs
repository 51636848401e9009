//! What a comparison has to reach, each with its count.

use crate::table::{Cell, Section};
use crate::tally::{EVENTS, LostEnd, Tally, move_index};
use perlovasta::Reason;

/// The statuses that events give.
pub const GIVEN: [u8; 28] = [
    0x00, 0x08, 0x10, 0x18, 0x20, 0x28, 0x30, 0x38, 0x40, 0x48, 0x50, 0x58, 0x60, 0x68, 0x70, 0x78,
    0x80, 0x88, 0xA0, 0xA8, 0xB0, 0xB8, 0xC0, 0xC8, 0xD0, 0xD8, 0xE0, 0xE8,
];

/// The turns by their numbers in a log; Host at A0h after a START, 17, is counted apart.
pub const TURN_NAMES: [(&str, usize); 13] = [
    ("Off", 0),
    ("Host", 1),
    ("Free", 2),
    ("Busy", 3),
    ("Listen", 4),
    ("Address", 5),
    ("Send", 6),
    ("Receive", 7),
    ("SlaveReceive own", 8),
    ("SlaveReceive GC", 24),
    ("SlaveSend", 9),
    ("Stopping", 10),
    ("Restarting", 11),
];

/// All sections of the table.
pub fn sections(tally: &Tally) -> Vec<Section> {
    let mut sections = trace_sections(tally);
    sections.extend(job_sections(tally));
    sections
}

fn trace_sections(tally: &Tally) -> Vec<Section> {
    let statuses = GIVEN.into_iter().chain([0xF8]);
    let status = statuses.map(|s| Cell::new(format!("{s:02X}h"), tally.status[usize::from(s)]));
    let started = tally.turn[17];
    let edges = vec![
        Cell::new("STOP", tally.status[0xA0].saturating_sub(started)),
        Cell::new("START", started),
    ];
    let turns = TURN_NAMES.map(|(name, number)| Cell::new(name, tally.turn[number]));
    let refusals = (1..=9).map(|number| Cell::new(number.to_string(), tally.refusal[number]));
    let events = (1..EVENTS).map(|number| Cell::new(number.to_string(), tally.event[number]));
    let resets = vec![
        Cell::new("pin", tally.event[14]),
        Cell::new("software", tally.software_reset),
    ];
    let fresh = vec![Cell::new(Reason::NoneYet.to_string(), tally.reason_fresh)];
    let kept = vec![Cell::new("write with ENSIO 1", tally.lost_kept)];
    let not_run = ["length", "kind of a group", "length of the log"];
    let not_run = not_run.into_iter().zip(tally.not_run);
    vec![
        Section::new("status given", status.collect()),
        Section::new("A0h after", edges),
        Section::new("turn entered", turns.into()),
        Section::new("refusal", refusals.collect())
            .noting("refusal 10: not reachable from a fresh controller"),
        Section::new("event accepted", events.collect()),
        Section::new("reset by", resets),
        Section::new("reason set", reasons(tally.reason_set)),
        Section::new("reason kept", reasons(tally.reason_kept)),
        Section::new("reason when fresh", fresh),
        Section::new("38h left by", lost_ends(tally)),
        Section::new("38h kept by", kept),
        Section::new("move finished", moves(tally)),
        Section::new("combination tried", combinations(tally)),
        Section::new(
            "trace not run for",
            not_run.map(|(l, c)| Cell::new(l, c)).collect(),
        ),
    ]
}

fn reasons(counts: [u64; Reason::ALL.len()]) -> Vec<Cell> {
    let named = Reason::ALL.into_iter().zip(counts);
    named
        .map(|(reason, count)| Cell::new(reason.to_string(), count))
        .collect()
}

fn lost_ends(tally: &Tally) -> Vec<Cell> {
    let ends = [
        ("another's STOP", LostEnd::OtherStop),
        ("time-out", LostEnd::TimeOut),
        ("reset pin", LostEnd::ResetPin),
        ("software reset", LostEnd::SoftwareReset),
        ("ENSIO 0", LostEnd::Disabled),
    ];
    ends.map(|(name, end)| Cell::new(name, tally.lost_left[end as usize]))
        .into()
}

fn moves(tally: &Tally) -> Vec<Cell> {
    let mut cells = Vec::new();
    for (slave, role) in [(false, "master"), (true, "slave")] {
        for (receive, way) in [(false, "sends"), (true, "receives")] {
            for (buffered, mode) in [(false, "Byte"), (true, "Buffered")] {
                let count = tally.moves[move_index(slave, receive, buffered)];
                cells.push(Cell::new(format!("{role} {way}, {mode}"), count));
            }
        }
    }
    cells
}

/// How many of all combinations were tried at least once; all have to be.
fn combinations(tally: &Tally) -> Vec<Cell> {
    let turns = TURN_NAMES.map(|(_, number)| number);
    let events = tally.event_in_turn[1..].iter();
    let events = events.flat_map(|by_turn| turns.map(|turn| by_turn[turn]));
    let statuses = GIVEN.into_iter().chain([0xF8]);
    let controls = statuses.flat_map(|status| tally.control_at[usize::from(status / 8)]);
    vec![
        Cell::all("turn and event", &events.collect::<Vec<_>>()),
        Cell::all("status and I2CCON value", &controls.collect::<Vec<_>>()),
    ]
}

fn job_sections(tally: &Tally) -> Vec<Section> {
    let answers = [0, 21, 23, 24, 25, 26, 27, 28, 29];
    let answers = answers.map(|number| Cell::new(number.to_string(), tally.answer[number]));
    let beside = [1, 2, 8].map(|number| Cell::new(number.to_string(), tally.beside[number]));
    let mut done = Vec::new();
    for (kind, name) in ["write", "read"].into_iter().enumerate() {
        done.extend([1, 8, 68].map(|n| Cell::new(format!("{name} of {n}"), tally.done[kind][n])));
    }
    let long = vec![
        Cell::new("over 255 pairs", tally.long[0]),
        Cell::new("over 65535 pairs", tally.long[1]),
    ];
    let sent = vec![Cell::all("number of bytes", &tally.sent)];
    let counts = [0, 69].map(|n| Cell::new(format!("n {n}"), tally.count[n]));
    let names = [
        "kind",
        "address",
        "n",
        "data",
        "destination",
        "out",
        "script",
    ];
    let flaws = names.into_iter().zip(tally.flaw);
    let flaws = flaws.map(|(name, count)| Cell::new(name, count));
    let reports = vec![Cell::new("length of the report", tally.flaw[7])];
    vec![
        Section::new("job answered", answers.into())
            .noting("answer 22: not reachable, the controller is fresh and enabled"),
        Section::new("refusal beside 28", beside.into())
            .noting("refusals 3 to 7 and 9 are of accesses, not of events"),
        Section::new("job done", done),
        Section::new("job took", long),
        Section::new("job sent", sent),
        Section::new("21 for one flaw", flaws.chain(counts).collect()),
        Section::new("no report for", reports),
    ]
}

#[cfg(test)]
mod tests {
    use super::sections;
    use crate::table::missing;
    use crate::tally::Tally;
    use perlovasta::Reason;

    #[test]
    fn nothing_occurred() {
        let missing = missing(&sections(&Tally::new()));
        assert!(missing.contains(&"status given A0h".to_owned()));
        assert!(missing.contains(&"turn entered SlaveReceive GC".to_owned()));
        assert!(missing.contains(&"refusal 9".to_owned()));
        for reason in Reason::ALL {
            assert!(missing.contains(&format!("reason set {reason}")));
            assert!(missing.contains(&format!("reason kept {reason}")));
        }
        assert!(missing.contains(&"reason when fresh none yet".to_owned()));
        assert!(missing.contains(&"38h left by another's STOP".to_owned()));
        assert!(missing.contains(&"38h kept by write with ENSIO 1".to_owned()));
        assert!(missing.contains(&"job answered 29".to_owned()));
        assert!(missing.contains(&"combination tried turn and event, of 182".to_owned()));
        assert!(!missing.contains(&"refusal 10".to_owned()));
    }
}
