//! What a comparison of the virtual chip has to reach, each with its count.

use super::content::Change;
use super::tally::Tally;
use crate::sections::{GIVEN, TURN_NAMES};
use crate::table::{Cell, Section};

/// Turns in which a sound record is not ready for a job; Free is one if a START is wanted.
const NOT_READY: [usize; 14] = [0, 1, 2, 3, 4, 5, 6, 7, 8, 9, 10, 11, 17, 24];
/// Turns that a job can leave: it ends, or its script does.
const LEFT: [usize; 9] = [0, 1, 2, 3, 4, 5, 6, 7, 10];

/// All sections of the table.
pub fn sections(tally: &Tally) -> Vec<Section> {
    let mut sections = record_sections(tally);
    sections.extend(job_sections(tally));
    sections
}

fn record_sections(tally: &Tally) -> Vec<Section> {
    let statuses = GIVEN.into_iter().chain([0xF8]);
    let status = statuses.map(|s| Cell::new(format!("{s:02X}h"), tally.status[usize::from(s)]));
    let turns = TURN_NAMES.into_iter().chain([("Host after START", 17)]);
    let turns = turns.map(|(name, number)| Cell::new(name, tally.turn[number]));
    let refusals = (1..=10).map(|number| Cell::new(number.to_string(), tally.refusal[number]));
    let tried = tally.event_in_turn[1..].iter();
    let tried = tried.flat_map(|by_turn| TURN_NAMES.map(|(_, turn)| by_turn[turn]));
    let stored = vec![
        Cell::new("fresh", tally.fresh[1]),
        Cell::new("a stray status gone", tally.stray),
        Cell::new("not sound, reset", tally.reset),
        Cell::new("in longer bytes", tally.longer),
        Cell::new("no room for a fresh one", tally.fresh[0]),
    ];
    vec![
        Section::new("chip: status given", status.collect()),
        Section::new("turn entered", turns.collect()),
        Section::new("refusal", refusals.collect()),
        Section::new(
            "combination tried",
            vec![Cell::all("turn and event", &tried.collect::<Vec<_>>())],
        ),
        Section::new("10: no record", changed(&Change::NO_RECORD, &tally.refused)),
        Section::new("10: not sound", changed(&Change::NOT_SOUND, &tally.refused)),
        Section::new("record stored", stored),
    ]
}

/// Those of the counts that these changes have.
fn changed(changes: &[Change], counts: &[u64; Change::ALL.len()]) -> Vec<Cell> {
    let cells = changes.iter();
    cells
        .map(|&change| Cell::new(format!("{change:?}"), counts[change as usize]))
        .collect()
}

fn job_sections(tally: &Tally) -> Vec<Section> {
    let answers = [0, 21, 22, 23, 24, 25, 26, 27, 28, 29];
    let answers = answers.map(|number| Cell::new(number.to_string(), tally.answer[number]));
    let beside = [1, 2, 8].map(|number| Cell::new(number.to_string(), tally.beside[number]));
    let begun = vec![
        Cell::new("fresh and enabled", tally.begun[0]),
        Cell::new("in use", tally.begun[1]),
    ];
    let turns = NOT_READY.map(|number| tally.not_ready_in[number]);
    let left = TURN_NAMES.iter().filter(|(_, turn)| LEFT.contains(turn));
    let left = left.map(|&(name, turn)| Cell::new(name, tally.left[turn]));
    vec![
        Section::new("job answered", answers.into()),
        Section::new("refusal beside 28", beside.into()),
        Section::new(
            "22: no record",
            changed(&Change::NO_RECORD, &tally.not_ready),
        ),
        Section::new(
            "22: not sound",
            changed(&Change::NOT_SOUND, &tally.not_ready),
        ),
        Section::new("22: sound", vec![Cell::all("turn", &turns)]),
        Section::new("job begun on one", begun),
        Section::new("job left", left.collect()),
    ]
}

#[cfg(test)]
mod tests {
    use super::sections;
    use crate::chip::compare::compare;
    use crate::chip::library::LIBRARY;
    use crate::chip::tally::Tally;
    use crate::table::missing;

    #[test]
    fn nothing_occurred() {
        let missing = missing(&sections(&Tally::new()));
        assert!(missing.contains(&"refusal 10".to_owned()));
        assert!(missing.contains(&"10: no record Flag".to_owned()));
        assert!(missing.contains(&"22: not sound Move".to_owned()));
        assert!(missing.contains(&"job answered 22".to_owned()));
    }

    #[test]
    fn all_occurs() {
        let compared = compare(LIBRARY, 9665, 1_000_000).expect("library and model agree");
        assert_eq!(missing(&sections(&compared)), [""; 0]);
    }
}
