//! What a comparison of the port has to reach, each with its count.

use super::item::Way;
use super::rule::Unready;
use super::tally::{Answers, STEPS, Tally};
use crate::sections::TURN_NAMES;
use crate::table::{Cell, Section};
use perlovasta::PLACES;

/// The turns in which a job waits.
const WAITING: [usize; 7] = [2, 3, 4, 5, 6, 7, 10];

const ANSWERS: [usize; 10] = [0, 21, 22, 23, 24, 25, 26, 27, 28, 29];
const KINDS: [&str; 2] = ["write", "read"];
const STEP_NAMES: [&str; STEPS] = ["write", "read", "wait", "pause", "over"];

/// All sections of the table.
pub fn sections(tally: &Tally) -> Vec<Section> {
    let mut sections = job_sections(tally);
    sections.extend(other_sections(tally));
    sections.extend(state_sections(tally));
    sections
}

fn job_sections(tally: &Tally) -> Vec<Section> {
    let mut done = Vec::new();
    for (kind, name) in KINDS.into_iter().enumerate() {
        let by_n = tally.done[kind];
        done.extend([1, 67, 68].map(|n| Cell::new(format!("{name} of {n}"), by_n[n])));
        done.push(Cell::all(&format!("{name}, n"), &by_n[1..]));
    }
    let beside = [1, 2, 8].map(|number| Cell::new(number.to_string(), tally.beside[number]));
    let mut state = numbered(KINDS, tally.not_ready);
    state.extend(unready(tally));
    let chip = [0xF8, 0x38, 0x00, 0x70, 0x78];
    let chip = chip.map(|status| status_cell(status, tally.chip_at[usize::from(status)]));
    let fault = [0x00, 0x70, 0x78];
    let fault = fault.map(|status| status_cell(status, tally.fault[usize::from(status)]));
    let flaws = numbered(["kind", "address", "n", "data"], tally.wrong_job);
    vec![
        Section::new("job answered", answers(&tally.answer, &ANSWERS))
            .noting("22 is the chip's here; 24, at 30h, is never a read's"),
        Section::new("22 by the state", state),
        Section::new("22 by the chip at", chip.into()).noting("F8h: not enabled"),
        Section::new("21 for", flaws),
        Section::new("refusal beside 28", beside.into()),
        Section::new("26 at", fault.into()),
        Section::new("job done", done),
        Section::new("24 with", nacked(tally)),
    ]
}

/// 24, by its count.
fn nacked(tally: &Tally) -> Vec<Cell> {
    let between = tally.nacked[2..PLACES].iter().sum();
    vec![
        Cell::new("count 1", tally.nacked[1]),
        Cell::new("between", between),
        Cell::new("count 68", tally.nacked[PLACES]),
    ]
}

/// 22 by the state, by what it wants a recovery for.
fn unready(tally: &Tally) -> Vec<Cell> {
    let named = [
        ("new", Unready::New),
        ("after 27", Unready::ScriptEnded),
        ("after 28", Unready::Refused),
        ("given up", Unready::Left(Way::GiveUp)),
        ("job under way", Unready::Left(Way::Start)),
        ("then a wrong job", Unready::Left(Way::WrongStart)),
        ("then wrong settings", Unready::Left(Way::WrongRecovery)),
    ];
    named
        .map(|(name, unready)| Cell::new(name, tally.unready[unready.index()]))
        .into()
}

fn other_sections(tally: &Tally) -> Vec<Section> {
    let mut traffic = vec![
        Cell::new("in Busy", tally.traffic_in[3]),
        Cell::new("in Listen", tally.traffic_in[4]),
        Cell::new("after many pairs", tally.long_traffic),
        Cell::new("begun by idling", tally.idle_traffic),
    ];
    traffic.extend(answers(&tally.traffic, &[0, 23, 24, 25, 26, 27, 28, 29]));
    let fresh = [0, 21, 23, 24, 25, 26, 27, 28, 29];
    let fresh = fresh.map(|answer| Cell::new(answer.to_string(), tally.fresh[answer]));
    let waiting = TURN_NAMES.iter().filter(|(_, turn)| WAITING.contains(turn));
    let polls = waiting.map(|&(name, turn)| Cell::new(name, tally.polls[turn]));
    let unseen = vec![Cell::new("event without a status", tally.unseen)];
    let recovered = TURN_NAMES.map(|(name, turn)| Cell::new(name, tally.recovery_in[turn]));
    let settings = vec![Cell::all("number of settings", &tally.settings)];
    let wrong = ["odd length", "more than six", "another register"];
    let ways = [
        "giving up",
        "a job",
        "a wrong job",
        "wrong settings",
        "recovery",
    ];
    vec![
        Section::new("begun amid traffic", traffic),
        Section::new("as perlovasta_job", fresh.into()),
        Section::new("polled in", polls.collect()),
        Section::new("waited on after", unseen),
        Section::new("recovered from", recovered.into()),
        Section::new("recovered with", settings),
        Section::new("settings wrong by", numbered(wrong, tally.wrong_settings)),
        Section::new("left under way by", numbered(ways, tally.left)),
    ]
}

fn state_sections(tally: &Tally) -> Vec<Section> {
    let lied = answers(&tally.lied, &[0, 21, 22, 23, 24, 25, 26, 29]);
    let read = vec![
        Cell::all("n", &tally.lied_done[1..]),
        Cell::new("72 accesses in a row", tally.full_bursts),
        Cell::new("not over in time", tally.endless),
    ];
    let states = vec![
        Cell::all("length", &tally.states),
        Cell::new("in which a job began", tally.begun_anywhere),
    ];
    vec![
        Section::new("lied to, answered", lied),
        Section::new("lied to, a read of", read),
        Section::new("given up at", numbered(STEP_NAMES, tally.given_up)),
        Section::new("state of any", states),
        Section::new("which stood at", numbered(STEP_NAMES, tally.stood)),
    ]
}

/// These answers of writes and reads. No read is answered 24.
fn answers(counts: &Answers, answers: &[usize]) -> Vec<Cell> {
    let mut cells = Vec::new();
    for (kind, name) in KINDS.into_iter().enumerate() {
        for &answer in answers {
            if (kind, answer) != (1, 24) {
                let label = format!("{name} {answer}");
                cells.push(Cell::new(label, counts[kind][answer]));
            }
        }
    }
    cells
}

fn numbered<const N: usize>(names: [&str; N], counts: [u64; N]) -> Vec<Cell> {
    let cells = names.into_iter().zip(counts);
    cells.map(|(name, count)| Cell::new(name, count)).collect()
}

fn status_cell(status: u8, count: u64) -> Cell {
    Cell::new(format!("{status:02X}h"), count)
}

#[cfg(test)]
mod tests {
    use super::sections;
    use crate::port::tally::Tally;
    use crate::table::missing;

    #[test]
    fn nothing_occurred() {
        let missing = missing(&sections(&Tally::new()));
        for thing in [
            "job answered write 24",
            "job answered read 29",
            "22 by the state new",
            "22 by the chip at 38h",
            "job done read, n, of 68",
            "begun amid traffic in Listen",
            "begun amid traffic read 28",
            "as perlovasta_job 23",
            "polled in Stopping",
            "recovered from SlaveReceive GC",
            "left under way by recovery",
            "lied to, answered read 0",
            "given up at pause",
            "state of any length, of 201",
        ] {
            assert!(missing.contains(&thing.to_owned()), "{thing}: {missing:?}");
        }
        assert!(!missing.contains(&"job answered read 24".to_owned()));
    }
}
