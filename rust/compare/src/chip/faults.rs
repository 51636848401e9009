//! Wrong libraries, each of which the comparison has to refuse, with what it says.

use super::compare::compare;
use super::library::{LIBRARY, Library, MODEL};
use super::list;
use super::tally::Tally;
use perlovasta::{CHIP_LEN, sys};

/// Seeds that the comparison is tried with.
const SEEDS: u64 = 300;

/// Asserts that the library is refused, at times with these words.
#[track_caller]
fn refused(library: Library, words: &str) {
    let mut tally = Tally::new();
    let wrong = (0..SEEDS).filter_map(|seed| list::run(library, seed, &mut tally).err());
    let wrong: Vec<String> = wrong.map(|difference| difference.place).collect();
    assert!(wrong.iter().any(|wrong| wrong.contains(words)), "{wrong:?}");
}

/// Whether the bytes are a record, by what they refuse register 4 for.
fn is_record(chip: &mut [u8]) -> bool {
    sys::chip_read(chip, 4) == 1
}

#[test]
fn the_library_and_the_model_are_right() {
    for library in [LIBRARY, MODEL] {
        let compared = compare(library, 1, 50_000);
        assert!(compared.is_ok(), "{}", compared.unwrap_err());
    }
}

#[test]
fn an_old_buffer_in_a_fresh_chip() {
    fn fresh(chip: &mut [u8]) -> u8 {
        let old = chip.last().copied();
        let refusal = sys::chip_fresh(chip);
        if let (Some(old), Some(place)) = (old, chip.last_mut()) {
            *place = old;
        }
        refusal
    }
    refused(Library { fresh, ..LIBRARY }, "chip, byte 87: library");
}

#[test]
fn a_fresh_chip_without_room() {
    fn fresh(chip: &mut [u8]) -> u8 {
        let _refusal = sys::chip_fresh(chip);
        0
    }
    let words = "returned: library 0000, model 000A";
    refused(Library { fresh, ..LIBRARY }, words);
}

#[test]
fn zeros_where_there_is_no_room() {
    fn fresh(chip: &mut [u8]) -> u8 {
        if chip.len() < CHIP_LEN {
            chip.fill(0);
        }
        sys::chip_fresh(chip)
    }
    refused(Library { fresh, ..LIBRARY }, "chip, byte 0: library 00");
}

#[test]
fn a_read_that_is_forgotten() {
    fn read(chip: &mut [u8], register: u8) -> u32 {
        sys::chip_read(&mut chip.to_vec(), register)
    }
    refused(Library { read, ..LIBRARY }, "chip, byte 11: library");
}

#[test]
fn a_value_beside_a_refusal() {
    fn read(chip: &mut [u8], register: u8) -> u32 {
        match sys::chip_read(chip, register) {
            7 => 0xFF07,
            reply => reply,
        }
    }
    let words = "reply: library FF07, model 0007";
    refused(Library { read, ..LIBRARY }, words);
}

#[test]
fn a_refused_read_that_disarms() {
    fn read(chip: &mut [u8], register: u8) -> u32 {
        let reply = sys::chip_read(chip, register);
        if reply == 9 {
            chip[10] = 0;
        }
        reply
    }
    refused(Library { read, ..LIBRARY }, "chip, byte 10: library 00");
}

#[test]
fn a_byte_after_the_record() {
    fn write(chip: &mut [u8], register: u8, value: u8) -> u32 {
        let reply = sys::chip_write(chip, register, value);
        if let (0, Some(place)) = (reply, chip.get_mut(CHIP_LEN)) {
            *place = 0;
        }
        reply
    }
    refused(Library { write, ..LIBRARY }, "chip, byte 88: library 00");
}

#[test]
fn registers_mixed_up() {
    fn write(chip: &mut [u8], register: u8, value: u8) -> u32 {
        let reply = sys::chip_write(chip, register, value);
        if is_record(chip) {
            chip.swap(16, 17);
        }
        reply
    }
    refused(Library { write, ..LIBRARY }, "chip, byte 16: library");
}

#[test]
fn a_reset_of_no_record() {
    fn event(chip: &mut [u8], event: u8, argument: u8) -> u32 {
        if [event, argument] == [14, 0] && chip.len() >= CHIP_LEN && !is_record(chip) {
            let _refusal = sys::chip_fresh(chip);
        }
        sys::chip_event(chip, event, argument)
    }
    let words = "reply: library 0000, model 000A";
    refused(Library { event, ..LIBRARY }, words);
}

#[test]
fn a_record_that_is_not_sound_refused_too_early() {
    fn event(chip: &mut [u8], event: u8, argument: u8) -> u32 {
        match sys::chip_read(&mut chip.to_vec(), 0) {
            10 if event != 14 => 10,
            _ => sys::chip_event(chip, event, argument),
        }
    }
    let words = "reply: library 000A, model 0001";
    refused(Library { event, ..LIBRARY }, words);
}

#[test]
fn a_record_that_is_not_sound_and_never_reset() {
    fn event(chip: &mut [u8], event: u8, argument: u8) -> u32 {
        match sys::chip_read(&mut chip.to_vec(), 0) {
            10 if [event, argument] == [14, 0] => 10,
            _ => sys::chip_event(chip, event, argument),
        }
    }
    let words = "reply: library 000A, model 0000";
    refused(Library { event, ..LIBRARY }, words);
}

#[test]
fn a_stray_status_that_stays() {
    fn read(chip: &mut [u8], register: u8) -> u32 {
        let status = chip.get(3).copied();
        let reply = sys::chip_read(chip, register);
        if let (0xF800, 0, Some(status)) = (reply, register, status) {
            chip[3] = status;
        }
        reply
    }
    refused(Library { read, ..LIBRARY }, "chip, byte 3: library");
}

/// Jobs that are wrong.
mod jobs {
    use super::{LIBRARY, Library, refused, sys};

    /// The arguments of a job after its chip.
    macro_rules! wrong_job {
        ($job:ident, |$chip:ident, $out:ident, $report:ident, $run:ident| $body:expr) => {
            #[expect(
                clippy::too_many_arguments,
                reason = "they are those of `perlovasta::sys::chip_job`, one for one"
            )]
            fn $job(
                $chip: &mut [u8],
                kind: u8,
                address: u8,
                n: u8,
                data: &[u8],
                destination: &mut [u8],
                $out: &mut [u8],
                script: &[u8],
                $report: &mut [u8],
            ) -> u8 {
                let mut $run = |chip: &mut [u8], out: &mut [u8], report: &mut [u8]| {
                    sys::chip_job(
                        chip,
                        kind,
                        address,
                        n,
                        data,
                        destination,
                        out,
                        script,
                        report,
                    )
                };
                $body
            }
        };
    }

    #[test]
    fn a_chip_that_is_not_left_as_the_job_leaves_it() {
        wrong_job!(job, |chip, out, report, run| run(
            &mut chip.to_vec(),
            out,
            report
        ));
        refused(Library { job, ..LIBRARY }, "chip, byte");
    }

    #[test]
    fn a_chip_that_is_not_ready_changed() {
        wrong_job!(job, |chip, out, report, run| {
            let answer = run(chip, out, report);
            if let (22, Some(place)) = (answer, chip.get_mut(13)) {
                *place = 0;
            }
            answer
        });
        refused(Library { job, ..LIBRARY }, "chip, byte 13: library 00");
    }

    #[test]
    fn another_answer_than_the_reports() {
        wrong_job!(job, |chip, out, report, run| match run(chip, out, report) {
            23 => 0,
            answer => answer,
        });
        let words = "answer, byte 0: library 00, model 17";
        refused(Library { job, ..LIBRARY }, words);
    }

    #[test]
    fn a_report_where_there_is_no_room() {
        wrong_job!(job, |chip, out, report, run| {
            let answer = run(chip, out, report);
            if let (..12, Some(place)) = (report.len(), report.first_mut()) {
                *place = answer;
            }
            answer
        });
        refused(Library { job, ..LIBRARY }, "report, byte 0: library 15");
    }

    #[test]
    fn not_ready_before_malformed() {
        wrong_job!(job, |chip, out, report, run| {
            let is_off = chip.get(2) == Some(&0);
            match run(chip, out, report) {
                21 if is_off => 22,
                answer => answer,
            }
        });
        let words = "answer, byte 0: library 16, model 15";
        refused(Library { job, ..LIBRARY }, words);
    }

    #[test]
    fn an_out_record_from_before() {
        wrong_job!(job, |chip, out, report, run| run(
            chip,
            &mut out.to_vec(),
            report
        ));
        refused(Library { job, ..LIBRARY }, "out, byte 0: library");
    }
}
