//! Wrong libraries, each of which the comparison has to refuse: the parts of it that can see the
//! fault, with what they say.

use super::compare::compare;
use super::library::{LIBRARY, Library};
use super::tally::Tally;
use super::{any_state, liars, list};
use crate::difference::Difference;
use crate::port::step::Step;
use perlovasta_dock::{STATE_LEN, sys};

/// A part of the comparison, from a seed.
type Part = fn(Library, u64, &mut Tally) -> Result<(), Difference>;

const LISTS: Part = list::run;
const LIARS: Part = liars::run;
const STATES: Part = states;

/// Seeds that each part is tried with.
const SEEDS: u64 = 300;

fn states(library: Library, seed: u64, tally: &mut Tally) -> Result<(), Difference> {
    let longer = usize::from(seed.is_multiple_of(2));
    any_state::run(library, seed, STATE_LEN + longer, tally)
}

/// Asserts that these parts refuse the library, each at times with these words.
#[track_caller]
fn refused(library: Library, by: &[(Part, &str)]) {
    for &(part, words) in by {
        let mut tally = Tally::new();
        let wrong = (0..SEEDS).filter_map(|seed| part(library, seed, &mut tally).err());
        let wrong: Vec<String> = wrong.map(|difference| difference.place).collect();
        assert!(wrong.iter().any(|wrong| wrong.contains(words)), "{wrong:?}");
    }
}

/// A step that is over, as a number.
const fn over(answer: u8, count: u8) -> u32 {
    u32::from_le_bytes([5, answer, count, 0])
}

/// A write of a register, as a number.
const fn write(register: u8, value: u8) -> u32 {
    u32::from_le_bytes([1, register, value, 0])
}

/// A read of a register, as a number.
const fn read(register: u8) -> u32 {
    u32::from_le_bytes([2, register, 0, 0])
}

const PAUSE: u32 = 4;

#[test]
fn the_library_is_right() {
    let compared = compare(LIBRARY, 1, 50_000);
    assert!(compared.is_ok(), "{}", compared.unwrap_err());
}

#[test]
fn bytes_in_another_order() {
    fn take(state: &mut [u8], destination: &mut [u8]) -> u8 {
        let why_not = sys::take(state, destination);
        if why_not == 0 && destination.len() > 1 {
            destination.swap(0, 1);
        }
        why_not
    }
    let library = Library { take, ..LIBRARY };
    refused(library, &[(LISTS, "the driver"), (LIARS, "handed up")]);
}

#[test]
fn bytes_taken_too_early() {
    fn take(state: &mut [u8], destination: &mut [u8]) -> u8 {
        match sys::take(state, destination) {
            27 => 0,
            why_not => why_not,
        }
    }
    let library = Library { take, ..LIBRARY };
    let words = "take gave 0, not 27";
    refused(library, &[(LISTS, words), (LIARS, words), (STATES, words)]);
}

#[test]
fn bytes_taken_twice() {
    fn take(state: &mut [u8], destination: &mut [u8]) -> u8 {
        sys::take(&mut state.to_vec(), destination)
    }
    let library = Library { take, ..LIBRARY };
    let words = "take gave 0, not 21";
    refused(library, &[(LISTS, words), (LIARS, words)]);
    refused(library, &[(STATES, "bytes that were taken")]);
}

#[test]
fn bytes_left_behind() {
    fn take(state: &mut [u8], destination: &mut [u8]) -> u8 {
        let last = state.get(80).copied();
        let why_not = sys::take(state, destination);
        if let (0, Some(last)) = (why_not, last) {
            state[80] = last;
        }
        why_not
    }
    let library = Library { take, ..LIBRARY };
    let words = "bytes that were taken show";
    refused(library, &[(LISTS, words), (LIARS, words)]);
}

#[test]
fn a_job_given_up_because_it_was_not_over() {
    fn take(state: &mut [u8], destination: &mut [u8]) -> u8 {
        let why_not = sys::take(state, destination);
        if why_not == 27 {
            let _over = sys::give_up(state);
        }
        why_not
    }
    let library = Library { take, ..LIBRARY };
    refused(library, &[(STATES, "and no bytes were taken")]);
}

#[test]
fn a_reader_that_did_not_answer_taken_for_done() {
    fn next(state: &mut [u8], value: u8) -> u32 {
        match sys::next(state, value) {
            step if step == over(23, 0) => over(0, 1),
            step => step,
        }
    }
    fn take(state: &mut [u8], destination: &mut [u8]) -> u8 {
        match sys::take(state, destination) {
            23 => 0,
            why_not => why_not,
        }
    }
    let library = Library {
        next,
        take,
        ..LIBRARY
    };
    refused(library, &[(LISTS, "take gave 0"), (LIARS, "answer 0")]);
}

#[test]
fn a_wrong_count() {
    fn next(state: &mut [u8], value: u8) -> u32 {
        let step = sys::next(state, value);
        match Step::from_number(step) {
            Some(Step::Over { answer: 24, count }) => over(24, count.wrapping_sub(1)),
            _ => step,
        }
    }
    let library = Library { next, ..LIBRARY };
    refused(library, &[(LISTS, "the driver"), (LIARS, "answer 24")]);
}

#[test]
fn an_address_byte_without_r() {
    fn next(state: &mut [u8], value: u8) -> u32 {
        let step = sys::next(state, value);
        match Step::from_number(step) {
            Some(Step::Write { register: 1, value }) => write(1, value & !1),
            _ => step,
        }
    }
    refused(Library { next, ..LIBRARY }, &[(LISTS, "the driver")]);
}

#[test]
fn a_look_at_what_came_after_a_wait() {
    fn next(state: &mut [u8], value: u8) -> u32 {
        match sys::next(state, value) {
            // I2CCON is looked at after a wait, and the value is of no read.
            step if step == read(3) && value == 0x5C => over(29, 0),
            step => step,
        }
    }
    let library = Library { next, ..LIBRARY };
    refused(library, &[(LISTS, "29"), (LIARS, "29")]);
}

#[test]
fn i2csta_read_in_place_of_i2ccon() {
    fn next(state: &mut [u8], value: u8) -> u32 {
        match sys::next(state, value) {
            step if step == read(3) => read(0),
            step => step,
        }
    }
    let library = Library { next, ..LIBRARY };
    refused(library, &[(LISTS, "the driver"), (LIARS, "answer")]);
}

#[test]
fn no_rest() {
    fn next(state: &mut [u8], value: u8) -> u32 {
        match sys::next(state, value) {
            3 => write(0, 0),
            step => step,
        }
    }
    let library = Library { next, ..LIBRARY };
    let words = "accesses without a rest";
    refused(library, &[(LISTS, words), (LIARS, words), (STATES, words)]);
}

#[test]
fn no_pause() {
    fn next(state: &mut [u8], value: u8) -> u32 {
        match sys::next(state, value) {
            PAUSE => sys::next(state, value),
            step => step,
        }
    }
    let library = Library { next, ..LIBRARY };
    refused(library, &[(LISTS, "without a pause")]);
}

#[test]
fn no_reset() {
    fn recover(state: &mut [u8], settings: &[u8]) -> u32 {
        let step = sys::recover(state, settings);
        if step != write(0, 5) {
            return step;
        }
        // The pointer, A5h and 5Ah are left out.
        let _ = sys::next(state, 0);
        let _ = sys::next(state, 0);
        sys::next(state, 0)
    }
    let library = Library { recover, ..LIBRARY };
    refused(library, &[(LISTS, "record left by a recovery")]);
}

#[test]
fn wrong_settings_taken() {
    fn recover(state: &mut [u8], settings: &[u8]) -> u32 {
        match sys::recover(state, settings) {
            step if step == over(21, 0) => sys::recover(state, &[]),
            step => step,
        }
    }
    let library = Library { recover, ..LIBRARY };
    refused(library, &[(LISTS, "wrong settings")]);
}

#[test]
fn a_job_without_the_recovery_it_needs() {
    fn start(state: &mut [u8], kind: u8, address: u8, n: u8, data: &[u8]) -> u32 {
        let step = sys::start(state, kind, address, n, data);
        if step != over(22, 0) {
            return step;
        }
        let _ = sys::recover(state, &[]);
        while sys::next(state, 0) != over(0, 0) {}
        sys::start(state, kind, address, n, data)
    }
    let library = Library { start, ..LIBRARY };
    let words = "given up, then a job";
    let lists = "an access by a job that is refused at once";
    refused(library, &[(LISTS, lists), (LIARS, words), (STATES, words)]);
}

#[test]
fn old_contents_that_show() {
    fn start(state: &mut [u8], kind: u8, address: u8, n: u8, data: &[u8]) -> u32 {
        let old = state.last().copied().unwrap_or(0);
        match sys::start(state, kind, address, n, data) {
            // It pauses first, which shows in no answer.
            step if step == read(3) && old != 0 => PAUSE,
            step => step,
        }
    }
    let library = Library { start, ..LIBRARY };
    let words = "old contents of the state show";
    refused(library, &[(LIARS, words), (STATES, words)]);
}

#[test]
fn not_given_up() {
    fn give_up(state: &mut [u8]) -> u32 {
        match sys::give_up(state) {
            step if step == over(27, 0) => over(0, 0),
            step => step,
        }
    }
    let library = Library { give_up, ..LIBRARY };
    let words = "given up";
    refused(library, &[(LISTS, words), (LIARS, words), (STATES, words)]);
}

#[test]
fn a_byte_beyond_the_state() {
    fn next(state: &mut [u8], value: u8) -> u32 {
        let step = sys::next(state, value);
        if let Some(byte) = state.get_mut(STATE_LEN) {
            *byte = byte.wrapping_add(1);
        }
        step
    }
    let library = Library { next, ..LIBRARY };
    refused(library, &[(STATES, "beyond the 148")]);
}

#[test]
fn no_step() {
    fn give_up(_: &mut [u8]) -> u32 {
        0
    }
    let library = Library { give_up, ..LIBRARY };
    let words = "is no step";
    refused(library, &[(LISTS, words), (LIARS, words), (STATES, words)]);
}
