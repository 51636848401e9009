//! The exchanges of one job with a chip, and the shape that they must have for its answer.

use super::{Checked, NO_STATUS, SI, STATUS};
use crate::group::{CONTROL, DATA, INDIRECT};
use crate::steer::control::{ENSIO, STA, STO};

/// I2CCON with ENSIO and STO: own STOP is asked for.
const STOP: u8 = 0x50;

/// One exchange.
#[derive(Clone, Copy, Debug, PartialEq, Eq)]
pub enum Exchange {
    /// A register was read, and gave a value.
    Read(u8, u8),
    /// A register was written with a value.
    Write(u8, u8),
    /// The port waited.
    Wait,
    /// The port paused.
    Pause,
}

use Exchange::{Read, Wait, Write};

/// Whether the exchanges of a job bear its answer out, as the header and document 01 say what each
/// answer comes after.
pub fn check(log: &[Exchange], answer: u8, count: u8, n: u8) -> Checked<()> {
    let begun = log
        .iter()
        .position(|exchange| matches!(exchange, Write(..)));
    let (first_looks, rest) = log.split_at(begun.unwrap_or(log.len()));
    let fits = match answer {
        22 => count == 0 && rest.is_empty() && !are_idle(first_looks),
        _ if !are_idle(first_looks) || !look_in_order(rest) => false,
        0 => ends_with_own_stop(log) && count == n,
        23 => ends_with_own_stop(log) && count == 0,
        24 => ends_with_own_stop(log) && last_moved(log) == Some(count),
        25 => count == 0 && log.ends_with(&[Read(STATUS, 0x38), Write(CONTROL, 0x40)]),
        26 => count == 0 && matches!(log, [.., Read(STATUS, 0x00 | 0x70 | 0x78)]),
        29 => count == 0 && shows_reset(log),
        _ => false,
    };
    if fits {
        return Ok(());
    }
    Err(format!("answer {answer} count {count} after {}", text(log)))
}

/// Whether both registers were looked at and let a job begin: I2CCON enabled, STA, STO and SI 0,
/// I2CSTA F8h.
fn are_idle(looks: &[Exchange]) -> bool {
    let is_idle = |look: &Exchange| match look {
        Read(CONTROL, value) => value & (ENSIO | STA | STO | SI) == ENSIO,
        Read(STATUS, value) => *value == NO_STATUS,
        _ => false,
    };
    let looked_at = |register| {
        looks
            .iter()
            .any(|look| matches!(look, Read(r, _) if *r == register))
    };
    looks.iter().all(is_idle) && looked_at(CONTROL) && looked_at(STATUS)
}

/// Whether the last look shows a reset: ENSIO 0, or amid the work at a status SI 0.
fn shows_reset(log: &[Exchange]) -> bool {
    match log {
        [.., Read(DATA, _), Read(CONTROL, value)] => value & (ENSIO | SI) != ENSIO | SI,
        [.., Read(CONTROL, value)] => value & ENSIO == 0,
        _ => false,
    }
}

/// Whether I2CSTA was only read where I2CCON just gave SI 1, and I2CCON only after a wait or after
/// bytes were read back.
fn look_in_order(log: &[Exchange]) -> bool {
    log.windows(2).all(|pair| match pair[1] {
        Read(STATUS, _) => matches!(pair[0], Read(CONTROL, value) if value & SI != 0),
        Read(CONTROL, _) => matches!(pair[0], Wait | Read(DATA, _)),
        _ => true,
    })
}

/// Whether own STOP was asked for and then seen, with nothing between but waits and looks.
fn ends_with_own_stop(log: &[Exchange]) -> bool {
    let (_, looks) = at_stop(log);
    let only_looks = looks
        .iter()
        .all(|exchange| matches!(exchange, Wait | Read(STATUS | CONTROL, _)));
    let is_seen =
        matches!(looks, [.., Read(CONTROL, value)] if value & (ENSIO | STO | SI) == ENSIO);
    only_looks && is_seen
}

/// What came before own STOP was asked for, and what after it. Without it, all is before.
fn at_stop(log: &[Exchange]) -> (&[Exchange], &[Exchange]) {
    let is_stop = |exchange: &Exchange| *exchange == Write(CONTROL, STOP);
    match log.iter().rposition(is_stop) {
        Some(at) => (&log[..at], &log[at + 1..]),
        None => (log, &[]),
    }
}

/// What the moved count was read as.
fn last_moved(log: &[Exchange]) -> Option<u8> {
    log.iter().rev().find_map(|exchange| match exchange {
        Read(INDIRECT, value) => Some(*value),
        _ => None,
    })
}

/// Whether a finished read of so many bytes handed up what it read: I2CSTA gave 58h, I2CDAT then as
/// many bytes as are handed up, and these, I2CCON then still ENSIO and SI 1; then own STOP was asked
/// for and seen.
pub fn check_read(log: &[Exchange], handed: &[u8]) -> Checked<()> {
    let (before, _) = at_stop(log);
    let before = match before {
        [before @ .., Read(CONTROL, value)] if value & (ENSIO | SI) == ENSIO | SI => before,
        _ => &[],
    };
    let split = before.len().checked_sub(handed.len());
    let fits = split.is_some_and(|split| {
        let (before, data) = before.split_at(split);
        let read = handed.iter().map(|&byte| Read(DATA, byte));
        before.ends_with(&[Read(STATUS, 0x58)]) && data.iter().copied().eq(read)
    });
    if fits && ends_with_own_stop(log) {
        return Ok(());
    }
    Err(format!("handed up {handed:02X?} after {}", text(log)))
}

/// The exchanges in short.
fn text(log: &[Exchange]) -> String {
    let words = log.iter().map(|exchange| match exchange {
        Read(register, value) => format!("R{register}={value:02X} "),
        Write(register, value) => format!("W{register}={value:02X} "),
        Wait => "wait ".to_owned(),
        Exchange::Pause => "pause ".to_owned(),
    });
    words.collect()
}

#[cfg(test)]
mod tests {
    use super::Exchange::{Read, Wait, Write};
    use super::{Exchange, check, check_read};

    /// A job begins.
    const BEGUN: [Exchange; 3] = [Read(3, 0x40), Read(0, 0xF8), Write(3, 0x60)];
    /// From the data on a read of two bytes is done.
    const DONE: [Exchange; 10] = [
        Write(3, 0x41),
        Wait,
        Read(3, 0x49),
        Read(0, 0x58),
        Read(1, 7),
        Read(1, 9),
        Read(3, 0x49),
        Write(3, 0x50),
        Wait,
        Read(3, 0x40),
    ];

    /// The finished read with one exchange changed.
    fn with(at: usize, exchange: Exchange) -> [Exchange; 10] {
        let mut log = DONE;
        log[at] = exchange;
        log
    }

    /// Whether a job that begins so and goes on so has this answer and count, for an n of 2.
    fn bears_out(log: &[Exchange], answer: u8, count: u8) -> bool {
        check(&[&BEGUN, log].concat(), answer, count, 2).is_ok()
    }

    #[test]
    fn a_finished_read() {
        assert!(bears_out(&DONE, 0, 2) && check_read(&DONE, &[7, 9]).is_ok());
        for handed in [&[][..], &[9], &[7], &[9, 7], &[7, 9, 0]] {
            assert!(check_read(&DONE, handed).is_err());
        }
    }

    #[test]
    fn no_finished_read() {
        for log in [
            with(3, Read(0, 0x48)),
            with(4, Read(2, 7)),
            with(6, Read(3, 0x41)),
            with(6, Read(3, 0x00)),
            with(6, Wait),
            with(7, Write(3, 0x40)),
            with(8, Read(1, 0)),
            with(9, Read(3, 0x50)),
            with(9, Read(3, 0x48)),
            with(9, Read(3, 0x00)),
            with(9, Wait),
        ] {
            assert!(check_read(&log, &[7, 9]).is_err());
        }
    }

    #[test]
    fn answers_have_their_cause() {
        assert!(!bears_out(&DONE, 0, 1));
        assert!(!bears_out(&DONE[..8], 0, 2));
        let look = [Wait, Read(3, 0x48)];
        let lost = [look[0], look[1], Read(0, 0x38), Write(3, 0x40)];
        assert!(bears_out(&lost, 25, 0) && !bears_out(&lost[..3], 25, 0));
        let fault = [look[0], look[1], Read(0, 0x70)];
        assert!(bears_out(&fault, 26, 0) && !bears_out(&look, 26, 0));
        assert!(bears_out(&[Wait, Read(3, 0x3F)], 29, 0) && !bears_out(&look, 29, 0));
        let cut = [&DONE[..6], &[Read(3, 0x41)]].concat();
        assert!(bears_out(&cut, 29, 0) && !bears_out(&DONE[..7], 29, 0));
        let nacked = [Read(2, 4), Write(0, 0), Write(3, 0x50), Wait, Read(3, 0x40)];
        assert!(bears_out(&nacked, 24, 4) && !bears_out(&nacked, 24, 2));
    }

    #[test]
    fn what_lets_a_job_begin() {
        assert!(!bears_out(&DONE, 22, 0));
        for control in [0x00, 0x48, 0x50, 0x60, 0xBF] {
            assert!(check(&[Read(3, control)], 22, 0, 2).is_ok());
            let begun = [Read(3, control), Read(0, 0xF8)];
            assert!(check(&[&begun, &DONE[..]].concat(), 0, 2, 2).is_err());
        }
        assert!(check(&[Read(3, 0x40), Read(0, 0x08)], 22, 0, 2).is_ok());
        assert!(check(&[Read(3, 0x40), Read(0, 0xF8)], 22, 0, 2).is_err());
        assert!(check(&[&[Read(3, 0x40)], &DONE[..]].concat(), 0, 2, 2).is_err());
    }

    #[test]
    fn looks_in_their_order() {
        assert!(!bears_out(&with(2, Read(3, 0x41)), 0, 2));
        assert!(!bears_out(&with(1, Read(3, 0x49)), 0, 2));
        assert!(!bears_out(&with(8, Read(0, 0xF8)), 0, 2));
    }
}
