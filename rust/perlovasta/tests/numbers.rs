//! The functions of `sys`: what is lent and too short, too long or of another kind, and that
//! nothing is written but what is said.

use perlovasta::{CHIP_LEN, ENTRY_LEN, OUT_LEN, sys};

/// In all that is lent before a call, to see what was written.
const OLD: u8 = 0xEE;
/// Of a job that is itself wrong.
const MALFORMED: [u8; 12] = [21, 0, 0, 0, 0, 0, 0, 0, 0, 0, 0, 0];
/// A read of two bytes.
const READ: [u8; 10] = [1, 0, 6, 0, 7, 0x5C, 7, 0x5D, 4, 0];

/// Whether the slice begins with these bytes and its rest is as it was.
fn begins(slice: &[u8], bytes: &[u8]) -> bool {
    slice.starts_with(bytes) && slice[bytes.len()..].iter().all(|&byte| byte == OLD)
}

/// What a job is lent, of these lengths.
struct Lent {
    destination: Vec<u8>,
    out: Vec<u8>,
    report: Vec<u8>,
}

impl Lent {
    fn new(destination: usize, out: usize, report: usize) -> Self {
        Lent {
            destination: vec![OLD; destination],
            out: vec![OLD; out],
            report: vec![OLD; report],
        }
    }

    fn job(&mut self, kind: u8, address: u8, n: u8, data: &[u8], script: &[u8]) -> u8 {
        let Lent {
            destination,
            out,
            report,
        } = self;
        sys::job(kind, address, n, data, destination, out, script, report)
    }

    /// Whether nothing was written but this report.
    fn holds(&self, report: &[u8]) -> bool {
        begins(&self.destination, &[]) && begins(&self.out, &[]) && begins(&self.report, report)
    }
}

/// A chip that is fresh, or that is enabled.
fn chip(control: u8) -> [u8; CHIP_LEN] {
    let mut chip = [OLD; CHIP_LEN];
    assert_eq!(sys::chip_fresh(&mut chip), 0);
    assert_eq!(sys::chip_write(&mut chip, 3, control), 0);
    chip
}

#[test]
fn lengths_at_the_limit() {
    for destination in [0, 1, 2, 3] {
        for out in [0, 68, 69, 70] {
            let mut lent = Lent::new(destination, out, 13);
            let answer = lent.job(1, 0x50, 2, &[], &READ);
            if destination >= 2 && out >= 69 {
                assert_eq!(answer, 0);
                assert!(begins(&lent.destination, &[0x5C, 0x5D]));
                assert!(begins(&lent.out, &[0xA1]));
                assert!(begins(&lent.report, &[0, 0, 2, 1, 5, 0, 0, 0, 0, 0, 0, 0]));
            } else {
                assert_eq!(answer, 21);
                assert!(lent.holds(&MALFORMED));
            }
        }
    }
}

#[test]
fn wrong_jobs() {
    let wrong = [
        (1, 0x07, 1, &[][..], &READ[..]),
        (1, 0x78, 1, &[], &READ),
        (1, 0x50, 0, &[], &READ),
        (1, 0x50, 69, &[], &READ),
        (0, 0x50, 2, &[9], &READ),
        (1, 0x50, 1, &[], &READ[..9]),
        (2, 0x50, 1, &[9], &READ),
        (255, 0x50, 1, &[9], &READ),
    ];
    for (kind, address, n, data, script) in wrong {
        let mut lent = Lent::new(70, OUT_LEN, 13);
        assert_eq!(lent.job(kind, address, n, data, script), 21);
        assert!(lent.holds(&MALFORMED), "{kind} {address} {n}");
    }
}

#[test]
fn too_short_a_report() {
    for length in 0..=13 {
        let mut lent = Lent::new(2, OUT_LEN, length);
        let answer = lent.job(1, 0x50, 2, &[], &READ);
        assert_eq!(answer, if length >= 12 { 0 } else { 21 });
        assert_eq!(lent.holds(&[]), length < 12);
    }
}

#[test]
fn data_may_be_the_script() {
    let script = [1, 0, 6, 0, 6, 0, 6, 0, 4, 0];
    let mut lent = Lent::new(0, OUT_LEN, 12);
    assert_eq!(lent.job(0, 0x50, 2, &script, &script), 0);
    assert!(begins(&lent.out, &[0xA0, 0x01, 0x00]));

    let mut lent = Lent::new(0, OUT_LEN, 12);
    let (destination, out) = (&mut lent.destination, &mut lent.out);
    let (report, chip) = (&mut lent.report, &mut chip(0x40));
    let answer = sys::chip_job(chip, 0, 0x50, 2, &script, destination, out, &script, report);
    assert_eq!(answer, 0);
    assert!(begins(&lent.out, &[0xA0, 0x01, 0x00]));
}

#[test]
fn traces_that_are_not_run() {
    let two = [0, 0, 0, 1, 3, 0x40];
    for length in 0..16 {
        let mut log = vec![OLD; length];
        assert_eq!(sys::trace(&two, &mut log), 21);
        assert!(begins(&log, &[]));
    }
    for length in [1, 2, 4, 5, 7] {
        let mut log = [OLD; 3 * ENTRY_LEN];
        assert_eq!(sys::trace(&[0; 7][..length], &mut log), 21);
        assert!(begins(&log, &[]));
    }
    for kind in 3..=u8::MAX {
        let mut log = [OLD; 2 * ENTRY_LEN];
        assert_eq!(sys::trace(&[0, 0, 0, kind, 0, 0], &mut log), 21);
        assert!(begins(&log, &[]));
    }
}

#[test]
fn a_longer_log_keeps_its_rest() {
    let mut log = [OLD; ENTRY_LEN + 5];
    assert_eq!(sys::trace(&[0, 0, 0], &mut log), 0);
    assert!(begins(&log, &[0, 0xF8, 0xF8, 0, 0, 0, 0, 0]));
    assert_eq!(sys::trace(&[], &mut []), 0);
}

#[test]
fn a_chip_of_any_length() {
    for length in 0..CHIP_LEN {
        let mut chip = vec![OLD; length];
        assert_eq!(sys::chip_fresh(&mut chip), 10);
        assert_eq!(sys::chip_read(&mut chip, 0), 10);
        assert_eq!(sys::chip_write(&mut chip, 9, 0), 10);
        assert_eq!(sys::chip_event(&mut chip, 14, 0), 10);
        assert!(begins(&chip, &[]));
    }
    for longer in 0..40 {
        let mut long = vec![OLD; CHIP_LEN + longer];
        assert_eq!(sys::chip_fresh(&mut long), 0);
        assert_eq!(sys::chip_write(&mut long, 3, 0x40), 0);
        assert_eq!(sys::chip_read(&mut long, 0), 0xF800);
        assert!(begins(&long, &chip(0x40)));
    }
}

#[test]
fn jobs_on_bytes_that_are_not_ready() {
    let fresh = chip(0);
    for before in [fresh, [OLD; CHIP_LEN]] {
        for (n, expected) in [(2, 22), (0, 21)] {
            let (mut chip, mut lent) = (before, Lent::new(2, OUT_LEN, 13));
            let (destination, out) = (&mut lent.destination, &mut lent.out);
            let report = &mut lent.report;
            let answer = sys::chip_job(&mut chip, 1, 0x50, n, &[], destination, out, &READ, report);
            assert_eq!(answer, expected);
            assert_eq!(chip, before);
            assert!(lent.holds(&[expected, 0, 0, 0, 0, 0, 0, 0, 0, 0, 0, 0]));
        }
    }
}
