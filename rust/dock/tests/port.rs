//! The port by hand: every step of a read, refusals, giving up, and recovery.

use perlovasta_dock::{Address, Answer, Bytes, Port, Register, Setting, Step};
use std::error::Error;

const WAIT: Step = Step::Wait;
const PAUSE: Step = Step::Pause;

/// Handed on where no register was read.
const ANY: u8 = 0xEE;

/// What the registers read in a read of three bytes from 50h.
const READ: [u8; 13] = [
    0x40, 0xF8, 0x68, 0x08, 0x48, 0x40, 0x49, 0x58, 0x5C, 0x5D, 0x5E, 0x49, 0x40,
];

fn device() -> Address {
    Address::new(0x50).expect("a device's address")
}

const fn write(register: usize, value: u8) -> Step {
    let register = Register::ALL[register];
    Step::Write { register, value }
}

const fn read(register: usize) -> Step {
    let register = Register::ALL[register];
    Step::Read { register }
}

const fn over(answer: Answer, count: u8) -> Step {
    Step::Over { answer, count }
}

const DONE: Step = over(Answer::Done, 0);
const MALFORMED: Step = over(Answer::Malformed, 0);
const NOT_READY: Step = over(Answer::NotReady, 0);
const GIVEN_UP: Step = over(Answer::Unfinished, 0);

/// Goes on from this step until it is over or the values end: each read gives the next value. All
/// steps.
fn steps(port: &mut Port, first: Step, values: &[u8]) -> Vec<Step> {
    let mut values = values.iter();
    let mut steps = vec![first];
    loop {
        let value = match steps[steps.len() - 1] {
            Step::Over { .. } => return steps,
            Step::Read { .. } => match values.next() {
                Some(&value) => value,
                None => return steps,
            },
            _ => ANY,
        };
        steps.push(port.next(value));
    }
}

/// Why the port has no bytes to take.
#[track_caller]
fn no_bytes(port: &mut Port) -> Answer {
    port.take().expect_err("there are no bytes").answer()
}

/// A port that was recovered.
fn recovered() -> Port {
    let mut port = Port::new();
    let first = port.start_recover(&[]);
    let steps = steps(&mut port, first, &[]);
    assert_eq!(steps.last(), Some(&DONE));
    port
}

/// A port that has read three bytes.
fn with_three_bytes() -> Port {
    let mut port = recovered();
    let first = port.start_read(device(), 3);
    let steps = steps(&mut port, first, &READ);
    assert_eq!(steps.last(), Some(&over(Answer::Done, 3)));
    port
}

#[test]
fn every_step_of_a_read() {
    let mut port = recovered();
    let first = port.start_read(device(), 3);
    let expected = [
        // Ready? I2CCOUNT with LB and 3, then a START.
        &[
            read(3),
            read(0),
            write(0, 0x00),
            write(2, 0x83),
            write(3, 0x60),
            WAIT,
        ][..],
        // 08h: the address byte.
        &[read(3), read(0), write(1, 0xA1), write(3, 0x40), WAIT],
        // 40h: three bytes in.
        &[read(3), read(0), write(3, 0x41), WAIT],
        // 58h: they are read, the chip is looked at once more, then a STOP.
        &[
            read(3),
            read(0),
            read(1),
            read(1),
            read(1),
            read(3),
            write(3, 0x50),
            WAIT,
        ],
        &[read(3), over(Answer::Done, 3)],
    ];
    assert_eq!(steps(&mut port, first, &READ), expected.concat());
    let badge = port.take().expect("it is done");
    assert_eq!(*badge, [0x5C, 0x5D, 0x5E]);
}

#[test]
fn every_step_of_a_write() {
    let mut port = recovered();
    let first = port.start_write(device(), &[0x11, 0x22]);
    // The second byte is not acknowledged: the moved count is read.
    let values = [0x40, 0xF8, 0x68, 0x08, 0x48, 0x18, 0x49, 0x30, 2, 0x40];
    let expected = [
        &[
            read(3),
            read(0),
            write(0, 0x00),
            write(2, 0x02),
            write(3, 0x60),
            WAIT,
        ][..],
        &[read(3), read(0), write(1, 0xA0), write(3, 0x40), WAIT],
        &[
            read(3),
            read(0),
            write(1, 0x11),
            write(1, 0x22),
            write(3, 0x41),
            WAIT,
        ],
        &[
            read(3),
            read(0),
            write(0, 0x07),
            read(2),
            write(0, 0x00),
            write(3, 0x50),
            WAIT,
        ],
        &[read(3), over(Answer::DataNacked, 2)],
    ];
    assert_eq!(steps(&mut port, first, &values), expected.concat());
    assert_eq!(no_bytes(&mut port), Answer::DataNacked);
}

#[test]
fn every_step_of_a_recovery() {
    let mut port = Port::new();
    let first = port.start_recover(&[Setting::OwnAddress(0x22), Setting::TimeOut(0xFF)]);
    let expected = [
        &[write(0, 0x05), write(2, 0xA5), write(2, 0x5A)][..],
        &[
            write(0, 0x01),
            write(2, 0x22),
            write(0, 0x04),
            write(2, 0xFF),
        ],
        &[write(3, 0x40), PAUSE, DONE],
    ];
    assert_eq!(steps(&mut port, first, &[]), expected.concat());
    assert_eq!(no_bytes(&mut port), Answer::Malformed);
}

#[test]
fn bytes_are_given_once() {
    let mut port = with_three_bytes();
    let badge = port.take().expect("it is done");
    assert_eq!(*badge, [0x5C, 0x5D, 0x5E]);
    assert_eq!(no_bytes(&mut port), Answer::Malformed);
    assert_eq!(port.next(0), MALFORMED);
    // The port is ready as before.
    let first = port.start_read(device(), 3);
    assert_eq!(
        steps(&mut port, first, &READ).last(),
        Some(&over(Answer::Done, 3))
    );
    assert!(port.take().is_ok());
}

#[test]
fn what_is_over_stays_so() {
    let mut port = with_three_bytes();
    assert_eq!(port.next(0), over(Answer::Done, 3));
    assert_eq!(port.next(0x58), over(Answer::Done, 3));
    assert!(port.take().is_ok());
}

#[test]
fn no_old_bytes_after_a_wrong_job() {
    for n in [0, 69, 255, 256, 257, 256 + 68, 70_000] {
        let mut port = with_three_bytes();
        assert_eq!(port.start_read(device(), n), MALFORMED);
        assert_eq!(no_bytes(&mut port), Answer::Malformed);
        // The port is ready as before.
        assert_eq!(port.start_read(device(), 3), read(3));
        assert_eq!(no_bytes(&mut port), Answer::Unfinished);
    }
}

#[test]
fn no_old_bytes_where_the_chip_is_not_ready() {
    // Not enabled; SI, STO, STA; a status.
    for values in [&[0x00][..], &[0x48], &[0x50], &[0x60], &[0x40, 0x08]] {
        let mut port = with_three_bytes();
        let first = port.start_read(device(), 3);
        let steps = steps(&mut port, first, values);
        assert!(steps.iter().all(|step| !matches!(step, Step::Write { .. })));
        assert_eq!(steps.last(), Some(&NOT_READY));
        assert_eq!(no_bytes(&mut port), Answer::NotReady);
    }
}

#[test]
fn too_many_data_bytes() {
    for length in [0, 69, 255, 256, 257, 256 + 68, 512 + 3, 70_000] {
        let mut port = recovered();
        assert_eq!(port.start_write(device(), &vec![0x5C; length]), MALFORMED);
    }
    assert_eq!(recovered().start_write(device(), &[0x5C; 68]), read(3));
}

#[test]
fn too_many_settings() {
    let setting = Setting::TimeOut(0xFF);
    for length in [7, 8, 128, 134] {
        let settings = vec![setting; length];
        assert_eq!(Port::new().start_recover(&settings), MALFORMED);
    }
    assert_eq!(Port::new().start_recover(&[setting; 6]), write(0, 0x05));
}

#[test]
fn every_setting() {
    for (pointer, setting) in [
        (0x00, Setting::Count(0x5C)),
        (0x01, Setting::OwnAddress(0x5C)),
        (0x02, Setting::ClockLow(0x5C)),
        (0x03, Setting::ClockHigh(0x5C)),
        (0x04, Setting::TimeOut(0x5C)),
        (0x06, Setting::BusMode(0x5C)),
    ] {
        let mut port = Port::new();
        let first = port.start_recover(&[setting]);
        let steps = steps(&mut port, first, &[]);
        assert_eq!(steps[3..5], [write(0, pointer), write(2, 0x5C)]);
        assert_eq!(steps.last(), Some(&DONE));
    }
}

#[test]
fn a_new_port_wants_a_recovery() {
    let mut port = Port::new();
    assert_eq!(no_bytes(&mut port), Answer::NotReady);
    assert_eq!(port.next(0), NOT_READY);
    assert_eq!(port.start_read(device(), 3), NOT_READY);
    assert_eq!(port.start_write(device(), &[1]), NOT_READY);
    assert_eq!(port.start_read(device(), 0), MALFORMED);
    assert_eq!(no_bytes(&mut port), Answer::Malformed);
}

#[test]
fn given_up_at_every_step() {
    for values in 0..READ.len() {
        let mut port = recovered();
        let first = port.start_read(device(), 3);
        let met = steps(&mut port, first, &READ[..values]);
        assert_eq!(met.last(), Some(&read_at(values)));
        assert_eq!(port.give_up(), GIVEN_UP);
        assert_eq!(no_bytes(&mut port), Answer::Unfinished);
        assert_eq!(port.next(0x40), GIVEN_UP);
        assert_eq!(port.start_read(device(), 3), NOT_READY);
        assert_eq!(no_bytes(&mut port), Answer::NotReady);

        let first = port.start_recover(&[]);
        assert_eq!(steps(&mut port, first, &[]).last(), Some(&DONE));
        let first = port.start_read(device(), 3);
        assert_eq!(
            steps(&mut port, first, &READ).last(),
            Some(&over(Answer::Done, 3))
        );
    }
}

/// The read that gives the value of this number in a read of three bytes.
fn read_at(value: usize) -> Step {
    match value {
        8..=10 => read(1),
        value if value % 2 == 1 && value < 8 => read(0),
        _ => read(3),
    }
}

#[test]
fn a_job_while_one_is_under_way() {
    let mut port = recovered();
    assert_eq!(port.start_read(device(), 3), read(3));
    assert_eq!(port.start_read(device(), 3), NOT_READY);
    assert_eq!(port.start_read(device(), 3), NOT_READY);
    assert_eq!(no_bytes(&mut port), Answer::NotReady);
}

#[test]
fn a_recovery_that_is_not_run_to_its_end() {
    let mut port = with_three_bytes();
    assert_eq!(port.start_recover(&[]), write(0, 0x05));
    assert_eq!(no_bytes(&mut port), Answer::Unfinished);
    assert_eq!(port.next(0), write(2, 0xA5));
    assert_eq!(port.start_read(device(), 3), NOT_READY);
    assert_eq!(port.start_recover(&[]), write(0, 0x05));
    assert_eq!(port.give_up(), GIVEN_UP);
    assert_eq!(port.start_read(device(), 3), NOT_READY);
}

/// As `?` in a function whose errors are of any type.
fn taken(port: &mut Port) -> Result<Bytes, Box<dyn Error>> {
    Ok(port.take()?)
}

#[test]
fn why_nothing_is_taken_is_told() {
    let mut port = with_three_bytes();
    let badge = taken(&mut port).expect("it is done");
    assert_eq!(badge, [0x5C, 0x5D, 0x5E]);
    let twice = "no bytes to take: the job was wrong or no read, or they were taken before";
    assert_eq!(taken(&mut port).unwrap_err().to_string(), twice);
    assert_eq!(port.start_read(device(), 3), read(3));
    let amid = "no bytes to take: it is not over, or was given up";
    assert_eq!(taken(&mut port).unwrap_err().to_string(), amid);
    let fresh = "a recovery comes first, or the chip is not ready";
    assert_eq!(taken(&mut Port::new()).unwrap_err().to_string(), fresh);
}

#[test]
fn nothing_of_the_state_is_shown() {
    assert_eq!(format!("{:?}", with_three_bytes()), "Port { .. }");
}
