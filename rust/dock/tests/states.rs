//! The functions of `sys`: states that are too short or too long, and that a port is one of 148.

#[path = "../../random_bytes.rs"]
mod random_bytes;

use perlovasta_dock::{Address, Answer, Port, Register, STATE_LEN, Setting, Step, TakeError, sys};
use random_bytes::RandomBytes;

/// Over with this answer, and count 0.
fn over(answer: u8) -> Option<Step> {
    let answer = Answer::from_number(answer).expect("an answer");
    Some(Step::Over { answer, count: 0 })
}

#[test]
fn short_states() {
    for length in 0..STATE_LEN {
        let mut state = vec![0x55; length];
        let steps = [
            sys::start(&mut state, 1, 0x50, 3, &[]),
            sys::start(&mut state, 0, 0x50, 1, &[9]),
            sys::recover(&mut state, &[]),
            sys::next(&mut state, 0),
            sys::give_up(&mut state),
        ];
        assert_eq!(steps.map(Step::from_number), [over(21); 5]);
        let mut destination = [0xEE; 68];
        assert_eq!(sys::take(&mut state, &mut destination), 21);
        assert_eq!(destination, [0xEE; 68]);
        assert!(state.iter().all(|&byte| byte == 0x55));
    }
}

#[test]
fn the_rest_of_a_long_state_stays() {
    for length in STATE_LEN..STATE_LEN + 40 {
        let mut state = vec![0x55; length];
        assert_eq!(Step::from_number(sys::next(&mut state, 0)), over(22));
        let mut step = sys::recover(&mut state, &[4, 0xFF]);
        while Step::from_number(step) != over(0) {
            step = sys::next(&mut state, 0x55);
        }
        let begun = Step::from_number(sys::start(&mut state, 0, 0x50, 1, &[9]));
        let register = Register::Control;
        assert_eq!(begun, Some(Step::Read { register }));
        assert!(state[STATE_LEN..].iter().all(|&byte| byte == 0x55));
    }
}

#[test]
fn wrong_kinds_data_and_settings() {
    let mut state = [0; STATE_LEN];
    for kind in 2..=u8::MAX {
        let step = sys::start(&mut state, kind, 0x50, 1, &[9]);
        assert_eq!(Step::from_number(step), over(21));
    }
    for length in 0..68 {
        let step = sys::start(&mut state, 0, 0x50, length + 1, &vec![9; length.into()]);
        assert_eq!(Step::from_number(step), over(21));
    }
    for length in [1, 3, 11, 13] {
        let step = sys::recover(&mut state, &vec![0; length]);
        assert_eq!(Step::from_number(step), over(21));
    }
}

/// A value for the next step after this one: often what a register has in a job.
fn value(random: &mut RandomBytes, after: Step) -> u8 {
    let often: &[u8] = match after {
        Step::Read {
            register: Register::Status,
        } => &[0xF8, 0x08, 0x18, 0x28, 0x40, 0x58],
        Step::Read {
            register: Register::Control,
        } => &[0x40, 0x48, 0x49],
        _ => &[],
    };
    if often.is_empty() || random.byte() < 4 {
        return random.byte();
    }
    random.one_of(often)
}

/// A random setting.
fn setting(random: &mut RandomBytes) -> Setting {
    let of = random.one_of(&[
        Setting::Count,
        Setting::OwnAddress,
        Setting::ClockLow,
        Setting::ClockHigh,
        Setting::TimeOut,
        Setting::BusMode,
    ]);
    of(random.byte())
}

/// One random call of a port that is at this step, and the same of a state.
fn call(random: &mut RandomBytes, at: Step, port: &mut Port, state: &mut [u8]) -> (Step, u32) {
    let (address, n) = (8 + random.byte() % 112, random.byte() % 80);
    let device = Address::new(address).expect("a device's address");
    match (random.byte(), at) {
        (0, _) => (port.give_up(), sys::give_up(state)),
        (1, _) | (..64, Step::Over { .. }) => {
            let settings: Vec<Setting> = (0..n % 8).map(|_| setting(random)).collect();
            let flat: Vec<u8> = settings.iter().flat_map(|setting| setting.pair()).collect();
            (port.start_recover(&settings), sys::recover(state, &flat))
        }
        (2, _) | (..160, Step::Over { .. }) => {
            let step = port.start_read(device, n.into());
            (step, sys::start(state, 1, address, n, &[]))
        }
        (3, _) | (.., Step::Over { .. }) => {
            let data = vec![random.byte(); n.into()];
            let step = port.start_write(device, &data);
            (step, sys::start(state, 0, address, n, &data))
        }
        _ => {
            let value = value(random, at);
            (port.next(value), sys::next(state, value))
        }
    }
}

/// The port's bytes are those that the state gives, and once.
fn take(port: &mut Port, state: &mut [u8], n: u8) -> bool {
    let mut bytes = [0xEE; 68];
    let why_not = sys::take(state, &mut bytes);
    let taken = port.take().map_err(|error| error.answer().number());
    if why_not != 0 {
        assert_eq!(taken, Err(why_not));
        return false;
    }
    assert_eq!(taken.as_deref(), Ok(&bytes[..n.into()]));
    assert!(bytes[n.into()..].iter().all(|&byte| byte == 0xEE));
    let again = port.take().map_err(TakeError::answer);
    assert_eq!(again, Err(Answer::Malformed));
    assert_eq!(sys::take(state, &mut bytes), 21);
    assert_eq!(Step::from_number(sys::next(state, 0)), over(21));
    true
}

#[test]
fn a_port_is_a_state() {
    let mut random = RandomBytes(9665);
    let (mut port, mut state) = (Port::new(), [0; STATE_LEN]);
    let mut step = port.next(0);
    let mut taken = 0;
    for _ in 0..200_000 {
        let (next, number) = call(&mut random, step, &mut port, &mut state);
        assert_eq!(Some(next), Step::from_number(number));
        let n = match next {
            Step::Over { count, .. } => count,
            _ => 0,
        };
        taken += u32::from(take(&mut port, &mut state, n));
        step = next;
    }
    assert!(taken > 50, "{taken}");
}
