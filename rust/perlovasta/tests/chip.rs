//! The virtual chip: registers, events and jobs on one that is held, and its bytes.

use perlovasta::{
    Acknowledge, Address, Answer, CHIP_LEN, Event, NoRecord, Reason, Refusal, Register, Turn,
    VirtualChip,
};

const ACKED: Event = Event::ByteOut(Acknowledge::Ack);
const READ: [Event; 4] = [Event::OwnStart, ACKED, Event::ByteIn(0x5C), Event::OwnStop];

fn device() -> Address {
    Address::new(0x50).expect("a device's address")
}

/// A chip that 40h enabled.
fn enabled() -> VirtualChip {
    let mut chip = VirtualChip::new();
    assert_eq!(chip.write(Register::Control, 0x40), Ok(()));
    chip
}

/// The chip with another byte at this place.
fn with(chip: &VirtualChip, place: usize, byte: u8) -> Result<VirtualChip, NoRecord> {
    let mut bytes = *chip.as_bytes();
    bytes[place] = byte;
    VirtualChip::from_bytes(&bytes)
}

#[test]
fn fresh() {
    let mut chip = VirtualChip::new();
    assert_eq!((chip.turn(), chip.reason()), (Turn::Off, Reason::NoneYet));
    assert_eq!(chip.read(Register::Control), Ok(0));
    assert_eq!(chip.as_bytes()[20..], [0; 68]);
    assert_eq!(chip, VirtualChip::default());
}

#[test]
fn a_chip_remembers() {
    let mut chip = enabled();
    for byte in [0x11, 0x22] {
        assert_eq!(chip.write(Register::Data, byte), Ok(()));
    }
    assert_eq!(chip.as_bytes()[20..23], [0x11, 0x22, 0]);
    assert_eq!(chip.write(Register::POINTER, 0x01), Ok(()));
    assert_eq!(chip.read(Register::AtPointer), Ok(0xE0));
    assert_eq!(chip.event(Event::AnothersStart), Ok(0));
    assert_eq!(chip.turn(), Turn::Listen);
    // AA is 0: the address byte is not acknowledged.
    assert_eq!(chip.event(Event::AddressByte(0xE0)), Ok(1));
    assert_eq!(chip.turn(), Turn::Busy);
}

#[test]
fn jobs_one_after_the_other() {
    let mut chip = enabled();
    let badge = chip.run_read(device(), 1, &READ).expect("it is done");
    assert_eq!((&badge[..], badge.sent()), (&[0x5C][..], &[0xA1][..]));
    assert_eq!(chip.turn(), Turn::Free);

    let script = [Event::OwnStart, ACKED, ACKED, Event::OwnStop];
    let written = chip.run_write(device(), &[0x11], &script);
    assert_eq!(written.expect("it is done").sent(), [0xA0, 0x11]);

    // A script that ends early leaves the chip amid the job, where no other begins.
    let error = chip.run_read(device(), 1, &READ[..2]).unwrap_err();
    assert_eq!(
        (error.answer(), error.sent()),
        (Answer::Unfinished, &[0xA1][..])
    );
    assert_eq!(chip.turn(), Turn::Receive);
    let before = chip.clone();
    let error = chip.run_read(device(), 1, &READ).unwrap_err();
    assert_eq!(error.answer(), Answer::NotReady);
    assert_eq!(error.to_string(), "the controller is not ready");
    assert_eq!(chip, before);

    assert_eq!(chip.event(Event::ResetPin), Ok(0));
    assert_eq!((chip.turn(), chip.reason()), (Turn::Off, Reason::Reset));
}

#[test]
fn refusals_change_nothing() {
    let chip = enabled();
    let mut same = chip.clone();
    assert_eq!(same.event(ACKED), Err(Refusal::Unexpected));
    assert_eq!(same.write(Register::POINTER, 0x07), Ok(()));
    let pointed = same.clone();
    assert_eq!(
        same.write(Register::AtPointer, 1),
        Err(Refusal::Inaccessible)
    );
    assert_eq!(same, pointed);
    assert_ne!(same, chip);
}

#[test]
fn bytes_go_both_ways() {
    let mut chip = enabled();
    let _ = chip.run_read(device(), 1, &READ[..2]);
    let back = VirtualChip::from_bytes(chip.as_bytes()).expect("it holds a controller");
    assert_eq!(back, chip);
    assert_eq!(
        format!("{chip:?}"),
        "VirtualChip { turn: Receive, reason: CountReached, .. }"
    );
}

#[test]
fn bytes_that_hold_no_controller() {
    let chip = enabled();
    for (place, byte) in [
        (0, 0x51),
        (1, 0x42),
        (2, 12),
        (2, 16),
        (2, 25),
        (4, 7),
        (5, 2),
        (10, 2),
    ] {
        assert_eq!(with(&chip, place, byte), Err(NoRecord));
    }
    assert_eq!(VirtualChip::from_bytes(&[0; CHIP_LEN]), Err(NoRecord));
    assert_eq!(NoRecord.to_string(), "the bytes hold no controller");
}

#[test]
fn a_record_that_is_not_sound() {
    // The pointer, the hand place, the moved count, I2CMODE.
    for (place, byte) in [(13, 8), (11, 69), (12, 69), (19, 4)] {
        let mut chip = with(&enabled(), place, byte).expect("a record it is");
        let before = chip.clone();
        assert_eq!(chip.read(Register::Status), Err(Refusal::Unsound));
        assert_eq!(chip.event(Event::AnothersStart), Err(Refusal::Unsound));
        let error = chip.run_read(device(), 1, &READ).unwrap_err();
        assert_eq!(error.answer(), Answer::NotReady);
        assert_eq!(chip, before);
        assert_eq!(chip.event(Event::ResetPin), Ok(0));
        assert_eq!(chip.read(Register::Status), Ok(0xF8));
    }
}
