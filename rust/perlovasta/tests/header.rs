//! What `perlovasta.h` says as well.

#[path = "../../header.rs"]
mod header;

use header::Header;
use perlovasta::{
    Acknowledge, CHIP_LEN, Called, ENTRY_LEN, Edge, Event, GROUP_LEN, OUT_LEN, REPORT_LEN, Reason,
    Refusal, Turn, VirtualChip,
};

const MODEL: &str = "perlovasta.h";

#[test]
fn events() {
    let header = Header::of(MODEL);
    for (event, name) in [
        (Event::OwnStart, "OWN_START"),
        (Event::AnothersStart, "ANOTHERS_START"),
        (Event::AnothersStop, "ANOTHERS_STOP"),
        (Event::OwnStop, "OWN_STOP"),
        (Event::AddressByte(0), "ADDRESS_BYTE"),
        (Event::ByteOut(Acknowledge::Ack), "BYTE_OUT"),
        (Event::ByteIn(0), "BYTE_IN"),
        (Event::LostInAddress(0), "LOST_IN_ADDRESS"),
        (Event::LostInData, "LOST_IN_DATA"),
        (Event::IllegalPlace, "ILLEGAL_PLACE"),
        (Event::SdaHeld, "SDA_HELD"),
        (Event::SclLow, "SCL_LOW"),
        (Event::Idle, "IDLE"),
        (Event::ResetPin, "RESET_PIN"),
    ] {
        let [number, _] = event.pair();
        header.assert_number(&format!("EVENT_{name}"), number);
    }
}

#[test]
fn refusals() {
    let header = Header::of(MODEL);
    let names = [
        "OUT_OF_RANGE",
        "BAD_ARGUMENT",
        "ON_THE_WIRE",
        "LOCKED",
        "UNLISTED",
        "BAD_COUNT",
        "BUFFER_END",
        "UNEXPECTED",
        "INACCESSIBLE",
        "UNSOUND",
    ];
    for (refusal, name) in Refusal::ALL.into_iter().zip(names) {
        header.assert_number(&format!("REFUSAL_{name}"), refusal.number());
    }
}

#[test]
fn reasons() {
    let header = Header::of(MODEL);
    let names = [
        "NONE_YET",
        "COUNT_REACHED",
        "NACK",
        "OUTSIDE",
        "ARBITRATION_LOST",
        "FAULT",
        "RESET",
    ];
    for (reason, name) in Reason::ALL.into_iter().zip(names) {
        header.assert_number(&format!("REASON_{name}"), reason.number());
    }
}

/// A record with the header's number for the turn is in that turn.
#[test]
fn turns() {
    let header = Header::of(MODEL);
    let at_a0h = |edge| Turn::Host {
        status: 0xA0,
        edge: Some(edge),
    };
    for (turn, name) in [
        (Turn::Off, "OFF"),
        (at_a0h(Edge::Stop), "HOST"),
        (Turn::Free, "FREE"),
        (Turn::Busy, "BUSY"),
        (Turn::Listen, "LISTEN"),
        (Turn::Address, "ADDRESS"),
        (Turn::Send, "SEND"),
        (Turn::Receive, "RECEIVE"),
        (Turn::SlaveReceive(Called::Own), "SLAVE_RECEIVE"),
        (Turn::SlaveSend, "SLAVE_SEND"),
        (Turn::Stopping, "STOPPING"),
        (Turn::Restarting, "RESTARTING"),
        (at_a0h(Edge::Start), "HOST_AFTER_START"),
        (Turn::SlaveReceive(Called::General), "SLAVE_RECEIVE_GENERAL"),
    ] {
        let mut bytes = *VirtualChip::new().as_bytes();
        bytes[2] = header.number(&format!("TURN_{name}")).expect(name);
        bytes[3] = 0xA0;
        let chip = VirtualChip::from_bytes(&bytes).expect(name);
        assert_eq!(chip.turn(), turn, "PERLOVASTA_TURN_{name}");
    }
}

#[test]
fn lengths() {
    let header = Header::of(MODEL);
    for (name, length) in [
        ("OUT", OUT_LEN),
        ("REPORT", REPORT_LEN),
        ("GROUP", GROUP_LEN),
        ("ENTRY", ENTRY_LEN),
        ("CHIP", CHIP_LEN),
    ] {
        header.assert_says(&format!("#define PERLOVASTA_{name} {length}u "));
    }
}
