//! Traces: the cases g to m of document 01.

use perlovasta::{Access, Acknowledge, Entry, Event, Reason, Refusal, Register, Turn, trace};

const fn read(register: Register) -> Access {
    Access::Read(register)
}

const fn write(register: Register, value: u8) -> Access {
    Access::Write(register, value)
}

const fn control(value: u8) -> Access {
    write(Register::Control, value)
}

const fn event(event: Event) -> Access {
    Access::Event(event)
}

/// The pointer, then the register there.
const fn set(pointer: u8, value: u8) -> [Access; 2] {
    [
        write(Register::POINTER, pointer),
        write(Register::AtPointer, value),
    ]
}

/// Enabled, with STA, own START: at 08h.
const STARTED: [Access; 3] = [control(0x40), control(0x60), event(Event::OwnStart)];

/// What came of the last access; all before it are accepted.
fn last(accesses: &[Access]) -> Entry {
    let mut entries = trace(accesses);
    let last = entries.pop().expect("an access");
    assert!(entries.iter().all(|entry| entry.reply.is_ok()));
    last
}

#[test]
fn fresh() {
    let expected = Entry {
        reply: Ok(0xF8),
        status: 0xF8,
        control: 0,
        hand: 0,
        moved: 0,
        pointer: 0,
        armed: false,
        turn: Turn::Off,
        reason: Reason::NoneYet,
    };
    assert_eq!(trace(&[read(Register::Status)]), [expected]);
    for (pointer, value) in [0x01, 0xE0, 0x9D, 0x86, 0xFF].into_iter().enumerate() {
        let accesses = [
            write(Register::POINTER, pointer as u8),
            read(Register::AtPointer),
        ];
        assert_eq!(last(&accesses).reply, Ok(value));
    }
}

#[test]
fn case_g() {
    let accesses = [&[control(0x40)], &set(0, 0x81)[..], &[control(0x60)]].concat();
    let entry = last(&accesses);
    assert_eq!((entry.turn, entry.control), (Turn::Free, 0x60));
}

#[test]
fn case_h() {
    let sent = [
        write(Register::Data, 0xA0),
        control(0x40),
        event(Event::ByteOut(Acknowledge::Ack)),
    ];
    for (count, reply) in [
        (0, Err(Refusal::BadCount)),
        (1, Ok(0)),
        (68, Ok(0)),
        (69, Err(Refusal::BadCount)),
    ] {
        let groups = [&STARTED, &sent, &set(0, count)[..], &[control(0x41)]].concat();
        assert_eq!(last(&groups).reply, reply);
    }
}

#[test]
fn cases_i_and_j() {
    // I2CADR has GC 0 and own address 0; AA is 1.
    let listening = [
        &set(1, 0)[..],
        &[control(0xC0), event(Event::AnothersStart)],
    ]
    .concat();
    for byte in [0, 1] {
        let entry = last(&[&listening[..], &[event(Event::AddressByte(byte))]].concat());
        assert_eq!((entry.turn, entry.reply), (Turn::Busy, Ok(1)));
    }
}

#[test]
fn case_k() {
    let sending = [&STARTED[..], &[write(Register::Data, 0xA0), control(0x40)]].concat();
    let equal = last(&[&sending[..], &[event(Event::LostInAddress(0xA0))]].concat());
    assert_eq!(equal.reply, Err(Refusal::Unexpected));
    assert_eq!(equal.turn, Turn::Address);
    let smaller = last(&[&sending[..], &[event(Event::LostInAddress(0x9F))]].concat());
    let (status, edge) = (0x38, None);
    assert_eq!(smaller.turn, Turn::Host { status, edge });
}

#[test]
fn case_l() {
    let groups = [&set(4, 0x7F)[..], &[control(0x40), event(Event::SclLow)]].concat();
    assert_eq!(last(&groups).reply, Err(Refusal::Unexpected));
}

#[test]
fn case_m() {
    let entries = trace(&[read(Register::Data); 69]);
    assert!(entries[..68].iter().all(|entry| entry.reply.is_ok()));
    assert_eq!(entries[67].hand, 68);
    assert_eq!(entries[68].reply, Err(Refusal::BufferEnd));
    assert_eq!(entries[68].hand, 68);
}

#[test]
fn software_reset() {
    let armed = last(&set(5, 0xA5));
    assert!(armed.armed && armed.pointer == 5);
    let reset = last(&[&set(5, 0xA5)[..], &[write(Register::AtPointer, 0x5A)]].concat());
    assert!(!reset.armed && reset.pointer == 0);
}

/// Request 8 of document 02: each reason once, in the order of their numbers.
#[test]
fn reasons() {
    let sending = [write(Register::Data, 0xA0), control(0x40)];
    let sent = |last| [&STARTED[..], &sending, &[event(last)]].concat();
    let acked = sent(Event::ByteOut(Acknowledge::Ack));
    let nacked = sent(Event::ByteOut(Acknowledge::Nack));
    // I2CADR is E0h after reset.
    let called = [
        control(0xC0),
        event(Event::AnothersStart),
        event(Event::AddressByte(0xE0)),
        control(0xC0),
        event(Event::AnothersStop),
    ];
    assert_reason(&STARTED, Reason::NoneYet);
    assert_reason(&acked, Reason::CountReached);
    assert_reason(&nacked, Reason::Nack);
    assert_reason(&called, Reason::Outside);
    assert_reason(&sent(Event::LostInAddress(0x02)), Reason::ArbitrationLost);
    assert_reason(&sent(Event::IllegalPlace), Reason::Fault);
    assert_reason(&[event(Event::ResetPin)], Reason::Reset);
}

/// Asserts that these lead to the reason, and that it is kept.
#[track_caller]
fn assert_reason(accesses: &[Access], reason: Reason) {
    assert_eq!(last(accesses).reason, reason);
    // A write keeps it, one with ENSIO 0 or one that is refused at a fault; and so does a read.
    let kept = trace(&[accesses, &[control(0), read(Register::Status)]].concat());
    let mut after = kept[accesses.len()..].iter();
    assert!(after.all(|entry| entry.reason == reason));
    let armed = last(&[accesses, &set(5, 0xA5)].concat());
    assert_eq!((armed.pointer, armed.armed), (5, true));
    assert_eq!(armed.reason, reason);
}

#[test]
fn empty_trace() {
    assert_eq!(trace(&[]), []);
}
