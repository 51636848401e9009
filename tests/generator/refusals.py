"""Every refusal, and the neighbouring pairs of the table."""

from reach import bits_text, reach, start, to_end
from trace import Trace, WIRE


def make_refusals():
    t = Trace("refusals", "Every refusal number, and two lines at once")
    refusal_1_2(t)
    refusal_9_3(t)
    refusal_4_to_8(t)
    refusal_pairs(t)


def refusal_1_2(t):
    t.note("1: register over 3, event not 1..14")
    for name in ("Off", "Free", "08", "Address"):
        reach(t, name)
        for reg in (4, 5, 0x83, 0xFF):
            t.rd(reg, f"read of register {reg}:")
            t.wr(reg, 0x40, f"write to register {reg}:")
        for n in (0, 15, 0x81, 0xFF):
            t.ev(n, 0, f"event {n}:")
    t.note("2: an argument where it is unused; over 1 for event 6")
    places = {1: "Free", 2: "Free", 3: "Busy", 4: "Stopping", 9: "Send",
              10: "Free", 11: "Free", 12: "Free", 13: "Busy", 14: "Free"}
    for n, name in places.items():
        reach(t, name, sta=0 if name == "Send" else 1)
        t.ev(n, 1, f"event {n} in {name}, argument 01h:")
        t.ev(n, 0xFF, f"event {n} in {name}, argument FFh:")
        t.ev(n, 0, f"event {n} in {name}, argument 00h:")
    for name in ("Address", "Send", "SlaveSend"):
        reach(t, name)
        for a in (2, 0x80, 0xFF, 1):
            t.ev(6, a, f"event 6 in {name}, argument {a:02X}h:")


def refusal_9_3(t):
    t.note("9: write with pointer 07h, read with pointer 05h")
    for name in ("Off", "Free", "Busy", "Listen", "08", "00"):
        reach(t, name)
        t.wr(0, 7)
        t.wr(2, 0, f"write at pointer 07h, {name}:")
        t.rd(2, f"read at pointer 07h, {name}:")
        t.wr(0, 5)
        t.rd(2, f"read at pointer 05h, {name}:")
        t.wr(2, 0, f"write at pointer 05h, {name}:")
    t.note("3: in each wire turn, every register and pointer")
    for name in WIRE:
        reach(t, name)
        t.rd(0, f"{name}, read I2CSTA:")
        t.rd(1, f"{name}, read I2CDAT:")
        t.rd(3, f"{name}, read I2CCON:")
        t.wr(1, 0x99, f"{name}, write I2CDAT:")
        for v in (0x00, 0x40, 0x50, 0xF1):
            t.wr(3, v, f"{name}, write I2CCON {v:02X}h:")
        for pointer in range(8):
            t.wr(0, pointer, f"{name}, write INDPTR {pointer}:")
            t.wr(2, 0x33, f"{name}, write at pointer {pointer:02X}h:")
            t.rd(2, f"{name}, read at pointer {pointer:02X}h:")
        t.ev(14)
        t.rd(1, "place 0, not written:")


def refusal_4_to_8(t):
    t.note("4: any I2CCON write at 00h, 70h, 78h; other accesses are taken")
    for name in ("00", "70", "78"):
        reach(t, name)
        for v in (0x00, 0x40, 0x60, 0x50, 0x41, 0xB1):
            t.wr(3, v, f"I2CCON {v:02X}h at {name}h:")
        t.wr(1, 0x12, f"I2CDAT at {name}h:")
        t.wr(0, 1, f"INDPTR at {name}h:")
        t.wr(2, 0x22, f"I2CADR at {name}h:")
    t.note("5: an I2CCON write that isn't listed")
    for name, v in (("08", 0x41), ("10", 0x41), ("40", 0x60), ("40", 0x50),
                    ("40", 0x70), ("50", 0x60), ("50", 0x50), ("50", 0x70),
                    ("48", 0x40), ("58", 0xC0)):
        reach(t, name)
        t.wr(3, v, f"{bits_text(v)} at {name}h:")
        t.wr(3, v & 0xBF, "the same with ENSIO 0:")
    t.note("6: a buffered data move with BC not 1..68")
    for name in ("18", "40", "60", "D0", "A8"):
        for count in (0x00, 0x80, 0x45, 0xC5, 0x7F, 0xFF):
            reach(t, name, ((0, count),))
            t.wr(3, 0xC1, f"MODE 1 at {name}h, I2CCOUNT {count:02X}h:")
    t.note("7: an I2CDAT access with the hand place at 68")
    for name in ("Off", "Free", "Busy", "Listen", "08", "28", "00"):
        reach(t, name)
        to_end(t)
        t.rd(1, f"read I2CDAT, hand 68, {name}:")
        t.wr(1, 0x77, f"write I2CDAT, hand 68, {name}:")
        t.rd(0, "read I2CSTA:")
    t.note("8: events that are not expected, in Off")
    start(t)
    for n in range(1, 14):
        t.ev(n, 0, f"event {n} in Off:")


def refusal_pairs(t):
    t.note("1 before 2: no such event, with an argument")
    reach(t, "Free")
    for n in (0, 15, 0xFF):
        t.ev(n, 1, f"event {n}, argument 01h:")
    t.note("2 and 10, 10 and 9: no unsound record can be reached")
    t.note("9 before 3: wire turn, write with pointer 07h")
    for name in WIRE:
        reach(t, name)
        t.wr(0, 7)
        t.wr(2, 0x5A, f"{name}, write at pointer 07h:")
        t.wr(0, 5)
        t.rd(2, f"{name}, read at pointer 05h (3 doesn't apply):")
    t.note("3 and 4: none, a wire turn has status F8h")
    t.note("4 before 5: ENSIO 1 at 00h, 70h, 78h isn't listed")
    for name in ("00", "70", "78"):
        reach(t, name)
        t.wr(3, 0x60, f"I2CCON 60h at {name}h:")
        t.wr(3, 0x41, f"I2CCON 41h at {name}h:")
        t.wr(0, 0)
        t.wr(2, 0)
        t.wr(3, 0x41, f"I2CCON 41h at {name}h, BC 0:")
    t.note("5 before 6: not listed, with MODE 1 and BC 0 or 69")
    for name, v in (("08", 0x41), ("10", 0x41), ("40", 0x61), ("40", 0x51),
                    ("50", 0x71), ("48", 0x41), ("58", 0x41)):
        for count in (0, 69):
            reach(t, name, ((0, count),))
            t.wr(3, v, f"{bits_text(v)} at {name}h, BC {count}:")
    refusal_pairs_late(t)


def refusal_pairs_late(t):
    t.note("6 and 7: none, an I2CCON write is no I2CDAT access; nearest:")
    reach(t, "18", ((0, 0),))
    for k in range(68):
        t.rd(1)
    t.wr(3, 0x41, "MODE 1, BC 0, hand 68:")
    t.rd(1, "I2CDAT, hand 68:")
    t.note("7 and 8: none, an access is no event")
    t.note("3 and 7: none, the hand place is 0 in a wire turn")
    t.note("2 before 8: not expected, with an argument; in Off and at 08h")
    for name in ("Off", "08"):
        reach(t, name)
        for n in (1, 2, 3, 4, 6, 9, 10, 11, 12, 13, 14):
            t.ev(n, 2, f"event {n}, argument 02h, {name}:")
