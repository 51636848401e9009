"""The software reset, and each way of spoiling it."""

from reach import reach, show_registers
from trace import SOME_HOSTS, TURNS, Trace


def arm(t, name="Free"):
    """Reach a place with registers of its own, pointer 5, A5h written."""
    reach(t, name, ((0, 0x03), (2, 0x10), (6, 0x02)))
    t.wr(0, 5)
    t.wr(2, 0xA5, f"A5h in {name}:" if name in TURNS else f"A5h at {name}:")
    assert t.c.armed == 1


def finish(t):
    """5Ah at pointer 5, then the registers that tell if it was a reset."""
    if t.c.pointer != 5:
        t.wr(0, 5, "pointer 5")
    t.wr(2, 0x5A, "5Ah:")
    show_registers(t, (0, 2, 6))


def make_software_reset():
    t = Trace("software-reset", "Software reset, done right and spoilt")
    t.note("done right, in every turn and at some statuses")
    for name in TURNS + SOME_HOSTS:
        arm(t, name)
        finish(t)
    t.note("the buffer, the hand place and the moved count")
    reach(t, "28")
    t.wr(1, 0x61)
    t.wr(1, 0x62)
    t.wr(0, 5)
    t.wr(2, 0xA5)
    t.wr(2, 0x5A, "5Ah with hand 2 and moved 1:")
    t.rd(1, "place 0, kept:")
    t.rd(1, "place 1, kept:")
    soft_spoilt(t)
    soft_repeated(t)
    soft_between(t)


def soft_spoilt(t):
    t.note("spoilt by any other accepted write in between")
    for pointer in range(8):
        arm(t)
        t.wr(0, pointer, f"INDPTR {pointer} in between:")
        finish(t)
    t.note("register 2 elsewhere: the INDPTR write before it disarms already")
    for pointer in (0, 1, 2, 3, 4, 6):
        arm(t)
        t.wr(0, pointer)
        t.wr(2, 0x5A, f"5Ah to pointer {pointer:02X}h:")
        finish(t)
    t.note("I2CDAT, I2CCON and other values to I2CPRESET")
    arm(t)
    t.wr(1, 0x5A, "I2CDAT 5Ah in between:")
    finish(t)
    for v in (0x40, 0x5A, 0x00):
        arm(t)
        t.wr(3, v, f"I2CCON {v:02X}h in between:")
        finish(t)
    for v in (0x00, 0x5B, 0xA4, 0xFF):
        arm(t)
        t.wr(2, v, f"{v:02X}h to I2CPRESET in between:")
        finish(t)
    soft_spoilt_more(t)


def soft_spoilt_more(t):
    t.note("spoilt in a wire turn")
    for name in ("Address", "Stopping"):
        arm(t, name)
        t.wr(0, 0x0D, "INDPTR 0Dh in between:")
        finish(t)
        reach(t, name)
        t.wr(0, 5)
        t.wr(2, 0x5A, "5Ah without A5h:")
        t.wr(2, 0xA5)
        t.wr(2, 0x01, "01h to I2CPRESET:")
        t.wr(2, 0x5A, "5Ah:")
    t.note("5Ah without A5h; A5h to another register")
    reach(t, "Free", ((0, 0x03), (2, 0x10), (6, 0x02)))
    finish(t)
    for pointer in (0, 1, 2, 3, 4, 6):
        reach(t, "Free")
        t.wr(0, pointer)
        t.wr(2, 0xA5, f"A5h to pointer {pointer:02X}h:")
        t.wr(2, 0x5A, f"5Ah to pointer {pointer:02X}h:")
        finish(t)


def soft_repeated(t):
    t.note("A5h again arms again; 5Ah twice")
    for name in ("Free", "Send"):
        arm(t, name)
        t.wr(2, 0xA5, "A5h again:")
        finish(t)
        arm(t, name)
        t.wr(2, 0x00, "00h:")
        t.wr(2, 0xA5, "A5h again:")
        finish(t)
        arm(t, name)
        t.wr(2, 0x5A, "5Ah:")
        t.wr(2, 0x5A, "5Ah again goes to pointer 00h:")
        t.rd(2, "I2CCOUNT:")
        t.wr(0, 5)
        t.wr(2, 0x5A, "5Ah once more, not armed:")
        t.rd(3, "I2CCON:")
        t.wr(0, 0)
        t.rd(2, "I2CCOUNT:")


def soft_between(t):
    t.note("a refused access in between doesn't spoil it")
    arm(t, "Free")
    t.rd(2, "read at pointer 05h:")
    t.wr(4, 0, "write to register 4:")
    t.ev(6, 2, "event 6, argument 02h:")
    t.ev(1, 0, "event 1, STA 0:")
    finish(t)
    arm(t, "Send")
    t.wr(1, 0x11, "write I2CDAT:")
    t.wr(3, 0x40, "write I2CCON:")
    t.rd(1, "read I2CDAT:")
    finish(t)
    arm(t, "08")
    t.wr(3, 0x41, "write I2CCON:")
    finish(t)
    arm(t, "78")
    t.wr(3, 0x00, "write I2CCON:")
    finish(t)
    arm(t, "Free")
    for k in range(68):
        t.rd(1)
    t.wr(1, 0x11, "write I2CDAT, hand 68:")
    finish(t)
    soft_between_more(t)


def soft_between_more(t):
    t.note("reads in between don't spoil it")
    arm(t, "Free")
    for reg, words in ((0, "I2CSTA"), (1, "I2CDAT"), (3, "I2CCON")):
        t.rd(reg, f"read {words}:")
    finish(t)
    t.note("events in between don't spoil it, but event 14 does")
    arm(t, "Free")
    for n, a in ((10, 0), (2, 0), (5, 0x02), (3, 0), (12, 0)):
        t.ev(n, a, f"event {n}:")
    finish(t)
    arm(t, "Address")
    t.ev(6, 0, "event 6:")
    finish(t)
    arm(t, "Free")
    t.ev(14, 0, "event 14, not armed:")
    finish(t)
