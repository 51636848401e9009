"""Status 38h, Ask 2: what is written there, what comes, and how it is left."""

import model
from events import every_event
from job_steps import soft
from reach import bits_text, con, reach, show_registers, to_end
from trace import Trace, place

# I2CCOUNT at 38h: BC outside 1..68, LB both ways; and the bounds
COUNTS = (0x00, 0x45, 0x7F, 0x80, 0xC5, 0xFF, 0x01, 0x44)
REGISTERS = ((1, 0x31), (2, 0x32), (3, 0x33), (4, 0xB4), (6, 0x03))


def make_lost():
    make_lost_writes()
    make_lost_events()
    make_lost_arguments()
    make_lost_kept()
    make_lost_then()
    make_lost_data()
    make_lost_reset()
    make_lost_ways()


def lost(t, regs=()):
    """To 38h amid a move of 2, then one place read: hand and moved 1."""
    reach(t, "Send", tuple(regs) + ((0, 0x02),), mode=1)
    t.ev(6, 0)
    t.ev(9, 0)
    t.rd(1, "at 38h, place 0 read:")
    assert place(t.c) == "38" and (t.c.hand, t.c.moved) == (1, 1)


def make_lost_writes():
    """Every I2CCON value, a file for each way of AA and ENSIO."""
    for aa in (0, 1):
        for ensio, word in enumerate(("off", "on")):
            t = Trace(f"lost-{word}-aa-{aa}", "Every I2CCON value at 38h "
                      f"with ENSIO {ensio} and AA {aa}")
            first = con(aa=aa, ensio=ensio)
            for v in range(first, first + 64):
                lost_write(t, v)


def lost_write(t, v):
    lost(t)
    count = COUNTS[v >> 1 & 7]
    t.wr(2, count)
    t.wr(3, v, f"{v:02X}h, {bits_text(v)}, BC {count & 127}:")
    if v & model.ENSIO:
        t.rd(0, "I2CSTA:")
        t.rd(3, "I2CCON:")


def written(t, v, regs=()):
    """At 38h with v written, if any; then one place read."""
    lost(t, regs)
    if v is not None:
        t.wr(3, v, f"I2CCON {v:02X}h:")
        t.rd(1)


def make_lost_events():
    t = Trace("lost-events", "Every event at 38h: TE, and what was written")
    for i2cto in (0xFF, 0x7F):
        for v in (None, 0x40, 0x60):
            words = "nothing" if v is None else f"{v:02X}h"
            t.note(f"TE {i2cto >> 7}, {words} written to I2CCON")
            every_event(t, "38", lambda: written(t, v, ((4, i2cto),)))


def make_lost_arguments():
    t = Trace("lost-arguments", "Events at 38h with wrong arguments, "
              "and numbers that are no event")
    for i2cto in (0xFF, 0x7F):
        t.note(f"TE {i2cto >> 7}")
        lost(t, ((4, i2cto),))
        for n in (1, 2, 3, 4, 6, 9, 10, 11, 12, 13, 14):
            for a in (2 if n == 6 else 1, 0xFF):
                t.ev(n, a, f"event {n}, argument {a:02X}h:")
        for n in (0, 15, 0xFF):
            t.ev(n, 0, f"event {n}:")
        assert place(t.c) == "38"
        t.ev(3, 0, "event 3, argument 00h:")


def make_lost_kept():
    t = Trace("lost-kept", "What events 3 and 12 keep at 38h: hand place, "
              "moved count, registers")
    for n in (3, 12):
        for v in (None, 0x40, 0x60, 0xC1):
            t.note(f"event {n}" + ("" if v is None else f" after {v:02X}h"))
            written(t, v)
            t.rd(1)
            t.ev(n, 0, f"event {n}, hand 2:")
            t.rd(1, "place 2:")
            t.rd(3, "I2CCON:")
            t.wr(0, 7)
            t.rd(2, "moved count:")
        t.note(f"event {n}, every register")
        lost(t, REGISTERS)
        t.ev(n, 0, f"event {n}:")
        show_registers(t)
        t.note(f"event {n}, hand 68")
        lost(t)
        to_end(t)
        t.ev(n, 0, f"event {n}, hand 68:")
        t.rd(1, "I2CDAT:")


def make_lost_then():
    t = Trace("lost-then", "What follows 38h")
    t.note("STA stored at 38h: own START once another's STOP came")
    for n in (1, 11, 2):
        written(t, 0x60)
        t.ev(n, 0, f"event {n} before the STOP:")
        t.ev(3, 0, "another's STOP:")
        t.ev(n, 0, f"event {n} in Free:")
    t.note("the last write at 38h decides")
    for values in ((0x40,), (0x60, 0x40), (0x40, 0x60), (0x61, 0xC0, 0xE1)):
        lost(t)
        for v in values:
            t.wr(3, v, f"I2CCON {v:02X}h:")
        t.ev(3, 0, "another's STOP:")
        t.ev(1, 0, "own START:")
    t.note("STA of the write at 08h, and no write at 38h")
    for sta in (0, 1):
        reach(t, "Address", sta=sta)
        t.ev(8, 0x02, f"arbitration lost, STA {sta}:")
        t.ev(3, 0, "another's STOP:")
        t.ev(1, 0, "own START:")
    then_stop_bit(t)
    then_called(t)
    then_fault(t)


def then_stop_bit(t):
    t.note("STO is never stored: no own STOP")
    for v in (0x50, 0x70):
        written(t, v)
        t.rd(3, "I2CCON:")
        t.ev(4, 0, "own STOP:")
        t.ev(3, 0, "another's STOP:")
        t.rd(3, "I2CCON:")
        t.ev(4, 0, "own STOP:")


def then_called(t):
    t.note("AA and MODE stored at 38h, then called by another")
    for v in (0x40, 0xC0, 0xC1):
        written(t, v)
        t.ev(2, 0, "another's START at 38h:")
        t.ev(5, 0xE0, "own address at 38h:")
        t.ev(3, 0, "another's STOP:")
        t.ev(2, 0, "another's START:")
        t.ev(5, 0xE0, "own address:")


def then_fault(t):
    t.note("78h is left by a reset alone")
    for v in (None, 0x60):
        written(t, v)
        t.ev(12, 0, "event 12:")
        for value in (0x00, 0x40, 0x60, 0x50, 0x41):
            t.wr(3, value, f"I2CCON {value:02X}h:")
        for n in (3, 12, 1):
            t.ev(n, 0, f"event {n}:")
        soft(t)
    t.note("ENSIO 0 leads to Off, where no STOP is waited for")
    for v in (0x00, 0xB1):
        written(t, 0xE1)
        t.wr(3, v, f"I2CCON {v:02X}h:")
        t.ev(3, 0, "another's STOP:")
        t.wr(3, 0x40, "ENSIO 1:")
        t.ev(1, 0, "own START:")


def make_lost_data():
    t = Trace("lost-data", "I2CDAT and the other registers at 38h")
    lost(t)
    t.wr(1, 0x21, "place 1 written:")
    t.wr(3, 0x41, "hand back to 0:")
    t.rd(1, "place 0:")
    t.rd(1, "place 1:")
    t.note("places 2 to 67")
    to_end(t)
    t.rd(1, "read, hand 68:")
    t.wr(1, 0x22, "write, hand 68:")
    t.wr(3, 0x60, "hand back to 0:")
    t.wr(1, 0x23, "place 0 written:")
    t.note("TE written at 38h: event 12")
    t.wr(0, 4)
    t.wr(2, 0x7F, "TE 0:")
    t.ev(12, 0, "event 12:")
    t.wr(2, 0x80, "TE 1:")
    t.ev(12, 0, "event 12:")
    t.rd(1, "place 1:")
    t.note("the moved count at 38h, before and after a write")
    lost(t)
    t.wr(0, 7)
    t.rd(2, "moved count:")
    t.wr(2, 0, "the moved count written:")
    t.wr(3, 0x40, "I2CCON 40h:")
    t.rd(2, "moved count:")


def armed(t):
    """At 38h, A5h written."""
    lost(t, REGISTERS)
    t.wr(0, 5)
    t.wr(2, 0xA5, "A5h:")


def make_lost_reset():
    t = Trace("lost-reset", "The software reset at 38h, and what comes "
              "between A5h and 5Ah")
    t.note("nothing between")
    armed(t)
    t.wr(2, 0x5A, "5Ah:")
    show_registers(t)
    t.note("an event, taken or refused")
    for n in (3, 12, 2, 13):
        armed(t)
        t.ev(n, 0, f"event {n}:")
        t.wr(2, 0x5A, "5Ah:")
    t.note("an I2CCON write at 38h disarms")
    for v in (0x40, 0x60, 0xF1, 0x00):
        armed(t)
        t.wr(3, v, f"I2CCON {v:02X}h:")
        t.wr(2, 0x5A, "5Ah:")
        t.wr(2, 0xA5, "A5h:")
        t.wr(2, 0x5A, "5Ah:")
    t.note("after an I2CCON write at 38h")
    written(t, 0xE1)
    soft(t)
    t.rd(3, "I2CCON:")


def lost_from(t, name):
    """Arbitration lost in Address, Send or Receive, MODE 0 or 1."""
    turn, mode = name.split(", MODE ")
    reach(t, turn, ((0, 0x02),), mode=int(mode))
    if turn == "Address":
        t.ev(8, 0x02, f"lost in {name}:")
    else:
        t.ev(9, 0, f"lost in {name}:")
    assert place(t.c) == "38"


def make_lost_ways():
    t = Trace("lost-ways", "Each way to 38h with each way out of it")
    outs = (lambda: t.ev(3, 0, "event 3:"), lambda: t.ev(12, 0, "event 12:"),
            lambda: t.ev(14, 0, "event 14:"), lambda: soft(t),
            lambda: t.wr(3, 0x80, "ENSIO 0:"))
    for name in ("Address, MODE 0", "Send, MODE 0", "Send, MODE 1",
                 "Receive, MODE 0", "Receive, MODE 1"):
        for out in outs:
            lost_from(t, name)
            t.wr(3, 0x41, "I2CCON 41h:")
            out()
            assert place(t.c) != "38"
