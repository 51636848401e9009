"""Registers, I2CDAT and the hand place."""

from reach import dump, fill, reach, show_registers, start
from trace import HOSTS, Trace


def make_registers():
    t = Trace("registers", "Registers, reset values, hand place, buffer")
    registers_values(t)
    registers_control(t)
    registers_resets(t)
    registers_hand(t)
    registers_back(t)


def registers_values(t):
    t.note("fresh: every pointer read; the third byte of a read isn't used")
    for pointer in range(8):
        t.wr(0, pointer)
        t.rd(2, f"pointer {pointer:02X}h:", third=0xFF)
    t.rd(0, "I2CSTA:", third=0x40)
    t.rd(3, "I2CCON:", third=0x01)
    t.note("every pointer written and read back")
    for v in (0x00, 0x55, 0xAA, 0xFF):
        for pointer in range(8):
            t.wr(0, pointer)
            t.wr(2, v, f"pointer {pointer:02X}h, {v:02X}h:")
            t.rd(2, f"pointer {pointer:02X}h:")
    show_registers(t)
    t.note("INDPTR keeps the low three bits")
    for v in (0x08, 0x0F, 0x11, 0x85, 0xFA, 0xFF, 0xF8):
        t.wr(0, v, f"INDPTR {v:02X}h:")
    t.note("I2CMODE keeps the low two bits")
    t.wr(0, 6)
    for v in (0x01, 0x02, 0x03, 0x04, 0x84, 0xFC, 0xFD, 0xFE):
        t.wr(2, v)
        t.rd(2, f"I2CMODE after {v:02X}h:")
    t.note("each pointer has a register of its own")
    for pointer in (0, 1, 2, 3, 4, 6):
        t.wr(0, pointer)
        t.wr(2, 0x11 * (pointer + 1))
    show_registers(t)
    t.wr(0, 7)
    t.wr(2, 0x01, "write at pointer 07h:")
    t.rd(2, "moved count:")


def registers_control(t):
    t.note("I2CCON: written bits 3, 2, 1 are ignored")
    start(t)
    for v in (0x08, 0x04, 0x02, 0x0E, 0x4E, 0xCF, 0x6E, 0xEF, 0x8F, 0x8E):
        t.wr(3, v, f"I2CCON {v:02X}h:")
        t.rd(3, "I2CCON:")
    for v in (0x4E, 0x6E, 0x5E, 0x7F, 0x4F):
        reach(t, "18")
        t.wr(3, v, f"I2CCON {v:02X}h at 18h:")
        t.rd(3, "I2CCON:")
    reach(t, "08")
    t.wr(3, 0x4F, "I2CCON 4Fh at 08h:")
    t.wr(3, 0x4E, "I2CCON 4Eh at 08h:")
    t.note("SI reads 1 in Host, and the status is F8h without it")
    for name in HOSTS:
        reach(t, name)
        t.rd(0, f"I2CSTA at {name}:")
        t.rd(3, f"I2CCON at {name}:")


def registers_resets(t):
    t.note("event 14: every register back, the buffer kept")
    for soft in (0, 1):
        start(t)
        fill(t, 0x21 + soft)
        for pointer, v in ((0, 0xC4), (1, 0x31), (2, 0x32), (3, 0x33),
                           (4, 0x34), (6, 0x03)):
            t.wr(0, pointer)
            t.wr(2, v)
        t.wr(3, 0xE1)
        t.ev(1)
        t.rd(1)
        t.rd(1)
        if soft:
            t.note("software reset: every register back, the buffer kept")
            t.wr(0, 5)
            t.wr(2, 0xA5, "A5h:")
            t.wr(2, 0x5A, "5Ah:")
        else:
            t.ev(14, 0, "event 14:")
        t.rd(0, "I2CSTA:")
        t.rd(3, "I2CCON:")
        t.rd(2, "pointer 0, I2CCOUNT:")
        show_registers(t)
        dump(t)
    t.note("reset values out of a buffered move with moved 2")
    reach(t, "SlaveReceive general", ((0, 0x05),), aa=1, sta=1, mode=1)
    t.ev(7, 0x91)
    t.ev(7, 0x92)
    t.wr(0, 7)
    t.rd(2, "moved count:")
    t.ev(14, 0, "event 14:")
    show_registers(t)
    t.rd(1, "place 0, kept:")
    t.rd(1, "place 1, kept:")


def registers_hand(t):
    t.note("I2CDAT at hand 0 to 68, written and read, in Off")
    start(t)
    fill(t, 0x40)
    t.wr(1, 0xEE, "write at hand 68:")
    t.rd(1, "read at hand 68:")
    t.wr(3, 0x40, "hand back to 0:")
    dump(t)
    t.rd(1, "read at hand 68:")
    t.wr(1, 0xEE, "write at hand 68:")
    t.note("reads and writes share the hand place; MODE 1")
    t.wr(3, 0x41, "MODE 1, hand back to 0:")
    t.rd(1, "place 0:")
    t.wr(1, 0xB1, "place 1 written:")
    t.rd(1, "place 2:")
    t.wr(1, 0xB3, "place 3 written:")
    t.wr(3, 0x40, "MODE 0, hand back to 0:")
    dump(t, 5)
    t.note("other accesses leave the hand place")
    t.rd(0)
    t.rd(3)
    t.wr(0, 1)
    t.rd(2)
    t.wr(2, 0xE0)
    t.rd(1, "place 5:")


def registers_back(t):
    t.note("hand back to 0 when SI becomes 1, in each event that gives it")
    for name, options, n, a in (
            ("Free", {"sta": 1}, 1, 0), ("Free", {"sta": 1}, 11, 0),
            ("Free", {}, 12, 0), ("Listen", {"aa": 1}, 5, 0xE0),
            ("Listen", {"aa": 1}, 5, 0xE1), ("Busy", {"sta": 1}, 13, 0),
            ("Listen", {"sta": 1}, 13, 0), ("Busy", {}, 12, 0),
            ("Listen", {}, 12, 0)):
        reach(t, name, **options)
        t.rd(1)
        t.rd(1)
        t.ev(n, a, f"event {n} in {name}, hand 2 before:")
    t.note("hand stays when no status is given")
    for name, n, a in (("Free", 2, 0), ("Busy", 2, 0), ("Busy", 3, 0),
                       ("Listen", 5, 0x02), ("Free", 10, 0),
                       ("Busy", 10, 0), ("Listen", 10, 0), ("Free", 1, 0)):
        reach(t, name)
        t.rd(1)
        t.rd(1)
        t.ev(n, a, f"event {n} in {name}, hand 2 before:")
    registers_back_writes(t)


def registers_back_writes(t):
    t.note("hand back to 0 at an accepted I2CCON write, not at a refused one")
    for name, bad, good in (("08", 0x41, 0x40), ("40", 0x60, 0x40),
                            ("58", 0x40, 0x50), ("A8", 0, 0xC0),
                            ("38", 0, 0x40), ("A0 stop", 0, 0x40)):
        reach(t, name)
        t.rd(1)
        t.rd(1)
        t.rd(1)
        if bad:
            t.wr(3, bad, f"I2CCON {bad:02X}h at {name}, hand 3:")
        t.wr(3, good, f"I2CCON {good:02X}h at {name}, hand 3:")
    t.note("in Byte mode I2CDAT goes beyond place 0, the data byte is place 0")
    reach(t, "18")
    t.wr(1, 0xD0)
    t.wr(1, 0xD1, "place 1 in Byte mode:")
    t.wr(3, 0x40)
    t.ev(6, 0, "the byte sent:")
    t.rd(1, "place 0:")
    t.rd(1, "place 1:")
    t.wr(3, 0x40)
    t.ev(6, 0, "place 0 again:")
