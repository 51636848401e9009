"""Traces whose first group fills the buffer."""

from moves import into_move, move
from reach import dump
from trace import Trace


def make_start_ff():
    t = Trace("start-ff", "All 68 places at FFh from the start, some traffic")
    t.raw(4, 0xFF, 0x00, text="the 68 places hold FFh")
    t.c.buffer = [0xFF] * 68
    for pointer in range(8):
        t.wr(0, pointer)
        t.rd(2, f"pointer {pointer:02X}h:")
    t.wr(3, 0x60, "enabled, STA:")
    t.ev(1, 0, "own START:")
    t.rd(1, "place 0:")
    t.wr(3, 0x40, "place 0 left as it is:")
    t.ev(8, 0xFF, "event 8, an equal byte:")
    t.ev(6, 0, "address byte:")
    t.wr(0, 0)
    t.wr(2, 0x83, "LB 1, BC 3:")
    t.wr(3, 0x41, "MODE 1 at 40h:")
    for k in range(3):
        t.ev(7, 0x10 + k, f"byte {k}:")
    dump(t)
    t.rd(1, "the 69th read:")
    t.wr(3, 0x50, "STO:")
    t.ev(4, 0, "own STOP:")
    t.note("event 14 keeps the buffer")
    t.ev(14, 0, "event 14:")
    dump(t, 4)
    t.note("slave send with BC 68, NACK at the fifth byte")
    into_move(t, "A8", 68, aa=1)
    move(t, 6, [0] * 4 + [1], 0xC0)
    t.note("a software reset keeps the buffer")
    t.wr(0, 5)
    t.wr(2, 0xA5, "A5h:")
    t.wr(2, 0x5A, "5Ah:")
    t.wr(1, 0x00, "place 0 written:")
    t.rd(1, "place 1:")
    start_others()


def start_others():
    for v in (0x00, 0x5C):
        s = Trace(f"start-{v:02x}", f"All 68 places at {v:02X}h")
        s.raw(4, v, 0xAB, text="the third byte isn't looked at")
        s.c.buffer = [v] * 68
        s.wr(3, 0x60)
        s.ev(1)
        s.wr(3, 0x40)
        s.ev(8, 0x00, "event 8, winner's 00h:")
        s.ev(6, 0, "event 6:")
        s.rd(1, "I2CDAT:")
