"""Cases h to m; a to g are inputs of the program `job`."""

from reach import pattern
from trace import Trace


def make_cases():
    make_case_h()
    make_case_i()
    make_case_j()
    make_case_k()
    make_case_l()
    make_case_m()


def make_case_h():
    t = Trace("case-h", 'Case h: "BC 0 refused 6"')
    t.wr(0, 0, "pointer 00h, I2CCOUNT")
    t.wr(2, 0x00, "LB 0, BC 0")
    t.wr(3, 0x60, "STA:")
    t.ev(1, 0, "own START:")
    t.wr(1, 0xA0, "the address byte")
    t.wr(3, 0x40, "sent:")
    t.ev(6, 0, "and acknowledged:")
    t.wr(3, 0x41, "41h at 18h, BC 0:")
    t.rd(0, "I2CSTA:")
    t.wr(2, 0x01, "BC 1")
    t.wr(3, 0x41, "41h at 18h, BC 1:")


def make_case_i():
    t = Trace("case-i", 'Case i: "address byte 00h with GC 0 gives Busy"')
    t.wr(0, 1, "pointer 01h, I2CADR")
    t.rd(2, "own address 70h, GC 0:")
    t.wr(3, 0xC0, "AA 1:")
    t.ev(2, 0, "another's START:")
    t.ev(5, 0x00, "address byte 00h, AA 1, GC 0:")
    t.wr(2, 0xE1, "GC 1")
    t.ev(2, 0, "another's START:")
    t.ev(5, 0x00, "address byte 00h, AA 1, GC 1:")


def make_case_j():
    t = Trace("case-j", 'Case j: "01h with own address 0 gives Busy"')
    t.note("GC is 1, so 01h is neither the own address nor a General Call")
    t.wr(0, 1, "pointer 01h, I2CADR")
    t.wr(2, 0x01, "own address 0, GC 1")
    t.wr(3, 0xC0, "AA 1:")
    t.ev(2, 0, "another's START:")
    t.ev(5, 0x01, "address byte 01h, AA 1, own address 0:")
    t.ev(2, 0, "another's START:")
    t.ev(5, 0x00, "address byte 00h, AA 1, GC 1:")


def make_case_k():
    t = Trace("case-k", 'Case k: "event 8 with an equal byte is refused 8"')
    t.wr(3, 0x60, "STA:")
    t.ev(1, 0, "own START:")
    t.wr(1, 0xA0, "the address byte, ours")
    t.wr(3, 0x40, "sent:")
    t.ev(8, 0xA0, "ours is A0h, the winner's A0h:")
    t.ev(8, 0x9F, "ours is A0h, the winner's 9Fh:")


def make_case_l():
    t = Trace("case-l", "Case l: event 12 with TE 0 is refused 8")
    t.wr(0, 4)
    t.rd(2, "I2CTO of a fresh controller:")
    t.wr(2, 0x7F, "TE 0")
    t.wr(3, 0x40)
    t.ev(12, 0, "event 12, TE 0, Free:")
    t.wr(2, 0xFF, "TE 1")
    t.ev(12, 0, "event 12, TE 1, Free:")


def make_case_m():
    t = Trace("case-m", "Case m: the 69th I2CDAT read is refused 7")
    t.wr(3, 0x40)
    for k in range(68):
        t.wr(1, pattern(k))
    t.wr(3, 0x40, "hand back to 0")
    for k in range(68):
        t.rd(1, f"place {k}:")
    t.rd(1, "the 69th read:")
    t.rd(1, "once more:")
