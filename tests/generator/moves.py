"""Buffered moves of 68 bytes each way."""

from reach import con, dump, fill, pattern, reach, show_registers
from trace import Trace


READ_AT = (0, 1, 20, 34, 67)     # moved counts at which 07h is read


def move(t, step, args, last=None):
    """Events 6 or 7 one after the other; the moved count through 07h."""
    t.wr(0, 7)
    for k, a in enumerate(args):
        if k in READ_AT:
            t.rd(2, "moved count:")
        t.ev(step, a, f"byte {k}:")
        assert k + 1 == len(args) or t.c.turn.name != "Host"
    t.rd(2, "moved count:")
    if last is not None:
        assert t.c.status() == last, hex(t.c.status())
        assert t.c.moved == len(args)


def into_move(t, place_name, count, aa=0, filled=None):
    """Reach a status, fill the buffer if asked, start a buffered move."""
    reach(t, place_name, ((0, count),))
    if filled is not None:
        fill(t, filled)
    t.wr(3, con(aa=aa, mode=1), f"MODE 1, BC {count & 127}:")


def make_moves():
    t = Trace("moves", "Buffered moves, 68 bytes each way")
    moves_send(t)
    moves_receive(t)
    moves_slave_receive(t)
    moves_slave_send(t)
    moves_again(t)


def moves_send(t):
    t.note("master send of 68, all ACK")
    into_move(t, "18", 68, filled=0x05)
    move(t, 6, [0] * 68, 0x28)
    t.ev(6, 0, "one more:")
    t.note("the buffer is as it was")
    dump(t)
    t.note("LB isn't looked at, AA 1: NACK at the 21st byte")
    into_move(t, "18", 0x80 | 68, aa=1)
    move(t, 6, [0] * 20 + [1], 0x30)
    t.note("NACK at the first byte")
    into_move(t, "18", 68)
    move(t, 6, [1], 0x30)
    t.note("NACK on the last of 68")
    into_move(t, "18", 68)
    move(t, 6, [0] * 67 + [1], 0x30)
    t.wr(3, 0x50, "STO:")
    t.rd(2, "moved count:")
    t.ev(4, 0, "own STOP:")


def moves_receive(t):
    for lb, aa, last in ((0, 0, 0x50), (1, 1, 0x58)):
        t.note(f"master receive of 68, LB {lb}, AA {aa}")
        into_move(t, "40", lb << 7 | 68, aa=aa)
        move(t, 7, [pattern(k, 0x11 + lb) for k in range(68)], last)
        dump(t)
        t.rd(1, "the 69th read:")
    t.note("master receive of 68, arbitration lost after 34")
    into_move(t, "40", 68, filled=0x77)
    move(t, 7, [0xEE] * 34)
    t.ev(9, 0, "event 9:")
    t.rd(2, "moved count:")
    for k in range(36):
        t.rd(1, f"place {k}:" if k > 31 else None)


def moves_slave_receive(t):
    for name, codes in (("60", (0x80, 0x88)), ("D0", (0xE0, 0xE8))):
        for lb in (0, 1):
            t.note(f"slave receive of 68 after {name}h, LB {lb}, AA {lb}")
            into_move(t, name, lb << 7 | 68, aa=lb)
            base = 0x30 + 2 * lb + (name == "60")
            move(t, 7, [pattern(k, base) for k in range(68)], codes[lb])
            dump(t)
    for name, n in (("60", 3), ("D0", 2), ("68", 2), ("D8", 3)):
        t.note(f"slave receive after {name}h ended by event {n} after 20")
        into_move(t, name, 68, aa=1, filled=0x50)
        move(t, 7, [0xDD] * 20)
        t.ev(n, 0, f"event {n}:")
        t.rd(2, "moved count:")
        for k in range(22):
            t.rd(1, f"place {k}:" if k > 17 else None)


def moves_slave_send(t):
    for aa, last in ((0, 0xC8), (1, 0xB8)):
        t.note(f"slave send of 68, AA {aa}, all ACK")
        into_move(t, "A8", aa << 7 | 68, aa=aa, filled=0x60 + aa)
        move(t, 6, [0] * 68, last)
        t.note(f"slave send of 68, AA {aa}, NACK at the 21st byte")
        into_move(t, "A8", 68, aa=aa)
        move(t, 6, [0] * 20 + [1], 0xC0)
        t.note(f"slave send of 68, AA {aa}, NACK on the last")
        into_move(t, "B0", 68, aa=aa)
        move(t, 6, [0] * 67 + [1], 0xC0)
    dump(t)


def moves_again(t):
    t.note("one move after another: each begins at place 0, moved at 0")
    into_move(t, "18", 3, filled=0x70)
    move(t, 6, [0, 0, 0], 0x28)
    t.wr(3, 0x41, "MODE 1 at 28h:")
    move(t, 6, [0, 1], 0x30)
    t.wr(3, 0x40, "MODE 0 at 30h:")
    t.ev(6, 0, "Byte mode:")
    t.rd(2, "moved count:")
    t.wr(3, 0x60, "STA at 28h:")
    t.rd(2, "moved count:")
    t.ev(1, 0, "own START:")
    t.wr(1, 0xA1, "address byte:")
    t.wr(3, 0x40, "to Address:")
    t.ev(6, 0, "address byte sent:")
    t.rd(2, "moved count, an address byte doesn't count:")
    t.wr(3, 0x41, "MODE 1 at 40h:")
    move(t, 7, [0x91, 0x92, 0x93], 0x50)
    t.wr(3, 0x40, "MODE 0 at 50h, AA 0:")
    t.ev(7, 0x94, "Byte mode:")
    t.rd(2, "moved count:")
    dump(t, 5)
    moves_registers(t)


def moves_registers(t):
    t.note("a move leaves the registers")
    regs = ((0, 0x83), (1, 0xE1), (2, 0x42), (3, 0x43), (4, 0xC4), (6, 0x01))
    for name, step in (("18", 6), ("40", 7), ("60", 7), ("D0", 7), ("A8", 6)):
        reach(t, name, regs)
        t.wr(3, 0xC1, f"MODE 1 at {name}h:")
        move(t, step, [0, 1, 0] if step == 7 else [0, 0, 0])
        show_registers(t)
    t.note("BC written anew at 28h")
    into_move(t, "18", 1, filled=0x80)
    move(t, 6, [0], 0x28)
    t.wr(0, 0)
    t.wr(2, 2, "BC 2:")
    t.wr(3, 0x41, "MODE 1 at 28h:")
    move(t, 6, [0, 0], 0x28)
