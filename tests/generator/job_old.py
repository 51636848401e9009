"""Two traces of the same groups that differ in the buffer's old contents.

Demand 3: jobs, resets, enabling writes and events 2, 3 and 5 alone.
"""

from job_steps import LOST_BY, OTHERS, at_once, done_read, done_write, soft
from pairs import ACK, NACK, RESET, START, STOP, bytes_in, write_script
from reach import pattern
from trace import Trace


def make_old_contents():
    for v in (0x00, 0xFF):
        t = Trace(f"jobs-old-{v:02x}", "Jobs, resets, enabling writes and "
                  f"other masters' events; old contents {v:02X}h")
        t.raw(4, v, 0x00, text=f"the 68 places hold {v:02X}h")
        t.c.buffer = [v] * 68
        old_first(t)
        old_ends(t)
        old_called(t)
        old_faults(t)
        old_long(t)
        old_lost(t)


def old_refused(t):
    """Events 2, 3 and 5, accepted or refused, where the record is."""
    for n, a in ((3, 0), (5, 0x40), (2, 1), (3, 0xFF)):
        t.ev(n, a, f"event {n}, argument {a:02X}h:")


def old_first(t):
    t.note("reads first, when no place was written yet")
    at_once(t)
    old_refused(t)
    t.wr(3, 0x40, "enabling:")
    old_refused(t)
    done_read(t, [0x5C])
    t.ev(14, 0, "event 14:")
    at_once(t)
    t.wr(3, 0xC1, "enabling:")
    done_read(t, [0x5D, 0x5E])
    soft(t)
    at_once(t)
    t.wr(3, 0x40, "enabling:")
    done_write(t, [0x11])
    done_read(t, [0x00, 0xFF, 0x00])
    t.job(21, 1, 0x50, 69, (), [START])
    t.job(21, 0, 0x78, 1, [1], [START])
    t.job(21, 0, 0x50, 0, (), [START])


def old_ends(t):
    t.note("each answer, and jobs at once after it")
    data = [0x61, 0x62, 0x63]
    ends = ((23, [START, NACK, STOP]), (24, [START, ACK, NACK, STOP]),
            (24, [START, ACK, ACK, ACK, NACK, STOP]), (25, [START, (8, 0)]),
            (25, [START, (8, 0x9F)]), (25, [START, ACK, ACK, (9, 0)]),
            (27, []), (27, OTHERS[:1]), (27, OTHERS[:2]), (27, [START]),
            (27, [START, ACK, ACK]), (27, [START, ACK, NACK]),
            (28, [START, (8, 0xA0)]), (28, [START, (8, 0xFF)]),
            (28, [START, ACK, STOP]), (28, [(0, 0)]), (28, [START, (6, 2)]),
            (29, [RESET]), (29, [START, ACK, ACK, RESET]))
    for k, (want, script) in enumerate(ends):
        t.job(want, 0, 0x50, 3, data, script)
        old_refused(t)
        if t.c.turn.name == "Free" and not t.c.sta:
            done_read(t, [0x64 + k])
            continue
        at_once(t)
        t.wr(3, 0x40, "enabling:")
        if t.c.turn.name != "Free":
            t.ev(3, 0, "event 3:")
        if t.c.turn.name != "Free":
            soft(t) if k % 2 else t.ev(14, 0, "event 14:")
            at_once(t)
            t.wr(3, 0x40, "enabling:")
        done_read(t, [0x64 + k])


def old_called(t):
    t.note("called as a slave; enabling writes at those statuses")
    for byte, on in ((0xE0, 0xC0), (0xE0, 0x41), (0xE1, 0xC1), (0xE1, 0x40)):
        t.wr(3, 0xC0, "enabling, AA 1:")
        t.ev(2, 0, "event 2:")
        t.ev(5, byte, f"event 5, {byte:02X}h:")
        at_once(t)
        old_refused(t)
        t.wr(3, on, "enabling:")
        at_once(t)
        t.wr(3, 0x40, "enabling, in a wire turn:")
        t.ev(3, 0, "event 3:")
        at_once(t)
        if t.c.turn.name == "SlaveSend":
            soft(t)
        t.wr(3, 0x40, "enabling:")
        done_read(t, [0x81, 0x82])
    t.note("another's START while a slave, and one that calls another")
    t.wr(3, 0xC0, "enabling, AA 1:")
    for n, a in ((2, 0), (5, 0xE0)):
        t.ev(n, a, f"event {n}:")
    t.wr(3, 0xC1, "enabling:")
    t.ev(2, 0, "event 2:")
    t.wr(3, 0xC0, "enabling:")
    t.ev(5, 0x00, "event 5, 00h, GC 0:")
    t.ev(3, 0, "event 3:")
    done_write(t, [0x83, 0x84])
    t.job(0, 1, 0x50, 2, (), OTHERS + [(2, 0), (13, 0), ACK]
          + bytes_in([0x85, 0x86]) + [STOP])


def old_faults(t):
    t.note("faults, left by a reset alone")
    faults = ([(11, 0)], [(12, 0)], [START, (10, 0)], [START, (12, 0)],
              [START, ACK, (7, 0x87), (10, 0)], [START, NACK, (12, 0)],
              [START, ACK, (7, 0x88), (7, 0x89), (7, 0x8A), (10, 0)])
    for k, script in enumerate(faults):
        t.job(26, 1, 0x50, 3, (), script)
        at_once(t)
        t.wr(3, 0x40, "enabling:")
        old_refused(t)
        soft(t) if k % 2 else t.ev(14, 0, "event 14:")
        at_once(t)
        t.wr(3, 0x40, "enabling:")
        done_read(t, [0x90 + k, 0x91 + k])


def old_long(t):
    t.note("long ones; place 67 keeps its old contents")
    long = [pattern(k, 0x19) for k in range(67)]
    t.job(23, 1, 0x50, 68, (), [START, NACK, STOP])
    t.job(25, 1, 0x50, 68, (), [START, ACK] + bytes_in(long[:30]) + [(9, 0)])
    t.ev(3, 0, "event 3:")
    t.job(29, 1, 0x50, 68, (), [START, ACK] + bytes_in(long[:40]) + [RESET])
    t.wr(3, 0x40, "enabling:")
    t.job(28, 1, 0x50, 67, (), [START, ACK] + bytes_in(long) + [(7, 0)])
    t.ev(14, 0, "event 14:")
    t.wr(3, 0x40, "enabling:")
    done_read(t, long)
    done_write(t, long[::-1])
    t.job(24, 0, 0x50, 67, long, write_script(67)[:-2] + [NACK, STOP])
    done_read(t, [0xFE])


def old_lost(t):
    t.note("lost; enabling writes keep 38h, event 3 leaves it")
    for k, on in enumerate((0x40, 0x60, 0xC1, 0x71)):
        t.job(25, 0, 0x50, 2, [0xB0, 0xB1], LOST_BY["event 9 amid"])
        at_once(t)
        t.wr(3, on, f"enabling, {on:02X}h:")
        at_once(t)
        t.ev(2, 0, "event 2:")
        t.ev(5, 0xE0, "event 5, own address:")
        t.ev(3, 0, "event 3:")
        if t.c.sta:
            at_once(t)
            t.wr(3, 0x40, "enabling:")
        done_read(t, [0xB2 + k, 0xB3])
