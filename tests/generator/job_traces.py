"""Traces with jobs: in a row, and after each answer."""

from job_lost import make_lost_jobs
from job_mix import make_mixes
from job_old import make_old_contents
from job_refusals import make_before_jobs, make_refused_jobs
from job_steps import LOST_BY, at_once, done_read, done_write, usable_again
from pairs import ACK, DATA_LOST, NACK, RESET, START, STOP, read_script
from reach import dump, fill, pattern, show_registers, start
from trace import Trace


def make_job_traces():
    make_in_a_row()
    make_after_25()
    make_lost_jobs()
    make_after_26()
    make_after_27()
    make_after_28()
    make_after_29()
    make_refused_jobs()
    make_before_jobs()
    make_mixes()
    make_old_contents()


def make_in_a_row():
    t = Trace("jobs-in-a-row", "Jobs one after another")
    start(t)
    t.wr(3, 0x40, "enabled:")
    done_write(t)
    done_read(t)
    done_read(t, [0x01])
    done_write(t, [0x02], 0x08)
    done_write(t, [0x03], 0x77)
    t.job(23, 0, 0x50, 2, [4, 5], [START, NACK, STOP])
    t.job(23, 1, 0x50, 2, (), [START, NACK, STOP])
    for k in (1, 2, 3):
        t.job(24, 0, 0x50, 3, [6, 7, 8], [START] + [ACK] * k + [NACK, STOP])
    in_a_row_full(t)
    t.note("more than 255 pairs")
    t.job(0, 1, 0x50, 1, (), [(10, 0)] * 300 + read_script([0x09]))
    t.job(27, 1, 0x50, 1, (), [(10, 0)] * 256)
    t.wr(3, 0x40, "STA 0:")
    t.note("short ones after it, and places beyond n keep what they hold")
    done_read(t, [0xE1, 0xE2, 0xE3])
    done_write(t, [0xF1, 0xF2])
    t.rd(3, "I2CCON:")
    t.rd(2, "I2CCOUNT, n of the write:")
    dump(t, 6)
    done_read(t, [0xE4], show="hand 6 before it")
    t.rd(2, "I2CCOUNT, 128 + n of the read:")


def in_a_row_full(t):
    t.note("n 68 both ways")
    done_write(t, [pattern(k, 0x21) for k in range(68)])
    dump(t)
    done_read(t, [pattern(k, 0x42) for k in range(68)], 0x3B)
    t.job(24, 0, 0x50, 68, [pattern(k, 0x63) for k in range(68)],
          [START] + [ACK] * 68 + [NACK, STOP])
    show_registers(t)


def make_after_25():
    t = Trace("jobs-after-25", "Answer 25, another job at once, and on")
    for name, script in LOST_BY.items():
        for way in ("reset pin", "software reset", "I2CCON writes"):
            t.note(f"lost by {name}, then {way}")
            start(t)
            t.wr(3, 0x40)
            t.job(25, 0, 0x50, 3, [1, 2, 3], script)
            at_once(t)
            t.wr(3, 0x40, "40h at 38h:")
            at_once(t)
            usable_again(t, way)
    t.note("another's STOP makes it Free")
    t.job(25, 1, 0x50, 2, (), [START, ACK, (7, 0x31), DATA_LOST])
    at_once(t)
    t.ev(3, 0, "another's STOP:")
    done_read(t)
    t.note("own address and General Call, AA is 0")
    t.wr(0, 1)
    t.wr(2, 0xE1, "GC 1:")
    for byte in (0xE0, 0xE1, 0x00):
        t.job(25, 0, 0x77, 1, [1], [START, (8, byte)])
        t.ev(3, 0, "another's STOP:")
    done_write(t)


def make_after_26():
    t = Trace("jobs-after-26", "Answer 26, another job at once, and on")
    ways = {"00h": [START, (10, 0)], "00h amid": [START, ACK, ACK, (10, 0)],
            "70h": [(11, 0)], "78h": [(12, 0)],
            "78h amid": [START, ACK, ACK, (12, 0)],
            "78h in Busy": [(2, 0), (5, 0x40), (12, 0)],
            "00h after 28h": [START, ACK, ACK, ACK, (10, 0)],
            "78h after 20h": [START, NACK, (12, 0)],
            "00h after 30h": [START, ACK, NACK, (10, 0)]}
    for name, script in ways.items():
        for way in ("reset pin", "software reset"):
            t.note(f"fault {name}, then {way}")
            start(t)
            t.wr(3, 0x40)
            t.job(26, 0, 0x50, 2, [1, 2], script)
            t.rd(0, "I2CSTA:")
            t.rd(3, "I2CCON:")
            at_once(t)
            t.wr(3, 0x40, "40h:")
            t.wr(3, 0x00, "00h:")
            usable_again(t, way)
    for script in ([START, ACK, (7, 0x32), (10, 0)],
                   [START, NACK, (10, 0)],
                   [START, ACK, (7, 0x33), (7, 0x34), (12, 0)]):
        t.note("fault in a read")
        t.job(26, 1, 0x50, 2, (), script)
        at_once(t)
        usable_again(t, "reset pin")


# The points where a script may end: kind and pairs of a job of 2
POINTS = {
    "Free": (0, []), "Listen": (0, [(2, 0)]),
    "Busy": (0, [(2, 0), (5, 0x40)]),
    "Free after another": (0, [(2, 0), (5, 0x40), (3, 0)]),
    "Address": (0, [START]), "Send": (0, [START, ACK]),
    "Send, one moved": (0, [START, ACK, ACK]),
    "Receive": (1, [START, ACK]),
    "Receive, one moved": (1, [START, ACK, (7, 0x35)]),
    "Stopping after 20h": (0, [START, NACK]),
    "Stopping after 28h": (0, [START, ACK, ACK, ACK]),
    "Stopping after 30h": (0, [START, ACK, NACK]),
    "Stopping after 48h": (1, [START, NACK]),
    "Stopping after 58h": (1, [START, ACK, (7, 0x36), (7, 0x37)]),
}


def stopped_at(t, want, name, last):
    """A job of 2 that is led to a point and ends there with `want`."""
    kind, script = POINTS[name]
    start(t)
    t.wr(3, 0x40)
    data = () if kind else [0x21, 0x22]
    t.job(want, kind, 0x50, 2, data, script + last)


def make_after_27():
    t = Trace("jobs-after-27", "Answer 27 at each point, and on")
    for name in POINTS:
        for way in ("reset pin", "software reset"):
            t.note(f"the script ended in {name}, then {way}")
            stopped_at(t, 27, name, [])
            t.rd(0, "I2CSTA:")
            t.rd(3, "I2CCON:")
            at_once(t)
            usable_again(t, way)
    t.note("I2CCON writes are enough in Free, Listen and Busy")
    for name in ("Free", "Listen", "Busy"):
        stopped_at(t, 27, name, [])
        at_once(t)
        usable_again(t, "I2CCON writes")
    stopped_at(t, 27, "Free", [])
    at_once(t)
    t.wr(3, 0x40, "STA 0:")
    done_write(t)
    by_hand(t)


def by_hand(t):
    """What the script left undone is done by groups."""
    t.note("own STOP comes after the script's end")
    for name in POINTS:
        if name.startswith("Stopping"):
            stopped_at(t, 27, name, [])
            t.ev(4, 0, "own STOP:")
            done_read(t)
    t.note("a write left in Address is done by hand")
    stopped_at(t, 27, "Address", [])
    t.ev(6, 0, "address byte:")
    at_once(t)
    t.wr(1, 0x23)
    t.wr(1, 0x24)
    t.wr(3, 0x41, "MODE 1:")
    t.ev(6, 0, "byte 0:")
    t.ev(6, 0, "byte 1:")
    at_once(t)
    t.wr(3, 0x50, "STO:")
    at_once(t)
    t.ev(4, 0, "own STOP:")
    done_write(t)
    t.note("a read left in Receive is done by hand")
    stopped_at(t, 27, "Receive, one moved", [])
    t.ev(7, 0x38, "byte 1:")
    at_once(t)
    dump(t, 3)
    t.wr(3, 0x50, "STO:")
    t.ev(4, 0, "own STOP:")
    done_read(t)


def make_after_28():
    t = Trace("jobs-after-28", "Answer 28 at each point, and on")
    for name in POINTS:
        stopping = name.startswith("Stopping")
        wrong = {8: (9, 0) if stopping or name == "Address" else STOP,
                 2: (1, 1), 1: (15, 0)}
        for number, pair in wrong.items():
            t.note(f"refused {number} in {name}")
            stopped_at(t, 28, name, [pair, STOP, RESET])
            at_once(t)
        usable_again(t, "reset pin" if stopping else "software reset")
    t.note("own STOP comes after the refused pair")
    stopped_at(t, 28, "Stopping after 58h", [(7, 0x39), STOP])
    t.ev(4, 0, "own STOP:")
    done_read(t)
    t.note("TE 0: events 12 and 13 are refused in a job")
    start(t, ((4, 0x7F),))
    t.wr(3, 0x40)
    t.job(28, 0, 0x50, 1, [1], [(12, 0)])
    t.wr(3, 0x40, "STA 0:")
    t.job(28, 0, 0x50, 1, [1], [(2, 0), (5, 0x40), (13, 0), ACK])
    t.ev(3, 0, "another's STOP:")
    at_once(t)
    t.wr(3, 0x40, "STA 0:")
    done_write(t)


def make_after_29():
    t = Trace("jobs-after-29", "Answer 29 at each point, and on")
    for name in POINTS:
        t.note(f"event 14 in {name}")
        stopped_at(t, 29, name, [RESET, START, ACK])
        at_once(t)
        t.rd(2, "I2CCOUNT:")
        t.wr(3, 0x40, "enabled:")
        done_write(t)
        done_read(t)
    t.note("every register is the reset one, the buffer is kept")
    start(t, ((1, 0x31), (2, 0x32), (3, 0x33), (4, 0xB4), (6, 0x03)))
    fill(t, 0x15)
    t.wr(3, 0xC1)
    t.job(29, 0, 0x50, 3, [1, 2, 3], [START, ACK, ACK, RESET])
    show_registers(t)
    dump(t)
