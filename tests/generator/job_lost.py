"""Traces with answer 25 and jobs after it, by each way out of 38h."""

from job_steps import LOST_BY, at_once, done_read, done_write, usable_again
from pairs import ACK, DATA_LOST, START
from reach import start
from trace import Trace


def make_lost_jobs():
    make_lost_stop()
    make_lost_sta()
    make_lost_fault()


def lost_job(t, name, then=""):
    """A job answered 25, and jobs at once; Ask 2: at 38h all along."""
    t.note("lost by " + name + then)
    t.job(25, 0, 0x50, 3, [1, 2, 3], LOST_BY[name])
    at_once(t)
    assert t.c.status() == 0x38


def written(values):
    """Words for what is written to I2CCON."""
    return "".join(f", then {v:02X}h" for v in values)


def control_writes(t, values):
    """I2CCON writes, each with jobs at once after it."""
    for v in values:
        t.wr(3, v, f"I2CCON {v:02X}h:")
        at_once(t)


def make_lost_stop():
    t = Trace("jobs-lost-stop", "Answer 25: no job until another's STOP")
    t.wr(3, 0x40, "enabled:")
    for name in LOST_BY:
        for values in ((), (0x40,), (0x60, 0x50), (0xF1, 0x41, 0xC0)):
            lost_job(t, name, written(values))
            control_writes(t, values)
            t.ev(2, 0, "another's START:")
            t.ev(13, 0, "idle past the time-out:")
            at_once(t)
            t.ev(3, 0, "another's STOP:")
            done_write(t)
            done_read(t)
    t.note("lost again at once, and a read that is lost")
    for _ in range(3):
        t.job(25, 1, 0x50, 2, (), [START, ACK, (7, 0x31), DATA_LOST])
        at_once(t)
        t.ev(3, 0, "another's STOP:")
    done_read(t)


def make_lost_sta():
    t = Trace("jobs-lost-sta", "Answer 25, STA stored at 38h: no job after "
              "another's STOP until STA is 0")
    t.wr(3, 0x40, "enabled:")
    for v in (0x60, 0xE1):
        lost_job(t, "event 8")
        control_writes(t, (v,))
        t.ev(3, 0, "another's STOP:")
        at_once(t)
        t.wr(3, 0x40, "STA 0:")
        done_write(t)
    t.note("STA taken back at 38h")
    lost_job(t, "event 9")
    control_writes(t, (0x60, 0x40))
    t.ev(3, 0, "another's STOP:")
    done_read(t)
    t.note("STA taken back by what leads to Off")
    for way in ("reset pin", "software reset", "I2CCON writes"):
        lost_job(t, "event 9")
        control_writes(t, (0x60,))
        usable_again(t, way)


def make_lost_fault():
    t = Trace("jobs-lost-fault", "Answer 25, then 78h: no job until a reset")
    for way in ("reset pin", "software reset"):
        for values in ((), (0x60,)):
            start(t)
            t.wr(3, 0x40, "enabled:")
            lost_job(t, "event 9 amid", written(values) + ", " + way)
            control_writes(t, values)
            t.ev(12, 0, "event 12:")
            control_writes(t, (0x40, 0x00))
            t.ev(3, 0, "another's STOP:")
            at_once(t)
            usable_again(t, way)
    t.note("TE 0: event 12 is refused, another's STOP taken")
    start(t, ((4, 0x7F),))
    t.wr(3, 0x40, "enabled:")
    lost_job(t, "event 8")
    t.ev(12, 0, "event 12:")
    at_once(t)
    t.ev(3, 0, "another's STOP:")
    done_write(t)
