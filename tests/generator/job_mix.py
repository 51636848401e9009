"""Traces that mix jobs with resets, enabling writes and other masters' events."""

from job_steps import OTHERS, at_once, done_read, done_write, soft
from pairs import ACK, NACK, RESET, START, STOP
from trace import Trace


def make_mixes():
    make_between_resets()
    make_other_masters()


def two_jobs(t):
    done_write(t)
    done_read(t)


def make_between_resets():
    t = Trace("jobs-between-resets", "Resets and enabling writes around jobs")
    at_once(t)
    for reset in (lambda: t.ev(14, 0, "event 14:"), lambda: soft(t)):
        for v in (0x40, 0x41, 0xC0, 0xC1):
            t.note(f"reset, then {v:02X}h")
            reset()
            at_once(t)
            t.wr(3, v, "enabling:")
            two_jobs(t)
            t.wr(3, v, "enabling again:")
            two_jobs(t)
    t.note("ENSIO 0 is no reset, but Off")
    for v in (0x00, 0x80, 0x01, 0xA1):
        t.wr(3, v, "ENSIO 0:")
        at_once(t)
        t.wr(3, 0x40, "enabling:")
        two_jobs(t)
    t.note("60h enables with STA 1: no job until STA is 0")
    t.ev(14, 0, "event 14:")
    t.wr(3, 0x60, "enabling, STA 1:")
    at_once(t)
    t.wr(3, 0x40, "STA 0:")
    two_jobs(t)
    resets_amid(t)


def resets_amid(t):
    t.note("a software reset while a job's move was left undone")
    for script in ([START], [START, ACK], [START, ACK, ACK], [START, NACK]):
        t.job(27, 0, 0x50, 2, [0x41, 0x42], script)
        at_once(t)
        t.wr(3, 0x40, "enabling, in a wire turn:")
        soft(t)
        at_once(t)
        t.wr(3, 0x40, "enabling:")
        two_jobs(t)
    t.note("A5h before a job: 5Ah after it resets nothing")
    t.wr(0, 5)
    t.wr(2, 0xA5, "A5h:")
    done_write(t)
    t.wr(2, 0x5A, "5Ah goes to pointer 00h:")
    t.rd(2, "I2CCOUNT:")
    two_jobs(t)
    t.note("event 14 in a script, one after another")
    for script in ([RESET], [START, RESET], [START, ACK, RESET]):
        t.job(29, 1, 0x50, 1, (), script)
        at_once(t)
        t.wr(3, 0x40, "enabling:")
    two_jobs(t)


def make_other_masters():
    t = Trace("jobs-other-masters", "Other masters between and inside jobs")
    t.wr(3, 0x40, "enabled:")
    t.ev(2, 0, "another's START:")
    at_once(t)
    t.ev(5, 0x40, "address byte:")
    at_once(t)
    t.ev(3, 0, "another's STOP:")
    two_jobs(t)
    t.note("inside scripts")
    waits = (OTHERS + [START], OTHERS * 3 + [START], [(2, 0), (13, 0)],
             [(2, 0), (5, 0x41), (13, 0)], [(2, 0), (5, 0xE0), (3, 0), START],
             [(2, 0), (5, 0x40), (2, 0), (5, 0x00), (13, 0)],
             [(10, 0), (2, 0), (10, 0), (5, 0x40), (10, 0), (3, 0), START])
    for wait in waits:
        t.job(0, 0, 0x50, 1, [0x51], wait + [ACK, ACK, STOP])
        t.job(0, 1, 0x50, 1, (), wait + [ACK, (7, 0x52), STOP])
        t.job(23, 0, 0x50, 1, [0x53], wait + [NACK, STOP])
        t.job(24, 0, 0x50, 1, [0x54], wait + [ACK, NACK, STOP])
    t.note("amid a move they aren't expected")
    for pair in ((2, 0), (3, 0), (5, 0x40)):
        for script in ([START], [START, ACK], [START, NACK]):
            t.job(28, 0, 0x50, 2, [1, 2], script + [pair, STOP])
            t.ev(14)
            t.wr(3, 0x40)
    others_called(t)


def others_called(t):
    t.note("called as a slave between jobs")
    t.wr(3, 0xC0, "AA 1:")
    for byte, then in ((0xE0, 3), (0xE0, 2), (0xE1, 14)):
        t.ev(2, 0, "another's START:")
        t.ev(5, byte, f"address byte {byte:02X}h:")
        at_once(t)
        t.wr(3, 0xC0, "on:")
        at_once(t)
        t.ev(then, 0, f"event {then}:")
        at_once(t)
        t.wr(3, 0xC0, "on:")
        if then == 2:
            at_once(t)
            t.ev(5, 0x40, "another's address:")
            t.ev(3, 0, "another's STOP:")
        two_jobs(t)
        t.wr(3, 0xC0, "AA 1:")
    t.note("lost to another, who goes on: its STOP alone is heard")
    t.job(25, 0, 0x50, 1, [0x55], [START, (8, 0x40)])
    t.ev(2, 0, "another's START:")
    at_once(t)
    t.ev(5, 0x42, "address byte:")
    at_once(t)
    t.ev(3, 0, "another's STOP:")
    two_jobs(t)
    t.job(27, 0, 0x50, 1, [0x56], [(2, 0)])
    t.ev(5, 0x42, "address byte:")
    at_once(t)
    t.ev(3, 0, "another's STOP:")
    at_once(t)
    t.wr(3, 0x40, "STA 0:")
    two_jobs(t)
