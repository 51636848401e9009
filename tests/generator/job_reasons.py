"""Ask 8: the reason after a job, for each answer and each point of its way."""

from job_steps import LOST_BY, OTHERS, usable_again
from pairs import ACK, NACK, RESET, START, STOP, read_script, write_script
from reasons import (
    BYTE_IN, FREE, HELD, IDLE, ILLEGAL, LOST, TIMEOUT, ReasonTrace,
    check_reason, to_free)

# Points of a job of 2: the last status given, its reason, kind and pairs
POINTS = (("08", "none", 0, [START]), ("08", "none", 0, OTHERS[:2] + [IDLE]),
          ("18", "count", 0, [START, ACK]),
          ("18", "count", 0, [START, ACK, ACK]),
          ("40", "count", 1, [START, ACK]),
          ("40", "count", 1, [START, ACK, BYTE_IN]),
          ("20", "nack", 0, [START, NACK]), ("48", "nack", 1, [START, NACK]),
          ("28", "count", 0, [START, ACK, ACK, ACK]),
          ("30", "nack", 0, [START, ACK, NACK]),
          ("58", "nack", 1, [START, ACK, BYTE_IN, BYTE_IN]))
# Before own START no pair gives a status: answer, pairs
WAITS = ((27, []), (27, OTHERS + [ILLEGAL]), (28, OTHERS[:2] + [ACK]))


def make_job_reasons():
    t = ReasonTrace("reason-jobs", "The reason after a job, for each answer")
    t.note("fresh: none yet")
    bad_job(t, "none")
    not_ready(t, "none")
    t.wr(3, 0x40, "enabled:")
    ends(t, 27, "none", 0, [])
    t.wr(3, 0x40, "STA 0:")
    jobs_stopped(t)
    jobs_lost(t)
    jobs_points(t)
    jobs_waiting(t)
    jobs_faults(t)


def ends(t, want, word, kind, script):
    """A job of 2 that is answered as `want` and leaves that reason."""
    data = () if kind else [0x11, 0x22]
    t.job(want, kind, 0x50, 2, data, script, f"reason {word} after it")
    check_reason(t, word)


def bad_job(t, word):
    """Answer 21: n is 0."""
    t.job(21, 1, 0x50, 0, (), [START], f"reason {word} after it")
    check_reason(t, word)


def not_ready(t, word):
    """Answer 22."""
    ends(t, 22, word, 0, write_script(2))


def jobs_stopped(t):
    t.note("own STOP keeps it: after a write that is done that of 28h, after a "
           "read that is done that of 58h, where the last byte is NACKed")
    for want, word, kind, script in (
            (0, "count", 0, write_script(2)),
            (0, "nack", 1, read_script([0x5C, 0x5D])),
            (0, "count", 0, OTHERS[:1] + [IDLE, ACK, ACK, ACK, STOP]),
            (23, "nack", 0, [START, NACK, STOP]),
            (0, "count", 0, write_script(2)),
            (23, "nack", 1, [START, NACK, STOP]),
            (0, "count", 0, write_script(2)),
            (24, "nack", 0, [START, ACK, NACK, STOP]),
            (0, "count", 0, write_script(2)),
            (24, "nack", 0, [START, ACK, ACK, NACK, STOP])):
        ends(t, want, word, kind, script)
    bad_job(t, "nack")


def jobs_lost(t):
    t.note("25: the driver's 40h at 38h and another's STOP keep it")
    for script in LOST_BY.values():
        ends(t, 25, "arbitration", 0, script)
        not_ready(t, "arbitration")
        t.ev(3, 0, "another's STOP:")
        check_reason(t, "arbitration")
    ends(t, 25, "arbitration", 1, [START, ACK, BYTE_IN, LOST])
    t.ev(3, 0, "another's STOP:")
    ends(t, 0, "count", 0, write_script(2))


def jobs_points(t):
    """Jobs: 27 and 28 leave the record as reached; 26 and 29 set it."""
    for status, word, kind, script in POINTS:
        t.note(f"the last status was {status}h")
        for want, last in ((27, []), (28, [(15, 0)])):
            to_free(t, "reset")
            ends(t, want, word, kind, script + last)
    t.note("event 12, and event 14, in Address, Receive and Stopping")
    for _, _, kind, script in POINTS[::5]:
        for want, word, last in ((26, "fault", TIMEOUT), (29, "reset", RESET)):
            to_free(t, "nack")
            ends(t, want, word, kind, script + [last])


def jobs_waiting(t):
    """Jobs: 27 and 28 before own START, and 21 and 22, keep what was."""
    for word in FREE:
        t.note(f"in Free with {word}, no own START")
        for want, script in WAITS:
            to_free(t, word)
            ends(t, want, word, 0, script)
        bad_job(t, word)
        not_ready(t, word)


def jobs_faults(t):
    t.note("26, and what follows it")
    for script in ([HELD], [TIMEOUT], [START, ILLEGAL]):
        to_free(t, "nack")
        ends(t, 26, "fault", 0, script)
        bad_job(t, "fault")
        not_ready(t, "fault")
    usable_again(t, "software reset")
    check_reason(t, "nack")
