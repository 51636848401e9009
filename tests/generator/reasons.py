"""Ask 8: why a move ended. Each status with its reason, and what keeps it."""

from events import TITLES
from job_steps import soft
from pairs import ACK, NACK, START, STOP
from reach import GENERAL, reach
from trace import HOSTS, TURNS, WIRE, Trace, place

BYTE_IN = (7, 0x5C)
OTHER_START, OTHER_STOP = (2, 0), (3, 0)
LOST, ILLEGAL, HELD, TIMEOUT, IDLE = (9, 0), (10, 0), (11, 0), (12, 0), (13, 0)
# The address byte at 08h and 10h by the status wanted, else A0h
OURS = {"40": 0xA1, "48": 0xA1, "68": 0xF0, "B0": 0xF0, "D8": 0xF0}
TITLE = {"none": "None yet", "count": "Count reached",
         "nack": "NACK, also on the last byte", "outside": "Outside START or "
         "STOP", "arbitration": "Arbitration lost", "fault": "Fault"}

# Ways to each status of a reason: the status, the one before or a turn, the
# I2CCON value written there, and the events; BC is 3, LB 1 for NACK alone
WAYS = {
    "none": (
        ("08", "Off", 0x60, [START]), ("08", "28", 0x70, [STOP, START]),
        ("08", "30", 0x70, [STOP, START]), ("08", "A0 stop", 0x60, [START]),
        ("08", "38", 0x60, [OTHER_STOP, START]), ("08", "C0", 0x60, [IDLE]),
        ("08", "A0 start", 0x60, [IDLE]),
        ("10", "18", 0x60, [START]), ("10", "20", 0x60, [OTHER_START]),
        ("60", "Off", 0xC0, [OTHER_START, (5, 0xE0)]),
        ("60", "A0 start", 0xC0, [(5, 0xE0)]),
        ("A8", "88", 0xC0, [OTHER_START, (5, 0xE1)]),
        ("A8", "C8", 0xC0, [OTHER_STOP, OTHER_START, (5, 0xE1)]),
        ("D0", "58", 0xD0, [STOP, OTHER_START, (5, 0x00)]),
        ("D0", "38", 0xC0, [OTHER_STOP, OTHER_START, (5, 0x00)])),
    "count": (
        ("18", "08", 0x40, [ACK]), ("18", "10", 0x40, [ACK]),
        ("28", "18", 0x40, [ACK]), ("28", "20", 0x40, [ACK]),
        ("28", "30", 0x41, [ACK] * 3),
        ("40", "08", 0x40, [ACK]), ("40", "10", 0x40, [ACK]),
        ("50", "40", 0xC0, [BYTE_IN]), ("50", "50", 0x41, [BYTE_IN] * 3),
        ("80", "60", 0xC0, [BYTE_IN]), ("80", "68", 0x41, [BYTE_IN] * 3),
        ("B8", "A8", 0xC0, [ACK]), ("B8", "B0", 0xC1, [ACK] * 3),
        ("C8", "A8", 0x40, [ACK]), ("C8", "B0", 0x41, [ACK] * 3),
        ("E0", "D0", 0xC0, [BYTE_IN]), ("E0", "D8", 0x41, [BYTE_IN] * 3)),
    "nack": (
        ("20", "08", 0x40, [NACK]), ("20", "10", 0x40, [NACK]),
        ("30", "18", 0x40, [NACK]), ("30", "20", 0x41, [ACK, NACK]),
        ("30", "28", 0x41, [ACK, ACK, NACK]),
        ("48", "08", 0x40, [NACK]), ("48", "10", 0x40, [NACK]),
        ("58", "40", 0x40, [BYTE_IN]), ("58", "50", 0x41, [BYTE_IN] * 3),
        ("88", "60", 0x40, [BYTE_IN]), ("88", "68", 0xC1, [BYTE_IN] * 3),
        ("88", "80", 0x40, [BYTE_IN]),
        ("C0", "A8", 0xC0, [NACK]), ("C0", "B0", 0xC1, [ACK, ACK, NACK]),
        ("C0", "B8", 0x41, [ACK, NACK]),
        ("E8", "D0", 0x40, [BYTE_IN]), ("E8", "D8", 0xC1, [BYTE_IN] * 3),
        ("E8", "E0", 0x40, [BYTE_IN])),
    "outside": (
        ("A0 stop", "60", 0xC0, [OTHER_STOP]),
        ("A0 start", "60", 0x40, [OTHER_START]),
        ("A0 stop", "68", 0xC1, [BYTE_IN, OTHER_STOP]),
        ("A0 start", "68", 0x40, [OTHER_START]),
        ("A0 stop", "80", 0x40, [OTHER_STOP]),
        ("A0 start", "80", 0xC1, [BYTE_IN, BYTE_IN, OTHER_START]),
        ("A0 stop", "D0", 0xC0, [OTHER_STOP]),
        ("A0 start", "D8", 0xC1, [BYTE_IN, OTHER_START]),
        ("A0 start", "E0", 0x40, [OTHER_START])),
    "arbitration": (
        ("38", "08", 0x40, [(8, 0x02)]), ("38", "10", 0x40, [(8, 0x02)]),
        ("38", "18", 0x40, [LOST]), ("38", "20", 0x41, [ACK, LOST]),
        ("38", "40", 0x40, [LOST]), ("38", "50", 0x41, [BYTE_IN, LOST]),
        ("68", "08", 0xC0, [(8, 0xE0)]), ("68", "10", 0xC0, [(8, 0xE0)]),
        ("B0", "08", 0xC0, [(8, 0xE1)]), ("B0", "10", 0xC0, [(8, 0xE1)]),
        ("D8", "08", 0xC0, [(8, 0x00)]), ("D8", "10", 0xC0, [(8, 0x00)])),
    "fault": (
        ("00", "08", 0x40, [ILLEGAL]), ("00", "18", 0x41, [ACK, ILLEGAL]),
        ("00", "40", 0x40, [ILLEGAL]), ("00", "68", 0xC0, [ILLEGAL]),
        ("00", "D0", 0xC0, [ILLEGAL]), ("00", "B0", 0xC0, [ILLEGAL]),
        ("00", "30", 0x50, [ILLEGAL]), ("00", "48", 0x60, [ILLEGAL]),
        ("70", "Off", 0x60, [HELD]), ("70", "A0 stop", 0x60, [HELD]),
        ("70", "20", 0x60, [HELD]), ("70", "38", 0x60, [OTHER_STOP, HELD]),
        ("78", "Off", 0x40, [TIMEOUT]), ("78", "88", 0x40, [TIMEOUT]),
        ("78", "A0 start", 0x40, [TIMEOUT]), ("78", "58", 0x50, [TIMEOUT]),
        ("78", "A8", 0xC1, [ACK, TIMEOUT]), ("78", "38", 0x60, [TIMEOUT])),
}

# I2CCON values at each status: the last is taken, at 38h all are, at 00h, 70h
# and 78h none
CONTROL = {
    "00": (0x40, 0x00), "08": (0x41, 0x40), "10": (0x61, 0x60),
    "18": (0x40,), "20": (0x60,), "28": (0x50,), "30": (0x70,),
    "38": (0x40, 0x60, 0x50, 0xF1), "40": (0x60, 0x41), "48": (0x40, 0x60),
    "50": (0x50, 0xC0), "58": (0x41, 0x70), "60": (0xC0,), "68": (0xC1,),
    "70": (0x60, 0x80), "78": (0x50, 0xB1), "80": (0x40,), "88": (0x60,),
    "A0 stop": (0xE0,), "A0 start": (0x41,), "A8": (0xC1,), "B0": (0x40,),
    "B8": (0x41,), "C0": (0xC0,), "C8": (0x40,), "D0": (0xC1,),
    "D8": (0x40,), "E0": (0xC0,), "E8": (0x61,),
}

# Free with each reason but fault, which no event and no write leaves
FREE = {"none": ("08", (0x00, 0x40), []), "count": ("28", (0x50,), [STOP]),
        "nack": ("48", (0x50,), [STOP]), "outside": ("A0 stop", (0x40,), []),
        "arbitration": ("38", (0x40,), [OTHER_STOP]),
        "reset": ("Off", (0x40,), [])}


class ReasonTrace(Trace):
    """A trace whose comments tell the reason after the group."""

    def put(self, kind, a, b, show):
        number = super().put(kind, a, b, show)
        if show:
            self.lines[-1] += ", reason " + self.c.reason
        return number


def make_reasons():
    for word in WAYS:
        make_reason(word)
    make_reason_control()
    make_reason_kept()
    make_reason_reset()


def at(name):
    """A turn as it is, a status with its h."""
    return name if name in TURNS else name[:2] + "h" + name[2:]


def put_event(t, n, a):
    """An event, in words."""
    words = TITLES.get(n, f"event {n}")
    if n == 6 and a < 2:
        words += (", ACK", ", NACK")[a]
    elif n in (5, 8):
        words += f", {a:02X}h"
    elif n != 7 and a:
        words += f", argument {a:02X}h"
    t.ev(n, a, words + ":")


def check_reason(t, word):
    """The reason now, told by hand."""
    assert t.c.reason == word, (t.lines[-1], word)


# ---- Each status with its reason -------------------------------------------

def make_reason(word):
    codes = dict.fromkeys(way[0][:2] + "h" for way in WAYS[word])
    t = ReasonTrace("reason-" + word, f"{TITLE[word]}: " + ", ".join(codes))
    for way in WAYS[word]:
        lead(t, word, *way)


def lead(t, word, status, before, value, events):
    """From a place to a status; up to the last event the reason is kept."""
    t.note(f"{at(status)} from {at(before)}")
    regs = ((0, 0x83 if word == "nack" else 0x03),)
    if status in GENERAL:
        regs += ((1, 0xE1),)         # GC 1
    reach(t, before, regs)
    reason = t.c.reason
    if before in ("08", "10"):
        t.wr(1, OURS.get(status, 0xA0))
    t.wr(3, value, f"I2CCON {value:02X}h at {at(before)}:")
    for n, a in events:
        check_reason(t, reason)      # kept so far
        put_event(t, n, a)
    assert (place(t.c), t.c.reason) == (status, word), (status, before)


# ---- Kept ------------------------------------------------------------------

def make_reason_control():
    t = ReasonTrace("reason-control", "Kept by I2CCON writes at each status, "
                    "accepted or refused, and by what is refused there")
    words = {way[0]: word for word in WAYS for way in WAYS[word]}
    for name in HOSTS:
        t.note(f"at {at(name)}")
        reach(t, name)
        t.rd(0, "I2CSTA:")
        put_event(t, 1, 0)
        for v in CONTROL[name]:
            t.wr(3, v, f"I2CCON {v:02X}h:")
            check_reason(t, words[name])
        if t.c.turn.name in WIRE:
            t.wr(3, 0x00, "I2CCON 00h:")
            t.rd(1, "I2CDAT:")
            put_event(t, 5, 0xE0)
        check_reason(t, words[name])
    for name in ("08", "28", "30", "38", "58", "80", "A0 start", "B0", "C0"):
        t.note(f"at {at(name)}: Off and on")
        reach(t, name)
        for v in (0x80, 0x40):
            t.wr(3, v, f"I2CCON {v:02X}h:")
            check_reason(t, words[name])


def to_free(t, word):
    """To Free with that reason."""
    before, values, events = FREE[word]
    reach(t, before)
    for v in values:
        t.wr(3, v, f"I2CCON {v:02X}h:")
    for n, a in events:
        put_event(t, n, a)
    assert (place(t.c), t.c.reason) == ("Free", word)


def make_reason_kept():
    t = ReasonTrace("reason-kept", "Kept in Free, Listen, Busy and Off, until "
                    "the next status sets it")
    for word in FREE:
        t.note(f"{word}: accesses, accepted and refused")
        to_free(t, word)
        kept_accesses(t)
        check_reason(t, word)
        t.note(f"{word}: events")
        kept_events(t)
        check_reason(t, word)
        t.note(f"{word}: Off and on, then a status sets it")
        t.wr(3, 0xB1, "I2CCON B1h, ENSIO 0:")
        put_event(t, 2, 0)
        t.wr(3, 0x60, "I2CCON 60h:")
        check_reason(t, word)
        put_event(t, *(HELD if word == "none" else START))
        check_reason(t, "fault" if word == "none" else "none")


def kept_accesses(t):
    """Accesses and events in Free that give no status."""
    for reg, words in ((0, "I2CSTA"), (1, "I2CDAT"), (2, "I2CCOUNT"),
                       (3, "I2CCON"), (4, "register 4")):
        t.rd(reg, f"read {words}:")
    t.wr(1, 0x11, "write I2CDAT:")
    t.wr(0, 5, "INDPTR 05h:")
    t.rd(2, "read I2CPRESET:")
    t.wr(2, 0xA5, "A5h:")
    t.wr(2, 0x00, "00h:")
    t.wr(2, 0x5A, "5Ah:")
    t.wr(0, 7, "INDPTR 07h:")
    t.wr(2, 0x00, "write at 07h:")
    for v in (0xE1, 0x40):
        t.wr(3, v, f"I2CCON {v:02X}h in Free:")
    for n, a in ((1, 0), (4, 0), (14, 1), (6, 2), (15, 0)):
        put_event(t, n, a)


def kept_events(t):
    """Other masters' traffic that calls another, event 10 in each turn."""
    steps = (ILLEGAL, OTHER_START, ILLEGAL, 0xC0, (5, 0x40), ILLEGAL, 0x40,
             IDLE, OTHER_START, (5, 0xE0), OTHER_STOP)
    for step in steps:
        if isinstance(step, tuple):
            put_event(t, *step)
        else:
            t.wr(3, step, f"I2CCON {step:02X}h in {place(t.c)}:")
    assert place(t.c) == "Free"


# ---- A fresh controller, and resets ----------------------------------------

def make_reason_reset():
    t = ReasonTrace("reason-reset", "A fresh controller, and both resets")
    t.raw(4, 0x5C, 0x00, text="the 68 places hold 5Ch; none yet")
    t.c.buffer = [0x5C] * 68
    for reg in range(4):
        t.rd(reg, f"fresh, register {reg}:")
    put_event(t, 2, 0)
    for v in (0x40, 0x00):
        t.wr(3, v, f"I2CCON {v:02X}h:")
    check_reason(t, "none")
    soft(t)
    check_reason(t, "reset")
    for word, name in (("none", "08"), ("none", "Address"), ("count", "28"),
                       ("count", "Receive"), ("nack", "58"),
                       ("outside", "A0 stop"), ("arbitration", "38"),
                       ("arbitration", "D8"), ("fault", "00"),
                       ("fault", "70"), ("fault", "78")):
        both_resets(t, word, name)
    for word in FREE:
        t.note(f"in Free with {word}")
        to_free(t, word)
        t.ev(14, 0, "event 14:")
        t.ev(14, 0, "event 14 again:")
        check_reason(t, "reset")


def both_resets(t, word, name):
    t.note(f"at {at(name)}: event 14")
    reach(t, name)
    t.ev(14, 1, "event 14, argument 01h:")
    check_reason(t, word)
    t.ev(14, 0, "event 14:")
    check_reason(t, "reset")
    t.note(f"at {at(name)}: software reset")
    reach(t, name)
    t.wr(0, 5, "INDPTR 05h:")
    for v in (0x5A, 0xA5, 0x00, 0x5A, 0xA5):
        t.wr(2, v, f"{v:02X}h:")
        check_reason(t, word)
    t.wr(2, 0x5A, "5Ah:")
    check_reason(t, "reset")
