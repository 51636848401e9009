"""A trace in the making, with the model beside it, and what has been covered."""

import bench
import lost_ways
import model
import pairs
from driver import print_job


TRACES = []                  # every trace, in the order made
SEEN_EVENTS = set()          # (turn, event)
SEEN_CONTROL = set()         # (place, STA, STO, AA, MODE), ENSIO 1
SEEN_OFF = set()             # (place), ENSIO 0
SEEN_CALLS = set()           # (event, AA, GC, the byte, whom it calls)
SEEN_LOST_CONTROL = set()    # values at 38h, hand and moved not 0 before
SEEN_LOST_EVENTS = set()     # (event, TE, STA) at 38h
SEEN_LOST_WAYS = set()       # how 38h was left, and how it was kept
SEEN_REASONS = set()         # (status, reason) after a group
SEEN_JOB_REASONS = set()     # (answer, reason) after a job
SEEN_REFUSALS = set()
SEEN_STATUSES = set()

TURNS = ("Off", "Free", "Busy", "Listen", "Address", "Send", "Receive",
         "SlaveReceive own", "SlaveReceive general", "SlaveSend",
         "Stopping", "Restarting")
WIRE = TURNS[4:]
HOSTS = ("00", "08", "10", "18", "20", "28", "30", "38", "40", "48", "50",
         "58", "60", "68", "70", "78", "80", "88", "A0 stop", "A0 start",
         "A8", "B0", "B8", "C0", "C8", "D0", "D8", "E0", "E8")
SOME_HOSTS = ("00", "08", "18", "38", "58", "60", "70", "78", "A0 stop",
              "A0 start", "B8", "E8")


def place(c):
    """A turn with its detail, or for Host the status with its detail."""
    t = c.turn
    name = f"{t.status:02X}" if t.name == "Host" else t.name
    return name + (" " + t.detail if t.detail else "")


def snapshot(c):
    return {**vars(c), "buffer": list(c.buffer)}


def outcome(c, before, kind, n, number, value):
    """A few words on what a group did."""
    if number:
        return f"refused {number}"
    if kind == 0:
        return f"reads {value:02X}h"
    now = place(c)
    words = now + "h" if len(now) == 2 else now
    if now.startswith("A0 "):
        words = "A0h after a " + now[3:].upper()
    if kind == 1 and n != 3:
        words = "accepted"
        if before["armed"] and n == 2 and c.pointer == 0:
            return "reset"
        if c.armed:
            words = "armed"
    if snapshot(c) == before and not c.armed:
        words = "no change"
    if before["armed"] and not c.armed and kind == 1:
        words += ", disarmed"
    if kind == 2 and n == 6:
        words += f", byte {value:02X}h"
    if kind == 2 and n in (5, 7, 8):
        words += ", NACK" if value else ", ACK"
    return words


class Trace:
    """One trace; the model runs beside it, so that asserts can be made."""

    def __init__(self, name, title):
        self.name = name
        self.lines = ["# " + title]
        self.c = model.Controller()
        self.refused = 0             # how many groups were refused so far
        self.printed = 0             # how many lines the groups print
        TRACES.append(self)

    def note(self, text):
        self.lines += ["# " + text]

    def raw(self, *data, text=""):
        body = " ".join(f"{b:02X}" for b in data)
        self.lines.append(body + ("  # " + text if text else ""))

    def put(self, kind, a, b, show):
        c = self.c
        was, before = place(c), snapshot(c)
        number, value, found = bench.group(c, kind, a, b)
        note_cover(c, was, before, kind, a, b, number)
        if found:
            note_call(before, a, b, found)
        self.refused += number != 0
        self.printed += 1
        text = show or ""
        if text.endswith(":"):
            text += " " + outcome(c, before, kind, a, number, value)
        self.raw(kind, a, b, text=text)
        return number

    def rd(self, reg, show=None, third=0):
        return self.put(0, reg, third, show)

    def wr(self, reg, v, show=None):
        return self.put(1, reg, v, show)

    def ev(self, n, a=0, show=None):
        return self.put(2, n, a, show)

    def job(self, want, kind, address, n, data, script, show=""):
        """A job that is answered as `want`; data for a write alone."""
        before = snapshot(self.c)
        part = bytes([bench.JOB, kind, address, n]) + bytes(data)
        number = len(script).to_bytes(2, "little")
        whole = part + number + pairs.flat(script)
        assert bench.next_group(whole, 0) == (len(whole), False)
        result = bench.job_group(self.c, whole)
        check_job(self.c, before, result, want)
        check_bytes(result, kind, script)
        SEEN_JOB_REASONS.add((want, self.c.reason))
        self.printed += 4
        text = pairs.kind_text(kind, address, n)
        self.raw(*part[:4], text=text + (", " + show if show else ""))
        self.lines += pairs.data_lines(data)
        answer = print_job(result).splitlines()[0]
        self.raw(*number, text=f"pairs {len(script)}: {answer}")
        self.lines += pairs.pair_lines(script)
        return result

    def text(self):
        return "\n".join(self.lines) + "\n"


def note_cover(c, was, before, kind, a, b, number):
    """Keeps what has been covered; checks what must hold after a group."""
    assert model.sound(c)
    turn = "Host" if before["turn"].name == "Host" else was
    if was == "38":
        note_lost(c, before, kind, a, b, number)
    note_reason(c, before, (kind, a, b), number)
    if kind == 2:
        SEEN_EVENTS.add((turn, a))
    if kind == 1 and a == 3:
        bits = (b >> 5 & 1, b >> 4 & 1, b >> 7, b & 1)
        if b & model.ENSIO:
            SEEN_CONTROL.add((was,) + bits)
        else:
            SEEN_OFF.add(was)
    SEEN_REFUSALS.add(number)
    SEEN_STATUSES.add(c.status())
    if number:
        assert snapshot(c) == before, "a refusal leaves the record"


def note_reason(c, before, group, number):
    """Ask 8: set with each new status but F8h, and by a reset, else kept."""
    completes = before["armed"] and before["pointer"] == 5
    if not number and (group[:2] == (2, 14) or
                       completes and group == (1, 2, 0x5A)):
        assert c.reason == "reset"
    elif c.turn.name == "Host" and c.turn != before["turn"]:
        assert c.reason == model.reason_of(c.status())
    else:
        assert c.reason == before["reason"]
    SEEN_REASONS.add((c.status(), c.reason))


def note_lost(c, before, kind, a, b, number):
    """Ask 2: keeps what came at 38h, by the record before it."""
    if kind == 1 and a == 3 and before["hand"] and before["moved"]:
        SEEN_LOST_CONTROL.add(b)
    if kind == 2 and number != 2:
        SEEN_LOST_EVENTS.add((a, before["timeout"] >> 7, before["sta"]))
    way = lost_ways.way((kind, a, b), number, c.status() == 0x38)
    if way:
        SEEN_LOST_WAYS.add(way)


def byte_case(own, byte):
    """Ask 5: what an address byte is beside the own address."""
    if own and byte >> 1 == own:
        return f"own R {byte & 1}"
    case = f"{byte:02X}h" if byte < 2 else "another"
    return case if own else case + ", own zero"


def note_call(before, n, byte, found):
    """Keeps whom an accepted event 5 or 8 called, by the record before it."""
    aa, own, gc = before["aa"], before["adr"] >> 1, before["adr"] & 1
    SEEN_CALLS.add((n, aa, gc, byte_case(own, byte), found.words()))
    assert found.address == byte >> 1


def check_job(c, before, result, want):
    """Jobs: what must hold after a job."""
    assert result.answer == want, (result.answer, want)
    assert model.sound(c)
    if want in (21, 22):
        assert snapshot(c) == before, "21 and 22 leave the record"
    else:
        assert c.pointer == 0, "the pointer is left at 00h"


def check_bytes(result, kind, script):
    """Jobs: the bytes sent, and what the bus carried in a finished read."""
    taken = script[:result.events]
    assert len(result.sent) == sum(1 for n, _ in taken if n == 6)
    if kind == 1 and result.answer == 0:
        carried = script[:script.index(pairs.STOP)]
        assert result.handed == [a for n, a in carried if n == 7]
        assert len(result.handed) == result.count
    else:
        assert result.handed == []


def parse(text):
    """The raw bytes of a stored trace."""
    out = b""
    for line in text.splitlines():
        line = line.split("#")[0].strip()
        if line.startswith("repeat "):
            times, body = line[7:].split(":")
            out += bytes.fromhex(body) * int(times)
        else:
            out += bytes.fromhex(line)
    return out
