"""I2CCON writes at every status, with every combination of flags."""

from reach import address, bits_text, con, reach, show_registers, start
from trace import TURNS, Trace


CONTROL_GROUPS = {
    "idle": ("Off", "Free", "Busy", "Listen"),
    "start": ("08", "10"),
    "sent": ("18", "20", "28", "30"),
    "received": ("40", "48", "50", "58"),
    "lost": ("38", "00", "70", "78"),
    "own": ("60", "68", "80", "88", "A0 stop", "A0 start"),
    "general": ("D0", "D8", "E0", "E8"),
    "slave-send": ("A8", "B0", "B8", "C0", "C8"),
}
MOVE_STARTS = ("18", "20", "28", "30", "40", "50", "60", "68", "80",
               "D0", "D8", "E0", "A8", "B0", "B8")


def ready(t, name, regs=()):
    """Reach a place and move the hand on, so that its way back shows."""
    reach(t, name, regs)
    t.rd(1)


def control_series(t, name, values):
    """Writes of I2CCON at a place; it is reached again when one was taken."""
    fresh = False
    for v in values:
        if not fresh:
            ready(t, name)
        at = name if name in TURNS else name[:2] + "h" + name[2:]
        fresh = t.wr(3, v, f"{bits_text(v)} at {at}:") != 0


def make_control():
    every = [con(aa, sta, sto, mode) for aa in (0, 1) for sta in (0, 1)
             for sto in (0, 1) for mode in (0, 1)]
    for group, names in CONTROL_GROUPS.items():
        t = Trace(f"control-{group}", "I2CCON writes at " + ", ".join(names))
        for name in names:
            t.note(f"at {name}, ENSIO 1")
            control_series(t, name, every)
            t.note(f"at {name}, ENSIO 0")
            off = [v ^ 0x40 for v in every]
            if group not in ("idle", "sent"):
                off = [0x00, 0x31, 0x80, 0xB1]
            control_series(t, name, off)
    make_counts()
    make_status_stays()


def make_counts():
    """BC where MODE 1 starts a buffered data move."""
    t = Trace("control-count", "BC where MODE 1 starts a buffered data move")
    for name in MOVE_STARTS:
        t.note(f"at {name}")
        fresh = False
        for count in (0x00, 0x45, 0x7F, 0x80, 0xC5, 0xFF, 0x01, 0x44, 0x81,
                      0xC4):
            if not fresh:
                ready(t, name)
            t.wr(0, 0)
            t.wr(2, count)
            fresh = t.wr(3, 0xC1, f"MODE 1 at {name}h, LB {count >> 7}, "
                         f"BC {count & 127}:") != 0
            if fresh and count in (0x00, 0x45):
                fresh = t.wr(3, 0xC0, f"MODE 0 at {name}h, "
                             f"BC {count & 127}:") != 0
    t.note("no buffered data move starts: BC isn't looked at")
    for name in ("Off", "Free", "Busy", "Listen", "18", "48", "58", "38",
                 "88", "A0 stop", "A0 start", "C0", "C8", "E8"):
        for count in (0, 69):
            ready(t, name)
            t.wr(0, 0)
            t.wr(2, count)
            v = 0x51 if name in ("18", "48", "58") else 0x41
            t.wr(3, v, f"{bits_text(v)} at {name}, BC {count}:")
    for v in (0x61, 0x71, 0x01):
        for count in (0, 69):
            ready(t, "18", ((0, count),))
            t.wr(3, v, f"{bits_text(v)} at 18h, BC {count}:")


def make_status_stays():
    """What an I2CCON write keeps and what it takes, seen in later steps."""
    t = Trace("control-effects", "What follows from an I2CCON write")
    t.note("STO alone: own STOP, then Free without STA")
    reach(t, "Stopping")
    t.ev(4, 0, "own STOP:")
    t.ev(1, 0, "own START, STA 0:")
    t.note("STA and STO: own STOP, then own START")
    reach(t, "Stopping", sta=1)
    t.rd(3, "I2CCON:")
    t.ev(4, 0, "own STOP:")
    t.rd(3, "I2CCON:")
    t.ev(1, 0, "own START:")
    t.note("the moved count is 0 after each I2CCON write")
    reach(t, "28")
    t.wr(0, 7)
    t.rd(2, "moved count at 28h:")
    t.wr(3, 0x50)
    t.rd(2, "moved count in Stopping:")
    effects_idle(t)
    effects_slave(t)


def effects_idle(t):
    t.note("an I2CCON write at F8h: hand and moved 0, the turn stays")
    for name in ("Free", "Busy", "Listen"):
        reach(t, name)
        t.wr(1, 0x11)
        t.wr(1, 0x22)
        t.wr(3, 0xF1, f"in {name}:")
        t.rd(1, "place 0:")
        t.wr(3, 0xB1, f"ENSIO 0 in {name}:")
        t.rd(3, "I2CCON, STA and STO 0:")
    t.note("ENSIO 0 keeps the other registers and the buffer")
    reach(t, "28", ((0, 0x85), (1, 0x31), (2, 0x32), (3, 0x33), (4, 0xB4),
                    (6, 0x03)))
    t.wr(1, 0x9A)
    t.wr(3, 0xB1, "ENSIO 0 at 28h:")
    t.rd(1, "place 0:")
    show_registers(t)
    t.wr(3, 0x40, "enabled again:")
    show_registers(t)


def effects_slave(t):
    t.note("AA of the write at 08h decides a match in event 8")
    for aa in (0, 1):
        start(t)
        address(t, 0xF0, aa=aa)
        t.ev(8, 0xE0, f"AA {aa}:")
    t.note("STA over slave turns: Free after A0h, then own START")
    reach(t, "A0 stop")
    t.wr(3, 0xE0, "STA at A0h after a STOP:")
    t.ev(1, 0, "own START:")
    reach(t, "A0 start")
    t.wr(3, 0xE0, "STA at A0h after a START:")
    t.ev(1, 0, "own START:")
    t.ev(5, 0xE0, "own address:")
