"""Reaching each turn and status from reset, and pieces that several families use."""

import model
from trace import place


def con(aa=0, sta=0, sto=0, mode=0, ensio=1):
    return aa << 7 | ensio << 6 | sta << 5 | sto << 4 | mode


def start(t, regs=()):
    """Event 14, then registers written in Off."""
    t.ev(14)
    for pointer, v in regs:
        t.wr(0, pointer)
        t.wr(2, v)


def address(t, byte, aa=0, sta=0):
    """From Off to Address with the address byte in place 0."""
    t.wr(3, con(sta=1))
    t.ev(1)
    t.wr(1, byte)
    t.wr(3, con(aa=aa, sta=sta))


def to_turn(t, name, aa=0, sta=0, mode=0, byte=0xA0):
    """From Off to a turn; aa, sta and mode are in the last I2CCON write."""
    last = con(aa=aa, sta=sta, mode=mode)
    before = {"Send": "18", "Receive": "40", "SlaveReceive own": "60",
              "SlaveReceive general": "D0", "SlaveSend": "A8",
              "Stopping": "18", "Restarting": "18"}
    if name in ("Free", "Listen", "Busy"):
        t.wr(3, last)
        if name != "Free":
            t.ev(2)
        if name == "Busy":
            t.ev(5, 0x02)
    elif name == "Address":
        address(t, byte, aa, sta)
    elif name in before:
        to_host(t, before[name])
        if name == "Stopping":
            last |= model.STO
        if name == "Restarting":
            last |= model.STA
        t.wr(3, last)


# Statuses reached by one event: the turn, its options, event, argument
ONE_EVENT = {
    "00": ("Address", {}, 10, 0), "08": ("Free", {"sta": 1}, 1, 0),
    "10": ("Restarting", {}, 1, 0), "18": ("Address", {}, 6, 0),
    "20": ("Address", {}, 6, 1), "28": ("Send", {}, 6, 0),
    "30": ("Send", {}, 6, 1), "38": ("Address", {}, 8, 0x02),
    "40": ("Address", {"byte": 0xA1}, 6, 0),
    "48": ("Address", {"byte": 0xA1}, 6, 1),
    "50": ("Receive", {"aa": 1}, 7, 0x5C), "58": ("Receive", {}, 7, 0x5D),
    "60": ("Listen", {"aa": 1}, 5, 0xE0),
    "68": ("Address", {"aa": 1, "byte": 0xF0}, 8, 0xE0),
    "70": ("Free", {"sta": 1}, 11, 0), "78": ("Free", {}, 12, 0),
    "80": ("SlaveReceive own", {"aa": 1}, 7, 0x71),
    "88": ("SlaveReceive own", {}, 7, 0x72),
    "A0 stop": ("SlaveReceive own", {"aa": 1}, 3, 0),
    "A0 start": ("SlaveReceive own", {"aa": 1}, 2, 0),
    "A8": ("Listen", {"aa": 1}, 5, 0xE1),
    "B0": ("Address", {"aa": 1, "byte": 0xF0}, 8, 0xE1),
    "B8": ("SlaveSend", {"aa": 1}, 6, 0), "C0": ("SlaveSend", {}, 6, 1),
    "C8": ("SlaveSend", {}, 6, 0), "D0": ("Listen", {"aa": 1}, 5, 0x00),
    "D8": ("Address", {"aa": 1, "byte": 0xF0}, 8, 0x00),
    "E0": ("SlaveReceive general", {"aa": 1}, 7, 0x73),
    "E8": ("SlaveReceive general", {}, 7, 0x74),
}
GENERAL = ("SlaveReceive general", "D0", "D8", "E0", "E8")


def to_host(t, name):
    turn, options, n, a = ONE_EVENT[name]
    to_turn(t, turn, **options)
    t.ev(n, a)


def reach(t, name, regs=(), **options):
    """Reset, registers, then the turn or status named."""
    if name in GENERAL and 1 not in dict(regs):
        regs = tuple(regs) + ((1, 0xE1),)        # GC 1
    refused = t.refused
    start(t, regs)
    if name in ONE_EVENT:
        to_host(t, name)
    else:
        to_turn(t, name, **options)
    assert place(t.c) == name, (name, place(t.c))
    assert t.refused == refused, "reached by accepted groups alone"


def show_registers(t, pointers=(0, 1, 2, 3, 4, 6, 7)):
    for pointer in pointers:
        t.wr(0, pointer)
        t.rd(2, f"pointer {pointer:02X}h:")


def bits_text(v):
    """The bits set in a value for I2CCON."""
    names = (("AA", 0x80), ("ENSIO", 0x40), ("STA", 0x20), ("STO", 0x10),
             ("MODE", 0x01))
    return " ".join(n for n, b in names if v & b) or "no bit"


def pattern(k, base=3):
    return (7 * k + base) & 0xFF


def fill(t, base, count=68):
    """From hand place 0: count bytes into I2CDAT."""
    for k in range(count):
        t.wr(1, pattern(k, base))


def to_end(t):
    """Reads I2CDAT until the hand place is 68."""
    while t.c.hand < 68:
        t.rd(1)


def dump(t, count=68):
    """From hand place 0: count bytes out of I2CDAT."""
    for k in range(count):
        t.rd(1, f"place {k}:")
