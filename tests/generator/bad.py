"""Traces that end badly, and long ones."""

from trace import Trace


def make_bad():
    """Raw lines only: the model's run decides what is printed."""
    def bad(name, title, *groups):
        t = Trace("bad-" + name, title)
        for g in groups:
            t.raw(*g)
    head = ((1, 3, 0x60), (2, 1, 0), (1, 1, 0xA0))
    bad("empty", "An empty trace: the buffer line alone")
    bad("cut-1", "Cut short after one byte", *head, (0,))
    bad("cut-2", "Cut short after two bytes", *head, (1, 3))
    bad("cut-2-read", "A read without its third byte", *head, (0, 0))
    bad("cut-2-event", "An event without its argument", *head, (2, 14))
    bad("cut-first", "The first group cut short", (2,))
    bad("cut-04", "A first 04 without its third byte", (4, 0xFF))
    bad("cut-kind", "Another kind, cut short", *head, (5, 0))
    for kind in (0x05, 0x40, 0xFF):
        bad(f"kind-{kind:02x}", f"Kind {kind:02X}h after three groups",
            *head, (kind, 0, 0), (1, 1, 0xBB))
    bad("kind-first", "Another kind as the first group", (5, 3, 0x40),
        (1, 3, 0x40))
    bad("04-second", "A 04 as the second group", (1, 1, 0x11), (4, 0xFF, 0),
        (0, 1, 0))
    bad("04-twice", "A 04 after a first 04", (4, 0x22, 0), (4, 0xFF, 0),
        (0, 1, 0))
    bad("04-late", "A 04 after three groups", *head, (4, 0xFF, 0))
    bad("04-alone", "A first 04 and nothing else, not bad", (4, 0x77, 0))
    make_long()


def make_long():
    """Three long traces; five groups of three bytes, 4,369 times: 65,535."""
    cycle = "02 0E 00 01 03 60 02 01 00 01 01 A0 00 01 00"
    t = Trace("bad-65536", "Exactly 65,536 bytes: the last byte is cut short")
    t.lines += [f"repeat 4369: {cycle}", "00"]
    t = Trace("bad-65540", "65,540 bytes: the first 21,845 groups are run")
    t.lines += [f"repeat 4369: {cycle}", "01 01 C3", "00 00"]
    t = Trace("bad-65540-early", "65,540 bytes, a bad group before the end")
    t.lines += ["01 03 40", "40 00 00  # kind 40h",
                f"repeat 4368: {cycle}", "00 00 00", "00 00 00", "00 00 00",
                "00 00 00", "00 00"]
