"""Traces with jobs that end badly, and those that reach the limit of bytes."""

from trace import Trace

HEAD = ((1, 3, 0x40), (3, 1, 0x50, 1, 4, 0, 1, 0, 6, 0, 7, 0x5C, 4, 0))


def make_job_limits():
    """Raw lines only: the run decides what is printed."""
    def bad(name, title, *last):
        t = Trace("bad-job-" + name, title)
        for g in HEAD:
            t.raw(*g)
        t.raw(*last)
    bad("kind", "KIND 2, though whole but for that",
        3, 2, 0x50, 1, 0, 0)
    bad("kind-ff", "KIND FFh", 3, 0xFF, 0x50, 1, 0x11, 0, 0)
    bad("kind-alone", "KIND 2 and nothing else", 3, 2)
    bad("cut-kind", "The group's kind alone", 3)
    bad("cut-address", "Cut short before ADDRESS", 3, 0)
    bad("cut-head", "Cut short before N", 3, 0, 0x50)
    bad("cut-data", "Cut short in the data", 3, 0, 0x50, 3, 0x11, 0x22)
    bad("cut-data-all", "N 255 and no data", 3, 0, 0x50, 0xFF)
    bad("cut-number", "Cut short in the number of pairs",
        3, 0, 0x50, 1, 0x11, 1)
    bad("cut-number-all", "No number of pairs", 3, 1, 0x50, 1)
    bad("cut-pairs", "Cut short in a pair",
        3, 1, 0x50, 1, 2, 0, 1, 0, 6)
    bad("cut-pairs-all", "Two pairs told, none there", 3, 1, 0x50, 1, 2, 0)
    bad("cut-pairs-high", "256 pairs told, one there",
        3, 1, 0x50, 1, 0, 1, 1, 0)
    make_limit()


def make_limit():
    """Groups of 3, 3 and 15 bytes, 3,120 times: 65,520 bytes."""
    cycle = "02 0E 00 01 03 40 03 00 50 01 11 04 00 01 00 06 00 06 00 04 00"
    end = ["02 0E 00", "01 03 40"]
    last = "03 01 50 01 02 00 01 00 06 01"       # 10 bytes, 27
    t = Trace("bad-job-65536", "Exactly 65,536 bytes, the last group whole")
    t.lines += [f"repeat 3120: {cycle}"] + end + [last + "  # not bad"]
    t = Trace("bad-job-65536-cut", "Exactly 65,536 bytes, the last group cut")
    t.lines += [f"repeat 3120: {cycle}"] + end
    t.lines += ["03 01 50 01 03 00 01 00 06 01"]
    t = Trace("bad-job-65538", "65,538 bytes, a job across the limit")
    t.lines += [f"repeat 3120: {cycle}"] + end
    t.lines += ["03 01 50 01 03 00 01 00 06 01 04 00"]
    t = Trace("bad-job-65539", "65,539 bytes, a job up to the limit")
    t.lines += [f"repeat 3120: {cycle}"] + end + [last, "02 0E 00"]
