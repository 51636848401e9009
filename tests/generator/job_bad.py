"""Inputs of the program `job` that are bad, and those at the bounds."""

from job_file import JOBS, read, store, write
from pairs import ACK, START, STOP, hexed, flat, write_script
from trace import parse

BAD = "21 count 0 events 0"
IDLE = (10, 0)               # in Free: accepted, no change


def make_job_bad():
    """Jobs, the program's input: too long, cut short or of another kind."""
    def bad(name, title, *lines):
        store("bad-" + name, ["# " + title] + list(lines), BAD, out="",
              into="")
    script, two = (hexed(flat(write_script(n))) for n in (1, 2))
    bad("empty", "An empty input")
    bad("short-1", "The kind alone", "00")
    bad("short-1-read", "The kind alone, read", "01")
    bad("short-2", "Kind and address", "00 50")
    bad("short-2-read", "Kind and address, read", "01 50")
    bad("kind", "Kind 2, but for that a write of 2", "02 50 02 11 22", two)
    bad("kind-read", "Kind 2, but for that a read of 1", "02 50 01",
        "01 00 06 00 07 5C 04 00")
    for kind in (0x03, 0x30, 0x31, 0x80, 0x81, 0xFF):
        bad(f"kind-{kind:02x}", f"Kind {kind:02X}h, but for that a write of 2",
            f"{kind:02X} 50 02 11 22", two)
    bad("kind-short", "Kind 2, cut short", "02")
    bad("data-none", "A write of 1 and nothing after n", "00 50 01")
    bad("data-cut", "A write of 3 with two bytes after n", "00 50 03 11 22")
    bad("data-cut-68", "A write of 68 with 67 bytes after n", "00 50 44",
        "repeat 67: 33")
    bad("data-cut-255", "A write of 255 with 254 bytes after n", "00 50 FF",
        "repeat 254: 33")
    bad("odd-script", "A script of odd length", "00 50 01 11", script, "0E")
    bad("odd-script-1", "A script of one byte", "00 50 01 11", "01")
    bad("odd-script-read", "A read with a script of odd length", "01 50 01",
        "01 00 06 00 07 5C 04")
    make_lengths()


def make_lengths():
    """Jobs, the program's input: over 4,096 bytes is 21."""
    write("fine-4096", "Exactly 4,096 bytes, every pair taken", 0x50, [0x11],
          [IDLE] * 2042 + [START, ACK, ACK, STOP], "0 count 1 events 2046",
          out="A0 11", into="")
    read("fine-4095", "4,095 bytes, every pair taken", 0x50, 1,
         [IDLE] * 2042 + [START, ACK, (7, 0x5C), STOP],
         "0 count 1 events 2046", out="A1", into="5C")
    read("bad-over-4096", "4,097 bytes, but for that fine", 0x50, 1,
         [START, ACK, (7, 0x5C), STOP] + [IDLE] * 2043, BAD, out="", into="")
    write("bad-over-4098", "4,098 bytes, but for that fine", 0x50, [0x11],
          [START, ACK, ACK, STOP] + [IDLE] * 2043, BAD, out="", into="")
    write("bad-over-70000", "70,000 bytes, but for that fine", 0x50, [0x11],
          [START, ACK, ACK, STOP] + [IDLE] * 34994, BAD, out="", into="")
    for name, length in (("fine-4096", 4096), ("fine-4095", 4095),
                         ("bad-over-4096", 4097), ("bad-over-4098", 4098),
                         ("bad-over-70000", 70000)):
        assert len(parse(JOBS[name])) == length
