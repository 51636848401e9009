"""Stored inputs of the program `job`: the paper's cases, bounds, and each answer."""

from job_bad import make_job_bad
from job_file import read, write
from job_points import make_job_points
from pairs import (
    ACK, NACK, START, STOP, bytes_in, hexed, read_script, write_script)
from reach import pattern

FULL = [pattern(k, 0x2B) for k in range(68)]
BAD = "21 count 0 events 0"


def make_jobs():
    make_paper_cases()
    make_sizes()
    make_addresses()
    make_nacks()
    make_lost()
    make_faults()
    make_other_masters()
    make_later_pairs()
    make_refused_pairs()
    make_job_points()
    make_job_bad()


def make_paper_cases():
    """Jobs, the example; Cases, a to g."""
    write("worked-example", "The paper's example", 0x50, [0x11, 0x22],
          write_script(2), "0 count 2 events 5", out="A0 11 22", into="")
    read("case-a", "Case a: a read of 1, done", 0x50, 1,
         read_script([0x5C]), "0 count 1 events 4", out="A1", into="5C")
    read("case-b", "Case b: address NACKed", 0x50, 1,
         [START, NACK, STOP], "23 count 0 events 3", out="A1", into="")
    write("case-c", "Case c: first data NACKed", 0x50, [0x11, 0x22],
          [START, ACK, NACK, STOP], "24 count 1 events 4", out="A0 11",
          into="")
    assert len(set(FULL)) == 68      # 68 different bytes
    read("case-d-read", 'Case d: "n 68 can be done", a read', 0x50, 68,
         read_script(FULL), "0 count 68 events 71", out="A1",
         into=hexed(FULL))
    write("case-d-write", 'Case d: "n 68 can be done", a write', 0x50, FULL,
          write_script(68), "0 count 68 events 71", out="A0 " + hexed(FULL),
          into="")
    write("case-e", "Case e: n 0", 0x50, [], write_script(0), BAD)
    read("case-e-read", "Case e: n 0, read", 0x50, 0, read_script([]), BAD)
    write("case-f", "Case f: n 69", 0x50, FULL + [0x99], write_script(69),
          BAD, out="", into="")
    read("case-f-read", "Case f: n 69, read", 0x50, 69,
         read_script(FULL + [0x99]), BAD, out="", into="")
    write("case-g", "Case g: an empty script", 0x50, [0x11], [],
          "27 count 0 events 0", out="", into="")
    read("case-g-read", "Case g: an empty script, read", 0x50, 1, [],
         "27 count 0 events 0", out="", into="")


def make_sizes():
    """Jobs: n from 1 to 68, and what lies beyond."""
    for v in (0x00, 0xFF):
        write(f"write-byte-{v:02x}", f"A write of {v:02X}h", 0x50, [v],
              write_script(1), "0 count 1 events 4", out=f"A0 {v:02X}")
        read(f"read-byte-{v:02x}", f"A read of {v:02X}h", 0x50, 1,
             read_script([v]), "0 count 1 events 4", into=f"{v:02X}")
    for n in (1, 2, 5, 67):
        data = FULL[:n]
        if n != 2:                   # the paper's example is one of 2
            write(f"write-{n}", f"A write of {n}", 0x2C, data,
                  write_script(n), f"0 count {n} events {n + 3}",
                  out="58 " + hexed(data), into="")
        read(f"read-{n}", f"A read of {n}", 0x2C, n, read_script(data),
             f"0 count {n} events {n + 3}", out="59", into=hexed(data))
    for n in (70, 128, 196, 255):
        write(f"write-{n}", f"A write of {n}", 0x50, [0xA5] * n,
              write_script(n), BAD, out="", into="")
        read(f"read-{n}", f"A read of {n}", 0x50, n,
             read_script([0x5A] * n), BAD, out="", into="")


def make_addresses():
    """Jobs, 21: address not 08h..77h."""
    for a in (0x00, 0x07, 0x78, 0x7F, 0x80, 0x88, 0xD0, 0xFF):
        write(f"address-{a:02x}", f"Address {a:02X}h, write", a, [0x31],
              write_script(1), BAD, out="", into="")
        read(f"address-{a:02x}-read", f"Address {a:02X}h, read", a, 1,
             read_script([0x32]), BAD, out="", into="")
    for a in (0x08, 0x77):
        write(f"address-{a:02x}", f"Address {a:02X}h, write", a, [0x31],
              write_script(1), "0 count 1 events 4", out=f"{2 * a:02X} 31")
        read(f"address-{a:02x}-read", f"Address {a:02X}h, read", a, 1,
             read_script([0x32]), "0 count 1 events 4",
             out=f"{2 * a + 1:02X}", into="32")


def make_nacks():
    """Jobs, 23 and 24."""
    write("nack-address-write", "Address NACKed at 20h", 0x50, [1, 2, 3],
          [START, NACK, STOP], "23 count 0 events 3", out="A0", into="")
    read("nack-address-read", "Address NACKed at 48h, n 68", 0x50, 68,
         [START, NACK, STOP], "23 count 0 events 3", out="A1", into="")
    for name, k in (("first", 1), ("middle", 3), ("last", 5)):
        data = [0x41, 0x42, 0x43, 0x44, 0x45]
        write(f"nack-{name}", f"NACK of data byte {k} of 5", 0x50, data,
              [START] + [ACK] * k + [NACK, STOP],
              f"24 count {k} events {k + 3}", out="A0 " + hexed(data[:k]))
    write("nack-only", "NACK of the only data byte", 0x50, [0x41],
          [START, ACK, NACK, STOP], "24 count 1 events 4", out="A0 41")
    for k in (1, 34, 67, 68):
        write(f"nack-{k}-of-68", f"NACK of data byte {k} of 68", 0x50, FULL,
              [START] + [ACK] * k + [NACK, STOP],
              f"24 count {k} events {k + 3}", out="A0 " + hexed(FULL[:k]))


def make_lost():
    """Jobs, 25: 38h by event 8 and by event 9."""
    at = [START, (8, 0x40)]
    write("lost-address", "Event 8 while the address is sent", 0x50, [1, 2],
          at, "25 count 0 events 2", out="", into="")
    read("lost-address-read", "Event 8 in a read", 0x50, 2, at,
         "25 count 0 events 2", out="", into="")
    write("lost-by-one", "Event 8, winner's byte one below ours", 0x50, [1],
          [START, (8, 0x9F)], "25 count 0 events 2", out="")
    read("lost-to-write", "Event 8, the winner writes where we read", 0x50,
         1, [START, (8, 0xA0)], "25 count 0 events 2", out="")
    write("lost-to-own-address", "Event 8, own address, AA is 0", 0x77, [1],
          [START, (8, 0xE0)], "25 count 0 events 2", out="")
    write("lost-to-general-call", "Event 8, byte 00h, AA is 0", 0x50, [1],
          [START, (8, 0x00)], "25 count 0 events 2", out="")
    lost = (9, 0)
    write("lost-first-data", "Event 9 at the first data byte", 0x50, [1, 2],
          [START, ACK, lost], "25 count 0 events 3", out="A0", into="")
    write("lost-last-data", "Event 9 at the last data byte", 0x50, [1, 2],
          [START, ACK, ACK, lost], "25 count 0 events 4", out="A0 01")
    read("lost-first-in", "Event 9 before the first byte", 0x50, 2,
         [START, ACK, lost], "25 count 0 events 3", out="A1", into="")
    read("lost-last-in", "Event 9 before the last byte", 0x50, 2,
         [START, ACK, (7, 0x33), lost], "25 count 0 events 4", out="A1",
         into="")


def make_faults():
    """Jobs, 26: 70h, and 00h and 78h in a long move."""
    write("fault-70", "Event 11 before own START", 0x50, [1], [(11, 0)],
          "26 count 0 events 1", out="", into="")
    read("fault-70-read", "Event 11 before own START, read", 0x50, 1,
         [(11, 0)], "26 count 0 events 1", out="", into="")
    write("fault-70-late", "Event 11 after another's START and STOP", 0x50,
          [1], [(2, 0), (5, 0x40), (3, 0), (11, 0)], "26 count 0 events 4")
    for name, n in (("00", 10), ("78", 12)):
        write(f"fault-{name}-of-68", f"Event {n} after 40 of 68 data bytes",
              0x50, FULL, [START] + [ACK] * 41 + [(n, 0)],
              "26 count 0 events 43", out="A0 " + hexed(FULL[:40]), into="")
        read(f"fault-{name}-of-68-read", f"Event {n} after 67 of 68 bytes in",
             0x50, 68, [START, ACK] + bytes_in(FULL[:67]) + [(n, 0)],
             "26 count 0 events 70", out="A1", into="")


def make_other_masters():
    """Events 2, 3, 5, 10 and 13 while the job waits for its START."""
    def both(name, title, first):
        events = len(first) + 3
        write(name, title, 0x50, [0x61], first + [ACK, ACK, STOP],
              f"0 count 1 events {events}", out="A0 61", into="")
        read(name + "-read", title + ", read", 0x50, 1,
             first + [ACK, (7, 0x62), STOP], f"0 count 1 events {events}",
             out="A1", into="62")
    both("others-then-idle", "Another's START and address, then event 13",
         [(2, 0), (5, 0x40), (13, 0)])
    both("others-listen-idle", "Event 13 in Listen", [(2, 0), (13, 0)])
    both("others-start-stop", "Another's START, address and STOP, own START",
         [(2, 0), (5, 0x41), (3, 0), START])
    both("others-start-stop-idle", "Another's START, STOP, START, event 13",
         [(2, 0), (5, 0x41), (3, 0), (2, 0), (5, 0x03), (13, 0)])
    both("others-call-us", "Own address and General Call; AA is 0",
         [(2, 0), (5, 0xE0), (2, 0), (5, 0xE1), (2, 0), (5, 0x00), (3, 0),
          START])
    both("others-restart", "Another's START twice, then event 13",
         [(2, 0), (5, 0x40), (2, 0), (5, 0x41), (13, 0)])
    both("event-10-free", "Event 10 in Free before START", [(10, 0), START])
    both("event-10-often", "Event 10 in Free, Listen and Busy",
         [(10, 0), (2, 0), (10, 0), (5, 0x40), (10, 0), (13, 0)])


def make_later_pairs():
    """Jobs: later pairs aren't looked at."""
    later = [(0xFF, 0xFF), (14, 0), (6, 2), START, (0, 0)]
    ways = {"done": (write_script(1), "0 count 1 events 4"),
            "nack-address": ([START, NACK, STOP], "23 count 0 events 3"),
            "nack-data": ([START, ACK, NACK, STOP], "24 count 1 events 4"),
            "lost": ([START, (8, 0x10)], "25 count 0 events 2"),
            "fault": ([START, (12, 0)], "26 count 0 events 2"),
            "refused": ([START, (3, 0)], "28 count 0 events 1 refused 8"),
            "reset": ([START, (14, 0)], "29 count 0 events 2")}
    for name, (script, want) in ways.items():
        write(f"later-pairs-{name}", f"Pairs after the end: {name}", 0x50,
              [0x71], script + later, want)
    read("later-pairs-read", "Pairs after a read that is done", 0x50, 2,
         read_script([0x72, 0x73]) + read_script([0x74, 0x75]),
         "0 count 2 events 5", out="A1", into="72 73")
    write("later-pairs-write", "A write's script twice", 0x50, [0x76],
          write_script(1) * 2, "0 count 1 events 4", out="A0 76")


def make_refused_pairs():
    """Jobs, 28, with the number beside it."""
    def refused(name, title, first, pair, number):
        write(name, title, 0x50, [0x81, 0x82], first + [pair, STOP],
              f"28 count 0 events {len(first)} refused {number}", into="")
    for n in (0, 15, 0x81, 0xFF):
        refused(f"refused-1-event-{n:02x}", f"Event {n}", [START], (n, 0), 1)
    refused("refused-1-first", "Event 0 as the first pair", [], (0, 0), 1)
    refused("refused-1-and-2", "Event 16, argument FFh", [], (16, 0xFF), 1)
    refused("refused-2-start", "Event 1, argument 01h", [], (1, 1), 2)
    refused("refused-2-byte", "Event 6, argument 02h", [START], (6, 2), 2)
    refused("refused-2-data", "Event 6, argument FFh", [START, ACK, ACK],
            (6, 0xFF), 2)
    refused("refused-2-stop", "Event 4, argument 01h",
            [START, NACK], (4, 1), 2)
    refused("refused-2-reset", "Event 14, argument 01h", [START], (14, 1), 2)
    refused("refused-2-not-expected", "Event 9 in Free, argument 80h", [],
            (9, 0x80), 2)
    refused("refused-8-equal", "Event 8 with an equal byte", [START],
            (8, 0xA0), 8)
    refused("refused-8-greater", "Event 8 with a greater byte", [START],
            (8, 0xA1), 8)
    refused("refused-8-idle", "Event 13 in Free", [], (13, 0), 8)
    refused("refused-8-others-stop", "Event 3 in Listen", [(2, 0)], (3, 0), 8)
    refused("refused-8-early-stop", "Event 4 before the last data byte",
            [START, ACK, ACK], STOP, 8)
    refused("refused-8-one-more", "Event 6 after the last data byte",
            [START, ACK, ACK, ACK], ACK, 8)
    read("refused-8-one-more-in", "Event 7 after the last byte in", 0x50, 2,
         [START, ACK] + bytes_in([1, 2, 3]) + [STOP],
         "28 count 0 events 4 refused 8", out="A1", into="")
    read("refused-8-early-stop-in", "Event 4 before the last byte in", 0x50,
         2, [START, ACK, (7, 1), STOP], "28 count 0 events 3 refused 8",
         out="A1", into="")
