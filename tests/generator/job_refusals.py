"""Traces with jobs that are refused, and with registers set before a job."""

from job_steps import at_once, done_read, done_write
from pairs import ACK, STOP, bytes_in, read_script, write_script
from reach import dump, fill, reach, show_registers, start
from trace import HOSTS, TURNS, Trace


def make_refused_jobs():
    t = Trace("jobs-refused", "Answers 21 and 22: the record stays")
    for name in ("Off", "Free", "Busy", "08", "Address"):
        t.note(f"21 of every kind, {name}")
        reach(t, name)
        t.wr(0, 6)
        refused_21(t)
    for name in TURNS + HOSTS:
        if name == "Free":
            continue
        t.note(f"22, {name}")
        reach(t, name)
        t.wr(0, 3)
        t.rd(1)
        at_once(t)
    t.note("22, Free with STA 1")
    for v in (0x60, 0xE0, 0x61, 0xE1):
        reach(t, "Free")
        t.wr(3, v)
        at_once(t)
        t.wr(3, v & ~0x20, "STA 0:")
        done_write(t)
    refused_armed(t)


def refused_21(t):
    """Jobs, 21: n, and the address."""
    for n in (0, 69, 128, 129, 196, 255):
        t.job(21, 0, 0x50, n, [0x66] * n, write_script(2))
        t.job(21, 1, 0x50, n, (), read_script([0x67]))
    for address in (0x00, 0x07, 0x78, 0x80, 0x88, 0xD0, 0xFF):
        t.job(21, 0, address, 1, [0x68], write_script(1))
        t.job(21, 1, address, 1, (), read_script([0x69]))
    t.job(21, 0, 0x78, 0, (), [])
    t.job(21, 1, 0x07, 69, (), [])


def refused_armed(t):
    t.note("a refused job leaves it armed, another one disarms")
    reach(t, "Free")
    for script, want in ((write_script(1), 0), ([], 27), ([(0, 0)], 28)):
        start(t)
        t.wr(3, 0x40)
        t.wr(0, 5)
        t.wr(2, 0xA5, "A5h:")
        t.job(21, 1, 0x78, 1, (), read_script([1]))
        t.wr(2, 0x5A, "5Ah:")
        t.wr(0, 5)
        t.wr(2, 0xA5, "A5h:")
        t.job(22, 1, 0x50, 1, (), read_script([1]))
        t.wr(2, 0x5A, "5Ah:")
        t.wr(3, 0x40)
        t.wr(0, 5)
        t.wr(2, 0xA5, "A5h:")
        t.job(want, 0, 0x50, 1, [1], script)
        t.wr(0, 5)
        t.wr(2, 0x5A, "5Ah, not armed:")


def make_before_jobs():
    t = Trace("jobs-registers", "Jobs with what was in the registers before")
    regs = ((0, 0xFF), (1, 0xA1), (2, 0x42), (3, 0x43), (4, 0xC4), (6, 0x02))
    for v in (0x40, 0x41, 0xC0, 0xC1):
        t.note(f"I2CCON {v:02X}h before the job")
        for pointer in range(8):
            start(t, regs)
            t.wr(3, v)
            t.wr(0, pointer)
            if pointer % 2:
                done_read(t)
            else:
                done_write(t)
        show_registers(t)
        t.rd(3, "I2CCON, AA and MODE 0:")
    t.note("hand place at 68 before the job")
    start(t, regs)
    t.wr(3, 0x40)
    fill(t, 0x51)
    done_write(t)
    dump(t, 66)
    done_read(t)
    dump(t, 4)
    t.note("AA 1 before the job; called by own address and General Call")
    start(t, regs)
    t.wr(3, 0xC0)
    called = [(2, 0), (5, 0xA0), (2, 0), (5, 0xA1), (2, 0), (5, 0x00)]
    t.job(0, 1, 0x51, 2, (), called + [(13, 0), ACK]
          + bytes_in([0x3A, 0x3B]) + [STOP])
    t.wr(3, 0xC0)
    t.job(27, 0, 0x51, 1, [1], called)
