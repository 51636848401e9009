"""Compares the built programs with the reference model on random inputs.

python3 compare.py BENCH JOB [TRACES]
    TRACES traces of 5,000 groups and more for BENCH, then 2,000 inputs for JOB,
    all from fixed seeds
"""

import random
import re
import subprocess
import sys
from collections import Counter

import bench
import driver
import lost_ways
from model import IDLE_REASONS, REASONS
from random_jobs import job_group, job_input

GROUPS = 5000
INPUTS = 2000
JOBS_AMONG = 0.03            # how often a group is a job, with those around it
CALLS_AMONG = 0.03           # and how often an address byte, with those before
LOST_AMONG = 0.005           # and how often lost arbitration, with those after
CONTROL = (0x40, 0x60, 0xC0, 0xC1, 0x41, 0x50, 0x70, 0xE0, 0xE1)
STORED = (0x00, 0x01, 0x02, 0x03, 0x44, 0x45, 0x81, 0x83, 0xC4, 0xA0, 0xA1,
          0xE1, 0xA5, 0x5A)
BYTES = (0x00, 0x01, 0xA0, 0xA1, 0xE0, 0xE1)
ADDRESSES = (0xE0, 0xE1, 0xA1, 0x00, 0x01)      # I2CADR
ANSWERS = {0} | set(range(21, 30))       # Jobs: every answer
# Ask 5: whom events 5 and 8 call, each with the status it gives
WANTED_CALLS = {"60 own write", "A8 own read", "D0 general", "F8 none",
                "68 own write", "B0 own read", "D8 general", "38 none"}
# Ask 2: ways out of 38h
STOP, TIMEOUT, RESET = (2, 3, 0), (2, 12, 0), (2, 14, 0)
OUT = (STOP, TIMEOUT, RESET, (1, 0, 5, 1, 2, 0xA5, 1, 2, 0x5A), (1, 3, 0x80))


def some(draw, likely):
    """One of the likely bytes, or any byte."""
    return draw.choice(likely + (draw.randrange(256),))


def event(draw):
    n = draw.randrange(1, 14)
    argument = 0
    if n == 6:
        argument = draw.choice((0, 0, 0, 1))
    elif n in (5, 7, 8):
        argument = some(draw, BYTES)
    return (2, n, argument)


def group(draw):
    """Mostly what is expected somewhere; now and then anything at all."""
    kind = draw.random()
    if kind < 0.03:
        return (2, 14, 0)
    if kind < 0.05:
        return tuple([draw.randrange(3)] + [draw.randrange(256)] * 2)
    if kind < 0.12:
        return (0, draw.randrange(5), 0)
    if kind < 0.36:
        return (1, 3, some(draw, CONTROL))
    if kind < 0.43:
        return (1, 0, draw.randrange(8))
    if kind < 0.51:
        return (1, 2, some(draw, STORED))
    if kind < 0.57:
        return (1, 1, some(draw, BYTES))
    return event(draw)


def jobs(draw):
    """A job or several, mostly on a controller that was made ready for it."""
    out = b""
    if draw.random() < 0.7:
        out += bytes((2, 14, 0))
        if draw.random() < 0.2:      # TE 0 or 1
            out += bytes((1, 0, 4, 1, 2, draw.randrange(256)))
        out += bytes((1, 3, draw.choice((0x40, 0x41, 0xC0, 0xC1))))
    for _ in range(draw.choice((1, 1, 2, 3))):
        out += job_group(draw)
        if draw.random() < 0.2:
            out += bytes(STOP)
    return out


def call(draw):
    """An address byte or a winner's, mostly with AA, that often matches."""
    adr = some(draw, ADDRESSES)
    own = (adr & 0xFE, adr | 1)
    byte = some(draw, (0x00, 0x01) + own + own)
    last = draw.choice((0x40, 0xC0, 0xC0, 0xC0))
    out = bytes((2, 14, 0, 1, 0, 1, 1, 2, adr))
    if draw.random() < 0.5:
        return out + bytes((1, 3, last, 2, 2, 0, 2, 5, byte))
    ours = some(draw, (0xFF, 0xFE, byte, min(byte + 1, 0xFF)))
    return out + bytes((1, 3, 0x60, 2, 1, 0, 1, 1, ours, 1, 3, last,
                        2, 8, byte))


def arbitration(draw):
    """38h, hand and moved often not 0; some groups there, then a way out."""
    byte = draw.choice((0xA0, 0xA1))
    out = bytes(RESET + (1, 2, 3, 1, 3, 0x60, 2, 1, 0, 1, 1, byte, 1, 3, 0x40,
                         2, 6, 0, 1, 3, 0x41, 2, 6 + byte % 2, 0, 2, 9, 0,
                         0, 1, 0))
    for _ in range(draw.randrange(4)):
        timeout = (1, 0, 4, 1, 2, draw.randrange(256))   # TE 0 or 1
        write = (1, 3, some(draw, CONTROL))
        out += bytes(draw.choice((timeout, write, group(draw))))
    return out + bytes(draw.choice(OUT))


def groups(draw):
    """One group, or a job, a call or lost arbitration with those around."""
    way = draw.random()
    if way < JOBS_AMONG:
        return jobs(draw)
    if way < JOBS_AMONG + CALLS_AMONG:
        return call(draw)
    if way < JOBS_AMONG + CALLS_AMONG + LOST_AMONG:
        return arbitration(draw)
    return bytes(group(draw))


def trace(seed):
    draw = random.Random(seed)
    out = [bytes((4, draw.randrange(256), 0))] if seed % 3 == 0 else []
    out += [groups(draw) for _ in range(GROUPS)]
    raw = b"".join(out)
    if seed % 10 == 9:
        raw = raw[:-draw.randrange(1, 60)]       # often cut short
    assert len(raw) <= bench.LIMIT
    return raw


def answers(_, text):
    """How often each answer stands in an output."""
    return Counter(int(line.split()[1]) for line in text.splitlines()
                   if line.startswith("answer "))


def calls(_, text):
    """How often each call stands in an output, with the status given."""
    lines = [line.split() for line in text.splitlines() if " called " in line]
    return Counter(" ".join([words[5]] + words[words.index("called") + 1:-1])
                   for words in lines)


def reasons(_, text):
    """Ask 8: how often each reason stands in an output."""
    return Counter(re.findall(r" reason (\w+)", text))


def idle_reasons(_, text):
    """Ask 8: how often each reason stands beside F8h in an output."""
    return Counter(re.findall(r"status F8 .* reason (\w+)", text))


def at_38h(raw, text):
    """Ask 2: how often a group left 38h, or kept it, in each of the ways."""
    found, at_38, lines = Counter(), False, iter(text.splitlines())
    for part in bench.groups(raw)[0]:
        line = ""
        for _ in range(bench.LINES[part[0]]):
            line = next(lines)
        was, at_38 = at_38, "status 38" in line
        if was and part[0] == bench.JOB:
            assert at_38, "no job leaves 38h"
        elif was:
            refused = not line.startswith("refused 0")
            found[lost_ways.way(part, refused, at_38)] += 1
    del found[None]
    return found


def told(found):
    return ", ".join(f"{a} {found[a]} times" for a in sorted(found))


def same(program, raw, want, name):
    """Does the program print what is wanted?"""
    printed = subprocess.run([program], input=raw, check=True,
                             stdout=subprocess.PIPE).stdout
    got = printed.decode(errors="replace")
    if got == want:
        return True
    print(f"{name}: the program and the model differ")
    if len(raw) < 500:
        print("input:", raw.hex(" "))
    end = ["(nothing more)"]
    both = zip(got.splitlines(True) + end, want.splitlines(True) + end)
    for line, (a, b) in enumerate(both, 1):
        if a != b:
            print(f"line {line}\nprogram: {a!r}\nmodel:   {b!r}")
            break
    return False


# What is counted in random traces and in random jobs, and all that must occur;
# `job` runs on a fresh controller: never 22, and tells of no call or reason
IN_TRACES = (("answers", answers, ANSWERS), ("calls", calls, WANTED_CALLS),
             ("38h", at_38h, lost_ways.WAYS),
             ("reasons", reasons, set(REASONS)),
             ("reasons at F8h", idle_reasons, IDLE_REASONS))
IN_JOBS = (("answers", answers, ANSWERS - {22}), ("calls", calls, set()),
           ("reasons", reasons, set()))


def compare(program, inputs, model, name, counts):
    """All inputs through program and model; all that is wanted occurs."""
    found = {words: Counter() for words, _, _ in counts}
    for seed, raw in enumerate(inputs):
        want = model(raw)
        for words, count, _ in counts:
            found[words] += count(raw, want)
        if not same(program, raw, want, f"{name} {seed}"):
            return False
    print(f"{name}s: program and model agree")
    for words, _, wanted in counts:
        if found[words]:
            print(f"{name}s: {words} {told(found[words])}")
        assert set(found[words]) == wanted, f"{words}: all that is wanted"
    return True


def main(args):
    if len(args) not in (2, 3):
        print(__doc__)
        return 2
    count = int(args[2]) if len(args) == 3 else 20
    traces = (trace(seed) for seed in range(count))
    inputs = (job_input(random.Random(seed)) for seed in range(INPUTS))
    print(f"{count} traces of {GROUPS} random groups, {INPUTS} random jobs")
    fine = compare(args[0], traces, bench.run, "random trace", IN_TRACES)
    fine = fine and compare(args[1], inputs, driver.job_program,
                            "random job", IN_JOBS)
    return 0 if fine else 1


if __name__ == "__main__":
    sys.exit(main(sys.argv[1:]))
