"""Makes the stored tests: inputs (NAME.hex) and their output (NAME.expected).

python3 make.py TRACES [JOBS]           writes all files into these folders
python3 make.py --check TRACES [JOBS]   exits 1 if a stored file differs

TRACES holds those of the program `bench`, JOBS those of the program `job`.

Of a long output the part that repeats is stored once: `repeat N K` says that the
next K lines stand N times.
"""

import os
import re
import sys

import bench
import lost_ways
import model
from bad import make_bad
from cases import make_cases
from chip import make_chip
from control import make_control
from driver import job_program
from events import make_events
from job_file import JOBS
from job_limits import make_job_limits
from job_reasons import make_job_reasons
from job_traces import make_job_traces
from jobs import make_jobs
from lost import make_lost
from moves import make_moves
from reasons import make_reasons
from refusals import make_refusals
from registers import make_registers
from software_reset import make_software_reset
from starts import make_start_ff
from trace import (
    HOSTS, SEEN_CALLS, SEEN_CONTROL, SEEN_EVENTS, SEEN_JOB_REASONS,
    SEEN_LOST_CONTROL, SEEN_LOST_EVENTS, SEEN_LOST_WAYS, SEEN_OFF,
    SEEN_REASONS, SEEN_REFUSALS, SEEN_STATUSES, TRACES, TURNS, parse)

# Long outputs, and how many of their lines repeat
FOLDED = {"bad-65536": 5, "bad-65540": 5, "bad-job-65536": 6,
          "bad-job-65536-cut": 6, "bad-job-65538": 6, "bad-job-65539": 6}
LENGTHS = {"bad-65536": 65536, "bad-65540": 65540, "bad-65540-early": 65540,
           "bad-job-65536": 65536, "bad-job-65536-cut": 65536,
           "bad-job-65538": 65538, "bad-job-65539": 65539}
# Ask 5: with AA 1, whom a byte calls with GC 0 and with GC 1
CALLS = {"own R 0": ("own write", "own write"),
         "own R 1": ("own read", "own read"),
         "00h": ("none", "general"), "00h, own zero": ("none", "general"),
         "01h": ("none", "none"), "01h, own zero": ("none", "none"),
         "another": ("none", "none"), "another, own zero": ("none", "none")}
# Ask 5: how lines of event-05 and event-08 end
ENDS = (" called own write 70", " called own read 70", " called general 00",
        " called none 70", " called none 71", " called none 00")
# Ask 8: the reasons that a job ends with: 21 and 22 keep any, 27 and 28 are
# as reached
JOB_REASONS = {0: {"count", "nack"}, 21: set(model.REASONS),
               22: set(model.REASONS), 23: {"nack"}, 24: {"nack"},
               25: {"arbitration"}, 26: {"fault"}, 27: model.IDLE_REASONS,
               28: model.IDLE_REASONS, 29: {"reset"}}


def check_coverage():
    """Every (turn, event), every I2CCON write, every refusal and status."""
    turns = TURNS + ("Host",)
    assert {(turn, n) for turn in turns for n in range(1, 15)} <= SEEN_EVENTS
    places = ("Off", "Free", "Busy", "Listen") + HOSTS
    wanted = {(p, sta, sto, aa, mode) for p in places for sta in (0, 1)
              for sto in (0, 1) for aa in (0, 1) for mode in (0, 1)}
    assert wanted <= SEEN_CONTROL
    assert set(places) <= SEEN_OFF
    assert SEEN_REFUSALS == set(range(0, 10))
    assert SEEN_STATUSES == set(model.STATUSES) | {0xF8}
    names = [t.name for t in TRACES]
    assert len(names) == len(set(names))
    return (f"(turn, event) pairs {len(turns) * 14}, I2CCON writes "
            f"{len(wanted)}, refusals 1-9, statuses {len(SEEN_STATUSES)}")


def check_calls(files):
    """Ask 5: each byte, AA and GC both ways, at events 5 and 8 alike."""
    wanted = {(n, aa, gc, case, called[gc] if aa else "none")
              for n in (5, 8) for aa in (0, 1) for gc in (0, 1)
              for case, called in CALLS.items()}
    assert SEEN_CALLS == wanted
    for name in ("event-05.expected", "event-08.expected"):
        assert all(end + "\n" in files[name] for end in ENDS)
    return f"calls {len(wanted)}"


def check_lost():
    """Ask 2: every I2CCON value and every event at 38h, and each way out."""
    assert SEEN_LOST_CONTROL == set(range(256))
    wanted = {(n, te, sta) for n in range(1, 15) for te in (0, 1)
              for sta in (0, 1)}
    assert wanted <= SEEN_LOST_EVENTS
    assert SEEN_LOST_WAYS == lost_ways.WAYS
    left = sum(1 for way in SEEN_LOST_WAYS if way.startswith("left"))
    return (f"at 38h I2CCON values {len(SEEN_LOST_CONTROL)}, (event, TE, STA) "
            f"{len(wanted)}, ways out {left}")


def check_reasons(files):
    """Ask 8: each status with its reason, each answer with its reasons."""
    wanted = {(s, model.reason_of(s)) for s in model.STATUSES}
    wanted |= {(0xF8, reason) for reason in model.IDLE_REASONS}
    assert SEEN_REASONS == wanted
    for status, reason in wanted:
        line = re.compile(f"status {status:02X} .* reason {reason}\\b")
        assert any(line.search(text) for name, text in files.items()
                   if name.startswith("reason-"))
    after = {(answer, reason) for answer, reasons in JOB_REASONS.items()
             for reason in reasons}
    assert SEEN_JOB_REASONS == after
    return f"(status, reason) {len(wanted)}, (answer, reason) {len(after)}"


def folded(text, size):
    """The text with its first lines, which repeat, stored once."""
    lines = text.splitlines(True)
    block, times = lines[:size], 1
    while lines[times * size:(times + 1) * size] == block:
        times += 1
    rest = lines[times * size:]
    return f"repeat {times} {size}\n" + "".join(block + rest)


def found_beside(word, place, files):
    """The numbers at a place of the first lines of jobs in stored outputs."""
    lines = [line.split() for name, text in files.items()
             if name.endswith(".expected") for line in text.splitlines()]
    return {int(line[place]) for line in lines
            if line[0] == "answer" and word in line}


def check_answers(traces, jobs):
    """Jobs: every answer; on its fresh controller `job` never answers 22."""
    answers = {0} | set(range(21, 30))
    assert found_beside("answer", 1, traces) == answers
    assert found_beside("answer", 1, jobs) == answers - {22}
    for files in (traces, jobs):
        assert found_beside("refused", -1, files) == {1, 2, 8}
    return "answers 0, 21-29 of bench, the same but 22 of job"


def on_the_list(part):
    """Demand 3: is a group a job, a reset, an enabling write, event 2, 3, 5?"""
    if part[0] == bench.WRITE and part[1] == 3:
        return part[2] & model.ENSIO != 0
    resets = ((bench.WRITE, 0, 0x05), (bench.WRITE, 2, 0xA5),
              (bench.WRITE, 2, 0x5A), (bench.EVENT, 14, 0))
    return (part[0] == bench.JOB or tuple(part) in resets
            or (part[0] == bench.EVENT and part[1] in (2, 3, 5)))


def check_old(files):
    """Demand 3: old contents show in the last line, the buffer, alone."""
    one = files["jobs-old-00.expected"].splitlines()
    other = files["jobs-old-ff.expected"].splitlines()
    assert one[:-1] == other[:-1] and one[-1] != other[-1]
    one = parse(files["jobs-old-00.hex"])
    other = parse(files["jobs-old-ff.hex"])
    assert one[:3] == bytes([4, 0x00, 0]) and other[:3] == bytes([4, 0xFF, 0])
    assert one[3:] == other[3:]
    k = 3
    while k < len(one):
        length, _ = bench.next_group(one, k)
        assert on_the_list(one[k:k + length])
        k += length


def make_traces():
    make_cases()
    make_chip()
    make_events()
    make_control()
    make_lost()
    make_reasons()
    make_refusals()
    make_software_reset()
    make_registers()
    make_moves()
    make_start_ff()
    make_bad()
    make_job_traces()
    make_job_limits()
    make_job_reasons()


def trace_files():
    """File name and contents of every file of the folder TRACES."""
    make_traces()
    files = {}
    for t in TRACES:
        raw = parse(t.text())
        files[t.name + ".hex"] = t.text()
        files[t.name + ".expected"] = bench.run(raw)
        if not t.name.startswith("bad-"):
            lines = files[t.name + ".expected"].splitlines(True)
            assert len(lines) == t.printed + 1
            assert lines[-1] == bench.buffer_line(t.c)
    for name, size in FOLDED.items():
        files[name + ".expected"] = folded(files[name + ".expected"], size)
    for name, length in LENGTHS.items():
        assert len(parse(files[name + ".hex"])) == length
    check_old(files)
    return files


def job_files():
    """File name and contents of every file of the folder JOBS."""
    make_jobs()
    files = {}
    for name, text in JOBS.items():
        files[name + ".hex"] = text
        files[name + ".expected"] = job_program(parse(text))
    return files


def stored_differs(folder, files):
    """Names of stored files that are missing, differ or aren't made here."""
    wrong = []
    for name, text in files.items():
        path = os.path.join(folder, name)
        if not os.path.exists(path):
            wrong.append(name)
            continue
        with open(path, "rb") as stored:
            if stored.read() != text.encode():
                wrong.append(name)
    for name in sorted(os.listdir(folder)):
        if name.endswith((".hex", ".expected")) and name not in files:
            wrong.append(name)
    return wrong


def check_folder(folder, files):
    """How many stored files differ; their names are printed."""
    wrong = stored_differs(folder, files)
    for name in wrong:
        print("differs:", name)
    print(f"{folder}: {len(files) - len(wrong)} files as stored")
    return len(wrong)


def write_folder(folder, files):
    os.makedirs(folder, exist_ok=True)
    for name, text in files.items():
        with open(os.path.join(folder, name), "wb") as out:
            out.write(text.encode())
    size = sum(len(text) for text in files.values())
    print(f"{folder}: {len(files)} files, {size} bytes")
    return 0


def main(args):
    folders = [a for a in args if a != "--check"]
    if not 1 <= len(folders) <= 2:
        print(__doc__)
        return 2
    sets = [trace_files(), job_files()]
    print(f"covered: {check_coverage()}, {check_calls(sets[0])}, "
          f"{check_lost()}, {check_reasons(sets[0])}, "
          f"{check_answers(*sets)}")
    act = check_folder if "--check" in args else write_folder
    wrong = [act(folder, files) for folder, files in zip(folders, sets)]
    return 1 if any(wrong) else 0


if __name__ == "__main__":
    sys.exit(main(sys.argv[1:]))
