"""What the program `bench` prints for a trace: groups of accesses, events, jobs.

python3 bench.py < TRACE   TRACE holds raw bytes
"""

import sys

import driver
import model

LIMIT = 65536                        # traces up to 65,536 bytes
READ, WRITE, EVENT, JOB, FILL = range(5)     # the kinds of group
LINES = (1, 1, 1, 4, 0)              # how many lines each kind prints
HEAD = 4                             # 03 KIND ADDRESS N


def record_text(c):
    """The state from `status` on."""
    turn = c.turn.name + (" " + c.turn.detail if c.turn.detail else "")
    return (f"status {c.status():02X} control {c.control():02X} "
            f"pointer {c.pointer} hand {c.hand} moved {c.moved} "
            f"armed {c.armed} turn {turn} reason {c.reason}")


def called_text(found):
    """Ask 5: whom the byte of an accepted event 5 or 8 called."""
    return f" called {found.words()} {found.address:02X}" if found else ""


def state_line(c, number, value, found):
    """The line that a group of kind 00, 01 or 02 prints."""
    return (f"refused {number} value {value:02X} {record_text(c)}"
            f"{called_text(found)}\n")


def buffer_line(c):
    return driver.hex_line("buffer", c.buffer)


def group(c, kind, first, second):
    """One group of kind 00, 01 or 02: (refusal number, value, match)."""
    if kind == READ:
        return (*model.read(c, first), None)
    if kind == WRITE:
        return (*model.write(c, first, second), None)
    return model.event(c, first, second)


def job_group(c, part):
    """One whole group of kind 03: the job's result."""
    _, kind, address, n = part[:HEAD]
    end = HEAD + (n if kind == driver.WRITE else 0)
    script = part[end + 2:]          # after the number of pairs
    return driver.run_job(c, kind, address, n, part[HEAD:end], model.PLACES,
                          driver.OUT_LENGTH, script)


def job_length(data):
    """Length of the group of kind 03 that data begins with, if it is told."""
    if len(data) < HEAD:
        return HEAD
    before = HEAD + (data[3] if data[1] == driver.WRITE else 0) + 2
    if len(data) < before:
        return before
    return before + 2 * int.from_bytes(data[before - 2:before], "little")


def next_group(data, k):
    """(length of the group at k, is it bad); a cut one is longer than data."""
    kind = data[k]
    if kind == JOB:
        bad = len(data) > k + 1 and data[k + 1] > driver.READ
        return (1 if bad else job_length(data[k:])), bad
    return 3, not (kind < JOB or (kind == FILL and k == 0))


def print_group(c, part):
    """What one whole group prints."""
    if part[0] == JOB:
        return driver.print_job(job_group(c, part)) + record_text(c) + "\n"
    if part[0] == FILL:
        c.buffer = [part[1]] * model.PLACES
        return ""
    return state_line(c, *group(c, *part))


def groups(raw):
    """The groups of a trace that are run, and where it is bad, else None."""
    parts, k = [], 0
    data = raw[:LIMIT]
    while k < len(data):
        length, wrong = next_group(data, k)
        cut = k + length > len(data)
        if cut and len(raw) > LIMIT:
            break                    # doesn't fit whole in the first 65,536
        if cut or wrong:
            return parts, k          # cut short, another kind, late 04
        parts.append(data[k:k + length])
        k += length
    return parts, LIMIT if len(raw) > LIMIT else None


def run(raw):
    """The output of `bench` for the trace raw."""
    c = model.Controller()
    parts, bad = groups(raw)
    lines = [print_group(c, part) for part in parts]
    if bad is not None:
        lines.append(f"bad trace at {bad}\n")
    lines.append(buffer_line(c))
    return "".join(lines)


if __name__ == "__main__":
    sys.stdout.write(run(sys.stdin.buffer.read()))
