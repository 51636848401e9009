"""A stored input of the program `job`, with what it must print."""

from driver import job_program
from pairs import data_lines, hexed, kind_text, pair_lines
from trace import parse

JOBS = {}                    # name: the input as text


def store(name, lines, want, out=None, into=None):
    """Keeps an input; want, out and into are told by hand, where given."""
    assert name not in JOBS and name == name.lower()
    JOBS[name] = "\n".join(lines) + "\n"
    printed = job_program(parse(JOBS[name])).splitlines()
    assert printed[0] == "answer " + want, (name, printed[0], want)
    assert out is None or printed[1] == ("out " + out).strip(), name
    assert into is None or printed[2] == ("in " + into).strip(), name


def write(name, title, address, data, script, want, **more):
    """A write of these data."""
    head = hexed((0, address, len(data)))
    store(name, ["# " + title,
                 f"{head}  # {kind_text(0, address, len(data))}"]
          + data_lines(data) + pair_lines(script), want, **more)


def read(name, title, address, n, script, want, **more):
    """A read of n bytes."""
    head = hexed((1, address, n))
    store(name, ["# " + title, f"{head}  # {kind_text(1, address, n)}"]
          + pair_lines(script), want, **more)
