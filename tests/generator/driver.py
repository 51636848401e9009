"""The job driver of document 01's section "Jobs", on top of the model.

All that a job does to the controller it does by register accesses and events.
job_program(raw) does with its input what the program `job` does.
"""

from dataclasses import dataclass, field

import model

I2CSTA, INDPTR, I2CDAT, AT_POINTER, I2CCON = 0, 0, 1, 2, 3   # Registers
COUNT_POINTER, MOVED_POINTER = 0x00, 0x07                    # Registers: pointers

WRITE, READ = 0, 1       # Jobs, the program's input: kind
OUT_LENGTH = 69          # Jobs, 21: out record under 69
LONGEST_INPUT = 4096     # Jobs, the program's input: over 4,096 bytes is 21

FAULTS = (0x00, 0x70, 0x78)      # Jobs, 26
LOST = 0x38                      # Jobs, 25
# Jobs: the end, and the answer that own STOP then gives
ENDS = {0x20: 23, 0x48: 23, 0x28: 0, 0x58: 0, 0x30: 24}


@dataclass
class Result:
    """Jobs: the answer, the number beside it, and what else is told."""
    answer: int
    refused: int = 0     # the model's number for 28, 0 for every other answer
    count: int = 0
    events: int = 0      # pairs taken; a refused pair isn't counted
    sent: list = field(default_factory=list)
    handed: list = field(default_factory=list)


@dataclass
class Job:
    """A job on its way."""
    c: model.Controller
    kind: int
    address: int
    n: int
    data: bytes
    end: int = None      # the answer that own STOP will give
    moved: int = 0       # the moved count found at 30h
    taken: list = field(default_factory=list)    # bytes read at 58h

    def write(self, register, value):
        number, _ = model.write(self.c, register, value)
        assert number == 0, "the driver's own accesses are accepted"

    def read(self, register):
        number, value = model.read(self.c, register)
        assert number == 0, "the driver's own accesses are accepted"
        return value


def bad_job(address, n, data_short, destination_short, out_length, script):
    """Jobs, 21."""
    return (not 1 <= n <= 68 or not 0x08 <= address <= 0x77 or data_short
            or destination_short or out_length < OUT_LENGTH
            or len(script) % 2 != 0)


def not_ready(c):
    """Jobs, 22."""
    return (c.turn.name != "Free" or c.ensio == 0 or c.sta == 1
            or not model.sound(c))


def begin(job):
    """Jobs: I2CCOUNT to n (read: 128 + n), then I2CCON 60h."""
    job.write(INDPTR, COUNT_POINTER)
    job.write(AT_POINTER, 128 + job.n if job.kind == READ else job.n)
    job.write(I2CCON, 0x60)


def serve(job):
    """Jobs: the driver's work at the status found; other ones need none."""
    status = job.read(I2CSTA)
    if status == 0x08:               # at 08h the address byte and 40h
        job.write(I2CDAT, 2 * job.address + (job.kind == READ))
        job.write(I2CCON, 0x40)
    elif status == 0x18:             # then the data and 41h
        for byte in job.data[:job.n]:
            job.write(I2CDAT, byte)
        job.write(I2CCON, 0x41)
    elif status == 0x40:             # a read has no data
        job.write(I2CCON, 0x41)
    elif status == LOST:             # 25: the driver has written 40h;
        job.write(I2CCON, 0x40)      # Ask 2: the record stays at 38h
    elif status in ENDS:
        finish(job, status)
    return status


def finish(job, status):
    """Jobs: at the end writes 50h, and waits for own STOP."""
    if status == 0x58:               # at 58h reads the n bytes
        job.taken = [job.read(I2CDAT) for _ in range(job.n)]
    if status == 0x30:               # 24: the moved count found at 30h
        job.write(INDPTR, MOVED_POINTER)
        job.moved = job.read(AT_POINTER)
        job.write(INDPTR, COUNT_POINTER)     # leaves the pointer at 00h
    job.end = ENDS[status]
    job.write(I2CCON, 0x50)


def answer_after(job, number):
    """Jobs: the answer after the accepted event `number`; None: it goes on."""
    if number == 14:
        return 29                    # the record is the reset one
    if number == 4:
        return job.end               # own STOP: 0, 23 or 24
    status = serve(job)
    if status == LOST:
        return 25
    if status in FAULTS:
        return 26                    # left so
    return None


def take_pairs(job, script):
    """Jobs: takes pairs while the job lasts."""
    result = Result(27)              # the script ended first
    for k in range(0, len(script), 2):
        number, argument = script[k], script[k + 1]
        refused, value, _ = model.event(job.c, number, argument)
        if refused:
            result.answer, result.refused = 28, refused
            break
        result.events += 1
        if number == 6:
            result.sent.append(value)        # one for each accepted event 6
        answer = answer_after(job, number)
        if answer is not None:
            result.answer = answer
            break
    return result


def run_job(controller, kind, address, n, data, destination_length,
            out_length, script):
    """Runs one job; the controller is changed in place."""
    data_short = kind == WRITE and len(data) < n
    destination_short = kind == READ and destination_length < n
    if bad_job(address, n, data_short, destination_short, out_length, script):
        return Result(21)            # 21 comes before 22
    if not_ready(controller):
        return Result(22)            # both leave everything as it was
    job = Job(controller, kind, address, n, bytes(data))
    begin(job)
    result = take_pairs(job, script)
    if result.answer == 0:
        result.count = n             # the count is n for 0
        result.handed = job.taken
    elif result.answer == 24:
        result.count = job.moved
    return result


# ---- job -------------------------------------------------------------------

def hex_line(word, values):
    return word + "".join(f" {b:02X}" for b in values) + "\n"


def print_job(result):
    """Jobs: the three lines; for 28 the first ends as in ` refused 8`."""
    first = (f"answer {result.answer} count {result.count} "
             f"events {result.events}")
    if result.answer == 28:
        first += f" refused {result.refused}"
    return (first + "\n" + hex_line("out", result.sent)
            + hex_line("in", result.handed))


def job_program(raw):
    """Jobs, the program's input: what the program `job` prints."""
    bad = print_job(Result(21))
    if not 3 <= len(raw) <= LONGEST_INPUT or raw[0] > READ:
        return bad                   # too long, cut short, of another kind
    kind, address, n = raw[:3]
    end = 3 + (n if kind == WRITE else 0)
    if len(raw) < end:
        return bad                   # the data are cut short
    c = model.Controller()
    model.write(c, I2CCON, 0x40)     # a fresh controller enabled by 40h
    return print_job(run_job(c, kind, address, n, raw[3:end], model.PLACES,
                             OUT_LENGTH, raw[end:]))
