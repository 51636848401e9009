"""Random jobs, steered so that every answer occurs."""

from pairs import ACK, NACK, RESET, START, STOP, flat

ADDRESSES = (0x00, 0x07, 0x08, 0x77, 0x78, 0x80, 0xD0, 0xFF)
SIZES = (0, 67, 68, 69, 70, 128, 196, 255)
# What comes before the address byte
WAITS = ([START], [START], [START], [START], [(10, 0), START],
         [(2, 0), (13, 0)], [(2, 0), (5, 0x40), (13, 0)],
         [(2, 0), (5, 0xE0), (3, 0), START],
         [(2, 0), (5, 0x00), (2, 0), (5, 0xE1), (13, 0)])
# What may come at any place: lost, faults, reset
SPOILERS = ((9, 0), (9, 0), (10, 0), (11, 0), (12, 0), RESET)


def some_pair(draw):
    """A pair that is often one of the rules, and now and then any."""
    n = draw.randrange(17)
    if draw.random() < 0.1:
        return (draw.randrange(256), draw.randrange(256))
    if n == 6:
        return (n, draw.choice((0, 0, 1, 2)))
    if n in (5, 7, 8):
        return (n, draw.randrange(256))
    return (n, 1 if draw.random() < 0.1 else 0)


def moves(draw, kind, n):
    """Data bytes, each ACKed or one NACKed; own STOP at the end."""
    if kind:
        return [(7, draw.randrange(256)) for _ in range(n)] + [STOP]
    if n and draw.random() < 0.3:
        return [ACK] * draw.randrange(n) + [NACK, STOP]
    return [ACK] * n + [STOP]


def some_script(draw, kind, n):
    """A script that ends the job, and in half of the cases one spoilt."""
    script = list(draw.choice(WAITS))
    if draw.random() < 0.05:
        script.append((8, draw.choice((0x00, 0x10, 0x9F, 0xA0, 0xA1))))
    if draw.random() < 0.12:
        script += [NACK, STOP]
    else:
        script += [ACK] + moves(draw, kind, n)
    way, k = draw.random(), draw.randrange(len(script) + 1)
    if way < 0.12:
        script = script[:k]
    elif way < 0.32:
        script.insert(k, draw.choice(SPOILERS))
    elif way < 0.42:
        script.insert(k, some_pair(draw))
    elif way < 0.50:
        script[k:k + 1] = [some_pair(draw)]
    elif way < 0.56:
        script += [some_pair(draw) for _ in range(draw.randrange(4))]
    return script


def some_job(draw):
    """(kind, address, n, data, script)."""
    kind = draw.randrange(2)
    address = draw.choice((0x50, 0x50, 0x2C, draw.randrange(0x08, 0x78)))
    if draw.random() < 0.04:
        address = draw.choice(ADDRESSES)
    n = draw.randrange(1, 7)
    if draw.random() < 0.06:
        n = draw.choice(SIZES)
    data = bytes(draw.randrange(256) for _ in range(0 if kind else n))
    return kind, address, n, data, some_script(draw, kind, n)


def job_group(draw):
    """A group of kind 03."""
    kind, address, n, data, script = some_job(draw)
    return (bytes([3, kind, address, n]) + data
            + len(script).to_bytes(2, "little") + flat(script))


def job_input(draw):
    """An input of the program `job`, now and then a bad one."""
    kind, address, n, data, script = some_job(draw)
    raw = bytes([kind, address, n]) + data + flat(script)
    way = draw.random()
    if way < 0.03:
        raw = raw[:draw.randrange(len(raw) + 1)]
    elif way < 0.05:
        raw = bytes([draw.randrange(2, 256)]) + raw[1:]
    elif way < 0.06:
        raw += bytes(draw.randrange(4080 - len(raw), 4112 - len(raw)))
    elif way < 0.07:
        raw = bytes(draw.randrange(256) for _ in range(draw.randrange(40)))
    elif way < 0.08:
        head = 3 + len(data)
        idle = bytes([10, 0]) * draw.randrange(2000, 2048)
        raw = raw[:head] + idle + raw[head:]
    return raw
