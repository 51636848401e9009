"""Scripts of pairs (event, argument), and jobs laid out as text."""

START, STOP = (1, 0), (4, 0)
ACK, NACK = (6, 0), (6, 1)           # a byte out, ACKed or NACKed
DATA_LOST, RESET = (9, 0), (14, 0)
ON_A_LINE = 8                        # pairs on one line
REPEATED = 6                         # equal pairs in a row that are folded


def write_script(n):
    """A write of n bytes that is done."""
    return [START] + [ACK] * (n + 1) + [STOP]


def read_script(values):
    """A read of these bytes that is done."""
    return [START, ACK] + bytes_in(values) + [STOP]


def bytes_in(values):
    return [(7, v) for v in values]


def flat(pairs):
    """The raw bytes of a script."""
    return bytes(b for pair in pairs for b in pair)


def hexed(data):
    return " ".join(f"{b:02X}" for b in data)


def runs(pairs):
    """Lists of equal pairs in a row."""
    out = []
    for pair in pairs:
        if out and out[-1][0] == pair:
            out[-1].append(pair)
        else:
            out.append([pair])
    return out


def pair_lines(pairs):
    """The script as lines of text; many equal pairs in a row are folded."""
    lines, line = [], []

    def close():
        if line:
            lines.append(hexed(flat(line)))
            line.clear()
    for run in runs(pairs):
        if len(run) >= REPEATED:
            close()
            lines.append(f"repeat {len(run)}: {hexed(run[0])}")
            continue
        for pair in run:
            if len(line) == ON_A_LINE:
                close()
            line.append(pair)
    close()
    return lines


def data_lines(data):
    """The data of a write as lines of text, 16 bytes on each."""
    if len(data) > 16 and len(set(data)) == 1:
        return [f"repeat {len(data)}: {hexed(data[:1])}"]
    return [hexed(data[k:k + 16]) for k in range(0, len(data), 16)]


def kind_text(kind, address, n):
    return (f"read of {n} from {address:02X}h" if kind
            else f"write of {n} to {address:02X}h")
