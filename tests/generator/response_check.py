"""The response table: stored, made from the papers, and by the model.

python3 response_check.py STORED   exits 1 if a cell differs

STORED is what the program `table` prints. It has to be the text that
response_table.py makes from the papers, and each of its cells what the
reference model does with an I2CCON write at that status.
"""

import sys

import model
import response_table
from model import AA, ENSIO, MODE, STA, STO, Turn

# Ask 4: "the four bits STA, STO, AA and MODE, highest first"
BITS = (STA, STO, AA, MODE)
# Ask 4: "for a valid BC"
VALID_COUNT = 4
# where a write at A0h leads, by what ended the reception
AFTER = {"stop": "Free", "start": "Listen"}
IDLE = ("Off", "Free", "Busy", "Listen")


def value_of(pattern):
    """The byte written for a column of the table, ENSIO 1."""
    return ENSIO | sum(bit for bit, one in zip(BITS, pattern) if one == "1")


def written(turn, pattern):
    """What the model does with the write: the record, the refusal's number."""
    c = model.Controller(turn=turn, count=VALID_COUNT, ensio=1)
    number, _ = model.write(c, 3, value_of(pattern))
    return c, number


def word(turn, pattern):
    """The cell, from what the model does in Host."""
    c, number = written(turn, pattern)
    if number == 10:
        return "never"               # no record with this status is sound
    if number:
        return f"refused{number}"
    if c.turn == turn:
        return "stays"
    return c.turn.name + ("/" + c.turn.detail if c.turn.detail else "")


def besides(status, pattern):
    """Ask 4: "The two ways of A0h, and all that F8h does"."""
    if status == 0xA0:
        return all(word(Turn("Host", status, detail), pattern) == name
                   for detail, name in AFTER.items())
    for name in IDLE + model.WIRE:
        c, number = written(Turn(name), pattern)
        kept = "Free" if name == "Off" else name
        if number != (3 if name in model.WIRE else 0) or c.turn.name != kept:
            return False
    return True


def agrees(status, pattern, cell):
    if cell == "beside":
        return status in (0xA0, 0xF8) and besides(status, pattern)
    return word(Turn("Host", status), pattern) == cell


def main(stored):
    with open(stored, encoding="ascii") as file:
        text = file.read()
    if text != response_table.table_text():
        sys.exit(f"{stored} is not what response_table.py makes")
    heading, *rows = (line.split() for line in text.splitlines())
    cells = 0
    for digits, *row in rows:
        for pattern, cell in zip(heading[1:], row, strict=True):
            if not agrees(int(digits, 16), pattern, cell):
                sys.exit(f"the model differs at {digits} {pattern}: {cell}")
            cells += 1
    print(f"{cells} entries of the response table: "
          "as the papers and the model have them")


if __name__ == "__main__":
    main(sys.argv[1])
