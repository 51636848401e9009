"""Pieces that several traces with jobs use."""

from pairs import ACK, DATA_LOST, START, read_script, write_script

OTHERS = [(2, 0), (5, 0x40), (3, 0)]     # another's START, address byte, STOP
# Scripts of a write that end with answer 25
LOST_BY = {"event 8": [START, (8, 0x40)], "event 9": [START, ACK, DATA_LOST],
           "event 9 amid": [START, ACK, ACK, DATA_LOST]}


def done_write(t, data=(0x11, 0x22), address=0x50, show=""):
    t.job(0, 0, address, len(data), data, write_script(len(data)), show)


def done_read(t, values=(0x5C, 0x5D), address=0x50, show=""):
    result = t.job(0, 1, address, len(values), (), read_script(values), show)
    assert result.handed == list(values)


def at_once(t):
    """Another job at once, which isn't ready; both kinds."""
    t.job(22, 0, 0x50, 1, [0x77], write_script(1), "at once")
    t.job(22, 1, 0x50, 1, (), read_script([0x78]), "at once")


def soft(t):
    """The software reset; 05h to INDPTR unless the pointer is there."""
    if t.c.pointer != 5:
        t.wr(0, 5, "INDPTR 05h:")
    t.wr(2, 0xA5, "A5h:")
    t.wr(2, 0x5A, "5Ah:")


def usable_again(t, way):
    """By event 14, by a software reset or by I2CCON writes; then a job."""
    if way == "reset pin":
        t.ev(14, 0, "event 14:")
    elif way == "software reset":
        soft(t)
    else:
        t.wr(3, 0x00, "ENSIO 0:")
    t.job(22, 0, 0x50, 1, [0x79], write_script(1), "while Off")
    t.wr(3, 0x40, "ENSIO 1:")
    done_write(t)
    done_read(t)
