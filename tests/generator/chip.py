"""Places where document 01 and the data sheet differ that no other trace shows."""

from reach import address, con, start
from trace import Trace

OWN_AND_GENERAL = ((1, 0xE1),)       # I2CADR: own address 70h, GC 1


def make_chip():
    make_capture()
    make_count()
    make_own_address()
    make_enable_busy()
    make_start_after_stop()


def make_capture():
    t = Trace("chip-capture",
              "I2CDAT where a chip captures a byte and the model does not")
    t.note("the address byte at 60h, A8h and D0h; place 0 held 5Ch before")
    for byte in (0xE0, 0xE1, 0x00):
        start(t, OWN_AND_GENERAL)
        t.wr(3, con(aa=1))
        t.wr(1, 0x5C, "place 0")
        t.ev(2)
        t.ev(5, byte, f"address byte {byte:02X}h:")
        t.rd(1, "I2CDAT:")
    t.note("arbitration lost in Byte mode, in the address byte")
    start(t)
    address(t, 0xA0)
    t.ev(8, 0x9E, "ours is A0h, the winner's 9Eh:")
    t.rd(1, "I2CDAT:")
    t.note("in a data byte")
    start(t)
    address(t, 0xA0)
    t.ev(6)
    t.wr(1, 0xC3, "place 0")
    t.wr(3, con())
    t.ev(9, 0, "arbitration lost:")
    t.rd(1, "I2CDAT:")
    t.note("in the NACK of a received byte")
    start(t)
    address(t, 0xA1)
    t.ev(6)
    t.wr(1, 0xC3, "place 0")
    t.wr(3, con())
    t.ev(9, 0, "arbitration lost:")
    t.rd(1, "I2CDAT:")


def make_count():
    t = Trace("chip-count", "I2CCOUNT after two of five bytes came in")
    start(t, ((0, 0x05),))
    t.wr(3, con(aa=1))
    t.ev(2)
    t.ev(5, 0xE0, "address byte E0h:")
    t.wr(3, con(aa=1, mode=1), "Buffered mode, BC 5:")
    t.ev(7, 0x11, "byte 0:")
    t.ev(7, 0x12, "byte 1:")
    t.ev(3, 0, "another's STOP:")
    t.wr(0, 0)
    t.rd(2, "I2CCOUNT:")
    t.wr(0, 7)
    t.rd(2, "moved count:")


def make_own_address():
    t = Trace("chip-own-address", "A master that sends its own address")
    for nack in (0, 1):
        start(t)
        t.wr(0, 1)
        t.rd(2, "own address 70h:")
        address(t, 0xE0, aa=1)
        t.ev(6, nack, "NACK:" if nack else "ACK:")


def make_enable_busy():
    t = Trace("chip-enable-busy", "ENSIO 0 and 1 while another has the bus")
    start(t)
    t.wr(3, con())
    t.ev(2, 0, "another's START:")
    t.ev(5, 0x02, "its address byte:")
    t.wr(3, con(ensio=0), "ENSIO 0:")
    t.wr(3, con(sta=1), "ENSIO 1 and STA:")
    t.ev(3, 0, "another's STOP:")
    t.ev(1, 0, "own START:")


def make_start_after_stop():
    t = Trace("chip-start-after-stop", "STA set before own STOP came")
    start(t)
    address(t, 0xA0)
    t.ev(6, 0, "ACK:")
    t.wr(3, con(sto=1), "STO:")
    t.wr(3, con(sta=1), "STA at once:")
    t.ev(4, 0, "own STOP:")
    t.wr(3, con(sta=1), "STA after it:")
    t.ev(1, 0, "own START:")
