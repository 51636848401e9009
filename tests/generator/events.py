"""Every event in every turn, with each flag that its rule names both ways."""

from reach import con, reach
from trace import HOSTS, SOME_HOSTS, TURNS, Trace, place


STA_FREE = ("Free", "Busy", "Listen", "Address", "SlaveReceive own",
            "SlaveReceive general", "SlaveSend", "Stopping")
TITLES = {1: "own START", 2: "another's START", 3: "another's STOP",
          4: "own STOP", 5: "address byte", 6: "byte out", 7: "byte in",
          8: "arbitration lost in Address",
          9: "arbitration lost in Send or Receive",
          10: "START or STOP at an illegal place",
          11: "SDA held after nine clocks", 12: "SCL low past the time-out",
          13: "idle past the time-out", 14: "reset pin"}
SAMPLE = {5: (0xE0,), 6: (0, 1), 7: (0x5C,), 8: (0x02,)}


def event_trace(n):
    """Event n in every turn, and in Host at several statuses."""
    t = Trace(f"event-{n:02d}", f"Event {n}, {TITLES[n]}")
    for name in TURNS:
        for sta in (0, 1) if name in STA_FREE else (0,):
            for a in SAMPLE.get(n, (0,)):
                reach(t, name, sta=sta)
                shown = t.c.sta
                t.ev(n, a, f"event {n} in {name}, STA {shown}:")
    for name in SOME_HOSTS:
        reach(t, name)
        for a in SAMPLE.get(n, (0,)):
            t.ev(n, a, f"event {n} at {name[:2]}h{name[2:]}:")
    return t


def make_events():
    traces = {n: event_trace(n) for n in range(1, 15)}
    more_plain(traces)
    more_address(traces[5])
    more_lost(traces[8])
    more_out(traces[6])
    more_in(traces[7])
    more_timeouts(traces[12], traces[13])
    event_host()


def event_host():
    """Every event at every status: refused 8 but 14, and 3 and 12 at 38h."""
    t = Trace("event-host", "Every event in Host, at every status")
    for name in HOSTS:
        every_event(t, name, lambda: reach(t, name))


def every_event(t, name, again):
    """Events 1 to 14 at a status, reached again after each one taken."""
    for n in range(1, 15):
        for a in SAMPLE.get(n, (0,)):
            if place(t.c) != name:
                again()
            t.ev(n, a, f"event {n} at {name[:2]}h{name[2:]}:")


def more_plain(traces):
    """The events without a byte, in Buffered mode in the middle of a move."""
    for name in ("Send", "Receive", "SlaveReceive own",
                 "SlaveReceive general", "SlaveSend"):
        step = 6 if "Send" in name else 7
        for n in (1, 2, 3, 4, 9, 10, 11, 12, 13, 14):
            t = traces[n]
            reach(t, name, ((0, 0x03),), mode=1, aa=1)
            t.ev(step, 0)
            t.ev(step, 0)
            t.ev(n, 0, f"event {n} in {name}, MODE 1, moved 2:")
            t.wr(0, 7)
            t.rd(2, "moved count:")
    for n in (1, 11):
        t = traces[n]
        reach(t, "Stopping", sta=1)
        t.ev(4, 0, "own STOP with STA kept:")
        t.ev(n, 0, f"event {n} in Free, STA kept over Stopping:")
        reach(t, "Busy", sta=0)
        t.wr(3, con(sta=1), "STA set in Busy:")
        t.ev(3, 0, "another's STOP:")
        t.ev(n, 0, f"event {n} in Free, STA set in Busy:")
    for n in (10, 12, 14):
        t = traces[n]
        reach(t, "Stopping", sta=1, aa=1, mode=1)
        t.ev(n, 0, f"event {n} in Stopping with STA, AA and MODE:")
        t.rd(3, "I2CCON:")
    t = traces[14]
    for n in (0, 0xFF):
        t.wr(0, 5)
        t.wr(2, 0xA5, "armed")
        t.ev(14, n, f"event 14, argument {n:02X}h:")


def more_address(t):
    """Event 5 in Listen: AA, GC, own address and the byte."""
    t.note("in Listen: AA, own address, GC, byte")
    for adr in (0xE0, 0xE1, 0x00, 0x01, 0x02, 0xFF):
        for aa in (0, 1):
            for byte in (0x00, 0x01, 0x02, 0xE0, 0xE1, 0xE2, 0xFE, 0xFF):
                near = byte in (0x02, 0xE2, 0xFE)
                if near and adr not in (0x02, 0xE1, 0xFF):
                    continue
                reach(t, "Listen", ((1, adr),), aa=aa)
                t.ev(5, byte, f"AA {aa}, own {adr >> 1:02X}h, GC {adr & 1}, "
                     f"byte {byte:02X}h:")


def more_lost(t):
    """Event 8 in Address: smaller, equal, larger byte, and the match."""
    t.note("in Address: smaller, equal, larger byte")
    for ours in (0x00, 0x01, 0x80, 0xA0, 0xA1, 0xFF):
        reach(t, "Address", byte=ours)
        for byte in (0xFF, ours + 1, ours, ours - 1):
            if 0 <= byte <= 255 and not (byte == 255 and ours + 1 == 255):
                t.ev(8, byte, f"ours {ours:02X}h, winner's {byte:02X}h:")
    t.note("matched as in event 5, ours FFh: AA, own address, GC, byte")
    for adr in (0xE0, 0xE1, 0x00, 0x01):
        for aa in (0, 1):
            for byte in (0x00, 0x01, 0xE0, 0xE1, 0xE2):
                reach(t, "Address", ((1, adr),), aa=aa, byte=0xFF)
                t.ev(8, byte, f"AA {aa}, own {adr >> 1:02X}h, GC {adr & 1}, "
                     f"winner's {byte:02X}h:")
    t.note("a match by a byte that is not smaller")
    for ours, byte in ((0xE0, 0xE0), (0xE1, 0xE1), (0xE0, 0xE1), (0xDF, 0xE0),
                       (0xE1, 0xE0), (0x00, 0x00), (0x01, 0x00)):
        reach(t, "Address", ((1, 0xE1),), aa=1, byte=ours)
        t.ev(8, byte, f"ours {ours:02X}h, winner's {byte:02X}h:")


def more_out(t):
    """Event 6: R, MODE, AA, LB, last or not, ACK or NACK."""
    t.note("in Address: R, ACK or NACK, AA")
    for byte in (0x00, 0x01, 0xA0, 0xA1, 0xFE, 0xFF):
        for aa in (0, 1):
            for nack in (0, 1):
                reach(t, "Address", byte=byte, aa=aa)
                t.ev(6, nack, f"byte {byte:02X}h, AA {aa}, "
                     f"{'NACK' if nack else 'ACK'}:")
    for name in ("Send", "SlaveSend"):
        t.note(f"in {name}: MODE, AA, LB, last or not, ACK or NACK")
        for mode, aa, lb, bc, nack in flags():
            out_case(t, name, mode, aa, lb, bc, nack)


def flags():
    """MODE, AA, LB, BC (1: the byte is the last in Buffered mode), NACK."""
    return [(mode, aa, lb, bc, nack) for mode in (0, 1) for aa in (0, 1)
            for lb in (0, 1) for bc in (1, 2) for nack in (0, 1)]


def out_case(t, name, mode, aa, lb, bc, nack):
    reach(t, name, ((0, lb << 7 | bc),), mode=mode, aa=aa)
    t.ev(6, nack, f"{name}, MODE {mode}, AA {aa}, LB {lb}, BC {bc}, "
         f"{'NACK' if nack else 'ACK'}:")
    if t.c.turn.name == name:
        t.ev(6, 1 - aa, "the last byte:")


def more_in(t):
    """Event 7: MODE, AA, LB, last or not."""
    for name in ("Receive", "SlaveReceive own", "SlaveReceive general"):
        t.note(f"in {name}: MODE, AA, LB, last or not")
        for mode, aa, lb, bc, nack in flags():
            if nack:
                continue
            reach(t, name, ((0, lb << 7 | bc),), mode=mode, aa=aa)
            t.ev(7, 0x81, f"{name}, MODE {mode}, AA {aa}, LB {lb}, BC {bc}:")
            if t.c.turn.name != "Host":
                t.ev(7, 0x42, "the last byte:")
            t.rd(1, "place 0:")
            t.rd(1, "place 1:")


def more_timeouts(twelve, thirteen):
    """Events 12 and 13 with TE 0, in every turn, and TE with STA."""
    for te in (0, 1):
        i2cto = te << 7 | (0x7F if te == 0 else 0)
        twelve.note(f"TE {te}, I2CTO {i2cto:02X}h")
        thirteen.note(f"TE {te}, I2CTO {i2cto:02X}h")
        for name in TURNS:
            reach(twelve, name, ((4, i2cto),))
            twelve.ev(12, 0, f"event 12 in {name}, TE {te}:")
            for sta in (0, 1) if name in STA_FREE else (0,):
                reach(thirteen, name, ((4, i2cto),), sta=sta)
                shown = thirteen.c.sta
                thirteen.ev(13, 0, f"event 13 in {name}, TE {te}, "
                            f"STA {shown}:")
    for name in SOME_HOSTS[1:]:
        if name != "78":
            reach(twelve, name, ((4, 0x7F),))
            twelve.ev(12, 0, f"event 12 at {name[:2]}h{name[2:]}, TE 0:")
