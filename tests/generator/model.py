"""A plain reference model of the I2C controller, from the papers alone.

The rules are document 01's; each stands beside a comment that names the
section. What the match answers is document 02's, Ask 5; what leaves status
38h is its Ask 2; why a move ended is its Ask 8.
"""

from dataclasses import dataclass, field

PLACES = 68  # The controller record: the buffer holds 68 bytes, 0 to 67

# The controller record: Address to Restarting are the wire turns
WIRE = ("Address", "Send", "Receive", "SlaveReceive", "SlaveSend",
        "Stopping", "Restarting")
MOVING = ("Send", "Receive", "SlaveReceive", "SlaveSend")

# Events: every status that some rule gives
STATUSES = (0x00, 0x08, 0x10, 0x18, 0x20, 0x28, 0x30, 0x38, 0x40, 0x48, 0x50,
            0x58, 0x60, 0x68, 0x70, 0x78, 0x80, 0x88, 0xA0, 0xA8, 0xB0, 0xB8,
            0xC0, 0xC8, 0xD0, 0xD8, 0xE0, 0xE8)

# Ask 8: why a move ended, by the status given
ENDED = {"count": (0x18, 0x28, 0x40, 0x50, 0x80, 0xB8, 0xC8, 0xE0),
         "nack": (0x20, 0x30, 0x48, 0x58, 0x88, 0xC0, 0xE8),
         "outside": (0xA0,),
         "arbitration": (0x38, 0x68, 0xB0, 0xD8),
         "fault": (0x00, 0x70, 0x78)}
REASONS = ("none",) + tuple(ENDED) + ("reset",)
# those at F8h, for a fault is left by a reset alone
IDLE_REASONS = set(REASONS) - {"fault"}

# Registers: address 3, I2CCON = AA 7, ENSIO 6, STA 5, STO 4, SI 3, MODE 0
AA, ENSIO, STA, STO, SI, MODE = 0x80, 0x40, 0x20, 0x10, 0x08, 0x01


@dataclass(frozen=True)
class Turn:
    """What the controller waits for, and what that wait needs."""
    name: str
    status: int = 0xF8   # only Host has one of its own
    detail: str = ""     # Host at A0h: stop, start; SlaveReceive: own, general


@dataclass
class Controller:
    """The controller record, fresh: the values after reset but the reason."""
    buffer: list = field(default_factory=lambda: [0] * PLACES)
    turn: Turn = Turn("Off")
    # Registers, "After reset": each of these
    aa: int = 0
    ensio: int = 0
    sta: int = 0
    sto: int = 0
    mode: int = 0        # MODE, bit 0 of I2CCON
    pointer: int = 0
    count: int = 0x01    # I2CCOUNT
    adr: int = 0xE0      # I2CADR
    clock_low: int = 0x9D
    clock_high: int = 0x86
    timeout: int = 0xFF  # I2CTO
    i2cmode: int = 0x00  # I2CMODE
    hand: int = 0
    moved: int = 0
    armed: int = 0
    # Ask 8: "the program's fresh controller: none yet"
    reason: str = "none"

    def bc(self):
        return self.count & 0x7F     # Registers: I2CCOUNT, BC below bit 7

    def lb(self):
        return self.count >> 7       # Registers: I2CCOUNT, LB bit 7

    def gc(self):
        return self.adr & 1          # Registers: I2CADR, GC bit 0

    def te(self):
        return self.timeout >> 7     # Registers: I2CTO, TE bit 7

    def status(self):
        # The controller record: status is F8h exactly when SI is 0
        return self.turn.status

    def control(self):
        # Registers: I2CCON; bits 2 and 1 read 0
        # The controller record: Host exactly while SI is 1
        si = 1 if self.turn.name == "Host" else 0
        return (self.aa << 7 | self.ensio << 6 | self.sta << 5
                | self.sto << 4 | si << 3 | self.mode)


def sound(c):
    """The controller record: when a record is sound."""
    if c.pointer > 7 or c.hand > 68 or c.moved > 68 or c.i2cmode > 3:
        return False
    if c.turn.name == "Host" and c.turn.status not in STATUSES:
        return False
    if c.turn.name in MOVING:
        if c.mode == 0:
            return c.moved == 0
        return c.moved < c.bc() <= 68
    return True


def reset(c):
    """Registers, "After reset". The controller record: it keeps the buffer."""
    fresh = Controller(buffer=c.buffer)
    c.__dict__.update(fresh.__dict__)
    c.reason = "reset"               # Ask 8: set by a reset


# ---- Writing I2CCON --------------------------------------------------------

def turn_after_stop_bits(v, neither):
    """Writing I2CCON, line of 18h: by STA and STO."""
    if v & STO:
        return Turn("Stopping")      # STO, and both (STA kept by the write)
    if v & STA:
        return Turn("Restarting")
    return neither


def turn_after_control(c, v):
    """Writing I2CCON: the turn that value v leads to; None: not listed."""
    if not v & ENSIO:
        return Turn("Off")           # ENSIO 0 leads to Off
    if c.turn.name == "Off":
        return Turn("Free")          # ENSIO 1 from Off leads to Free
    s = c.status()                   # otherwise, by the status before it
    if s in (0x08, 0x10):            # MODE must be 0; STA, STO not consulted
        return None if v & MODE else Turn("Address")
    if s in (0x18, 0x20, 0x28, 0x30):
        return turn_after_stop_bits(v, Turn("Send"))
    if s in (0x40, 0x50):            # STA or STO set is refused 5
        return None if v & (STA | STO) else Turn("Receive")
    if s in (0x48, 0x58):            # as for 18h, but neither is refused 5
        return turn_after_stop_bits(v, None)
    if s == 0x38:
        return c.turn                # Ask 2: SI stays 1 and status 38h
    if s in (0x60, 0x68, 0x80):
        return Turn("SlaveReceive", detail="own")
    if s in (0xD0, 0xD8, 0xE0):
        return Turn("SlaveReceive", detail="general")
    if s in (0x88, 0xE8, 0xC0, 0xC8):
        return Turn("Busy")
    if s == 0xA0:                    # Free after a STOP, Listen after a START
        return Turn("Free" if c.turn.detail == "stop" else "Listen")
    if s in (0xA8, 0xB0, 0xB8):
        return Turn("SlaveSend")
    if s == 0xF8:
        return c.turn                # F8h: the turn stays
    return None                      # 00h, 70h, 78h: no line lists them


def write_control(c, v):
    """Writing I2CCON: an accepted write."""
    turn = turn_after_control(c, v)
    c.turn = turn                    # clears SI: not Host, save at 38h
    c.aa = v >> 7 & 1                # stores AA, ENSIO, STA, MODE
    c.ensio = v >> 6 & 1
    c.sta = v >> 5 & 1 if c.ensio else 0     # ENSIO 0: Off with STA 0
    c.mode = v & 1
    if turn.name == "Stopping":
        c.sto = 1                    # stored only there; Ask 2: never at 38h
    c.hand = 0                       # The controller record: hand place
    c.moved = 0                      # The controller record: moved count


# ---- Refusals of an access or event ----------------------------------------

def refuse_access(c, write, reg, v):
    """Refusals: the first line that applies to an access; 0: accepted."""
    if reg > 3:
        return 1                     # register over 3
    if not sound(c):
        return 10                    # the record isn't sound
    if reg == 2 and c.pointer == (7 if write else 5):
        return 9                     # write at 07h, read at 05h
    if c.turn.name in WIRE:
        if write and reg != 0 and not (reg == 2 and c.pointer == 5):
            return 3                 # any write but INDPTR or I2CPRESET
        if not write and reg == 1:
            return 3                 # any I2CDAT read
    if write and reg == 3:
        number = refuse_control(c, v)
        if number:
            return number
    if reg == 1 and c.hand == 68:
        return 7                     # I2CDAT access, hand place at 68
    return 0


def refuse_control(c, v):
    """Refusals 4, 5 and 6, of an I2CCON write."""
    if c.status() in (0x00, 0x70, 0x78):
        return 4                     # whatever ENSIO says
    turn = turn_after_control(c, v)
    if turn is None:
        return 5                     # ENSIO 1, not listed
    if v & ENSIO and v & MODE and turn.name in MOVING:
        if not 1 <= c.bc() <= 68:
            return 6                 # would start a buffered data move
    return 0


def refuse_event(c, n, a):
    """Refusals: the first line that applies to an event; 0: accepted."""
    if not 1 <= n <= 14:
        return 1                     # event not 1..14
    if n == 6:
        if a > 1:
            return 2                 # over 1 for event 6
    elif n not in (5, 7, 8) and a != 0:
        return 2                     # not 0 where unused
    if n != 14 and not sound(c):
        return 10                    # save for event 14
    if not expected(c, n, a):
        return 8                     # event not expected now
    return 0


# ---- Registers -------------------------------------------------------------

def read(c, reg):
    """A register read: (refusal number, value)."""
    number = refuse_access(c, False, reg, 0)
    if number:
        return number, 0             # Refusals: value 0, the record stays
    if reg == 0:
        return 0, c.status()         # Registers, address 0: read I2CSTA
    if reg == 1:
        value = c.buffer[c.hand]     # Registers, address 1: I2CDAT
        c.hand += 1                  # The controller record: moves on by one
        return 0, value
    if reg == 2:
        return 0, read_indirect(c)
    return 0, c.control()            # Registers, address 3: I2CCON


def read_indirect(c):
    """Registers, address 2: the register at the pointer (05h is refused)."""
    return {0: c.count, 1: c.adr, 2: c.clock_low, 3: c.clock_high,
            4: c.timeout, 6: c.i2cmode, 7: c.moved}[c.pointer]


def write(c, reg, v):
    """A register write: (refusal number, value 0)."""
    number = refuse_access(c, True, reg, v)
    if number:
        return number, 0             # Refusals: value 0, the record stays
    if reg == 2 and c.pointer == 5:
        write_preset(c, v)
        return 0, 0
    c.armed = 0                      # Registers: any other write disarms
    if reg == 0:
        c.pointer = v & 7            # Registers: INDPTR, low three bits
    elif reg == 1:
        c.buffer[c.hand] = v         # Registers, address 1: I2CDAT
        c.hand += 1                  # The controller record: moves on by one
    elif reg == 2:
        write_indirect(c, v)
    else:
        write_control(c, v)
    return 0, 0


def write_preset(c, v):
    """Registers, "Software reset"."""
    if v == 0xA5:
        c.armed = 1                  # arms it, or arms again
    elif v == 0x5A and c.armed:
        reset(c)                     # 5Ah as the next accepted write resets
    else:
        c.armed = 0                  # any other accepted write disarms


def write_indirect(c, v):
    """Registers, address 2: pointers 00h to 04h and 06h."""
    if c.pointer == 6:
        c.i2cmode = v & 3            # I2CMODE, low two bits kept
    else:
        name = ("count", "adr", "clock_low", "clock_high", "timeout")
        setattr(c, name[c.pointer], v)


# ---- Events ----------------------------------------------------------------

def expected(c, n, a):
    """Events: is event n with argument a expected now?"""
    t = c.turn.name
    if n == 14:
        return True                  # 14. Reset pin: always
    if c.status() == 0x38:           # Ask 2: both are expected with SI 1
        return n == 3 or (n == 12 and c.te() == 1)
    if t in ("Host", "Off"):
        return False                 # only with SI 0 and not in Off
    if n == 1:                       # 1. Own START
        return t == "Restarting" or (t == "Free" and c.sta == 1)
    if n == 2:                       # 2. Another's START
        return t in ("Free", "Busy", "Restarting", "SlaveReceive")
    if n == 3:                       # 3. Another's STOP
        return t in ("Busy", "SlaveReceive")
    if n == 4:                       # 4. Own STOP
        return t == "Stopping"
    if n == 5:                       # 5. Address byte, in Listen
        return t == "Listen"
    if n == 6:                       # 6. Byte out
        return t in ("Address", "Send", "SlaveSend")
    if n == 7:                       # 7. Byte in
        return t in ("Receive", "SlaveReceive")
    if n == 8:                       # 8. only if it is smaller than ours
        return t == "Address" and a < c.buffer[0]
    if n == 9:                       # 9. in Send or Receive
        return t in ("Send", "Receive")
    if n == 10:                      # 10. wire turns; Free, Busy, Listen
        return True
    if n == 11:                      # 11. Free with STA, or Restarting
        return t == "Restarting" or (t == "Free" and c.sta == 1)
    if n == 12:                      # 12. TE 1
        return c.te() == 1
    # 13. TE and STA 1, in Busy or Listen
    return c.te() == 1 and c.sta == 1 and t in ("Busy", "Listen")


def reason_of(status):
    """Ask 8: the reason that a new status sets; all others: none yet."""
    for reason, statuses in ENDED.items():
        if status in statuses:
            return reason
    return "none"


def give(c, status, detail=""):
    """The controller record: an event that gives a status leads to Host."""
    if c.turn.name != "Host":        # Ask 2: event 12 at 38h finds SI 1
        c.hand = 0                   # back to 0 whenever SI becomes 1
    c.turn = Turn("Host", status, detail)
    c.reason = reason_of(status)     # Ask 8: set with each new status but F8h


def event(c, n, a):
    """An event: (refusal number, value, the match of 5 and 8, else None)."""
    number = refuse_event(c, n, a)
    if number:
        return number, 0, None       # Refusals: value 0, the record stays
    if n in (5, 8):
        found = match(c, a)          # by the record before the event
        step = address_byte if n == 5 else arbitration_lost
        return 0, step(c, found), found
    if n == 6:
        return 0, byte_out(c, a), None
    if n == 7:
        return 0, byte_in(c, a), None
    if n == 14:
        reset(c)                     # 14. as reset
    else:
        plain_event(c, n)
    return 0, 0, None                # The controller record: else 0


def plain_event(c, n):
    """Events 1 to 4 and 9 to 13, all without an argument."""
    t = c.turn.name
    if n == 1:                       # 1. Free 08h, Restarting 10h
        give(c, 0x08 if t == "Free" else 0x10)
    elif n == 2:                     # 2. Another's START
        if t == "Restarting":
            give(c, 0x10)
        elif t == "SlaveReceive":
            give(c, 0xA0, "start")
        else:
            c.turn = Turn("Listen")  # Free, Busy: Listen
    elif n == 3:                     # 3. Another's STOP
        if t == "SlaveReceive":
            give(c, 0xA0, "stop")
        else:
            c.turn = Turn("Free")    # Busy, and at 38h by Ask 2: Free
    elif n == 4:                     # 4. Stopping: Free, STO 0
        c.turn = Turn("Free")
        c.sto = 0
    elif n == 9:                     # 9. Send or Receive: 38h
        give(c, 0x38)
    elif n == 10:                    # 10. wire turns 00h, else no change
        if t in WIRE:
            give(c, 0x00)
    elif n == 11:                    # 11. 70h
        give(c, 0x70)
    elif n == 12:                    # 12. 78h
        give(c, 0x78)
    elif n == 13:                    # 13. 08h
        give(c, 0x08)


@dataclass(frozen=True)
class Match:
    """Ask 5: whom an address byte calls, and its seven-bit address."""
    kind: str            # own, general, none
    direction: str       # of own: write, read
    address: int

    def way(self):
        return self.direction or self.kind

    def words(self):
        return (self.kind + " " + self.direction).rstrip()


def match(c, byte):
    """Events, 5, answered as Ask 5 has it."""
    address = byte >> 1              # byte = 2 x address + R
    if byte == 0x00 and c.aa and c.gc():
        return Match("general", "", address)     # byte 00h with AA and GC
    own = c.adr >> 1                 # Registers: address in 7..1
    if c.aa and own != 0 and own == address:     # R 1 for a read
        return Match("own", "read" if byte & 1 else "write", address)
    return Match("none", "", address)


def address_byte(c, found):
    """Events, 5; the three codes mean ACK, no match is a NACK (value 1)."""
    if found.kind == "none":
        c.turn = Turn("Busy")
        return 1
    give(c, {"general": 0xD0, "write": 0x60, "read": 0xA8}[found.way()])
    return 0


def arbitration_lost(c, found):
    """Events, 8: matched as in 5, else 38h (value 1)."""
    if found.kind == "none":
        give(c, 0x38)
        return 1
    give(c, {"general": 0xD8, "write": 0x68, "read": 0xB0}[found.way()])
    return 0


def byte_out(c, nack):
    """Events, 6: the byte sent is the value."""
    t = c.turn.name
    if t == "Address":               # an address byte doesn't count as moved
        byte = c.buffer[0]           # Writing I2CCON, 08h: sending place 0
        if byte & 1:
            give(c, 0x48 if nack else 0x40)
        else:
            give(c, 0x20 if nack else 0x18)
        return byte
    # Events, end: Byte mode place 0; Buffered mode place 0, then 1, ...
    byte = c.buffer[c.moved if c.mode else 0]
    c.moved += 1                     # a sent byte that was NACKed counts
    if c.mode and not nack and c.moved != c.bc():
        return byte                  # before the end no status is set
    if t == "Send":
        give(c, 0x30 if nack else 0x28)
    elif nack:
        give(c, 0xC0)                # SlaveSend: NACK C0h
    else:
        give(c, 0xB8 if c.aa else 0xC8)
    return byte


def byte_in(c, byte):
    """Events, 7: the value tells ACK (0) or NACK (1)."""
    c.buffer[c.moved if c.mode else 0] = byte
    c.moved += 1
    if c.mode and c.moved != c.bc():
        return 0                     # Buffered: ACKs all but the last
    # Buffered, last: ACK exactly when LB is 0; Byte mode: when AA is 1
    ack = c.lb() == 0 if c.mode else c.aa == 1
    if c.turn.name == "Receive":
        give(c, 0x50 if ack else 0x58)
    elif c.turn.detail == "own":
        give(c, 0x80 if ack else 0x88)
    else:
        give(c, 0xE0 if ack else 0xE8)
    return 0 if ack else 1
