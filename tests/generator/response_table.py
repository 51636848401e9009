"""Print the response table for I2CCON writes of the PCA9665 model.

The table is that of document 02's Ask 4: the answer to an I2CCON write
with ENSIO 1 and a valid BC, by the status before it and the four bits
STA, STO, AA and MODE.  It is decided from document 01, "Writing I2CCON",
"Refusals of an access or event" and, for the codes that occur, "Events",
as Ask 2 mended them at 38h.
Words in quotation marks in the comments are those of the papers.

A cell is the name of the next turn, or one of these words:
stays     accepted, and the controller stays in Host at that status
refused4  refused with number 4
refused5  refused with number 5
beside    A0h and F8h, which are "beside the table"
never     a code that no event of document 01 gives
"""

import sys

# Document 01, "Events": the status codes each event can give.  Event 4
# (own STOP) and event 14 (reset pin) give none.
GIVEN_BY_EVENT = {
    # "Free with STA: 08h. Restarting: 10h."
    1: {0x08, 0x10},
    # "Free, Busy: Listen. Restarting: 10h. SlaveReceive: A0h."
    2: {0x10, 0xA0},
    # "Busy: Free. SlaveReceive: A0h."  (Ask 2: at 38h "Another's STOP
    # then leads to Free with F8h", which is no Host status.)
    3: {0xA0},
    # "Own STOP. Stopping: Free, STO 0."
    4: set(),
    # "Byte 00h with AA and GC: D0h. Else ..: 60h, or A8h for R 1."
    5: {0xD0, 0x60, 0xA8},
    # "Address: 18h/20h, for R 1 40h/48h. Send: 28h/30h. SlaveSend: NACK
    # C0h; ACK gives C8h with AA 0, else B8h."
    6: {0x18, 0x20, 0x40, 0x48, 0x28, 0x30, 0xC0, 0xC8, 0xB8},
    # "Receive 50h/58h, own SlaveReceive 80h/88h, General Call E0h/E8h."
    7: {0x50, 0x58, 0x80, 0x88, 0xE0, 0xE8},
    # "Matched as in 5 it gives 68h, B0h or D8h, else 38h."
    8: {0x68, 0xB0, 0xD8, 0x38},
    # "Arbitration lost in Send or Receive: 38h."
    9: {0x38},
    # "START or STOP at an illegal place. Wire turns: 00h."
    10: {0x00},
    # "SDA held after nine clocks. Free with STA, or Restarting: 70h."
    11: {0x70},
    # "SCL low past the time-out, TE 1: 78h"
    12: {0x78},
    # "Idle past the time-out, TE and STA 1, in Busy or Listen: 08h."
    13: {0x08},
    # "Reset pin: always, as reset."  After reset: "turn Off".
    14: set(),
}

EVER_GIVEN = set().union(*GIVEN_BY_EVENT.values())

# Ask 4: "The two ways of A0h, and all that F8h does .. are beside the
# table, and their 32 entries say only that."
BESIDE = {0xA0, 0xF8}


def after_start(mode):
    """Answer at 08h and 10h."""
    # "MODE must be 0 (else 5; house). Address, sending place 0. STA and
    # STO aren't consulted."
    return "refused5" if mode else "Address"


def stop_or_restart(sta, sto, neither):
    """Answer where STO and STA choose, and `neither` is for both 0."""
    # "STO Stopping; both Stopping with STA kept."
    if sto:
        return "Stopping"
    # "STA Restarting"
    return "Restarting" if sta else neither


def before_receive(sta, sto):
    """Answer at 40h and 50h."""
    # "Receive; STA or STO set is refused 5."
    return "refused5" if sta or sto else "Receive"


def as_master(status, sta, sto, mode):
    """Answer at a master's status, or None at any other."""
    # "08h, 10h: MODE must be 0"
    if status in (0x08, 0x10):
        return after_start(mode)
    # "18h, 20h, 28h, 30h: neither STA nor STO gives Send"
    if status in (0x18, 0x20, 0x28, 0x30):
        return stop_or_restart(sta, sto, neither="Send")
    # "40h, 50h: Receive"
    if status in (0x40, 0x50):
        return before_receive(sta, sto)
    # "48h, 58h: as for 18h, but neither is refused 5."
    if status in (0x48, 0x58):
        return stop_or_restart(sta, sto, neither="refused5")
    # Ask 2, in place of "38h: Busy": "at 38h an accepted I2CCON write
    # with ENSIO 1 stores AA, ENSIO, STA and MODE, never STO, but SI
    # stays 1 and status 38h."
    if status == 0x38:
        return "stays"
    return None


def as_slave(status):
    """Answer at a slave's status, or None at any other."""
    # "60h, 68h, 80h and D0h, D8h, E0h: SlaveReceive, own and General
    # Call": the first three by own address, the last three by General
    # Call.
    if status in (0x60, 0x68, 0x80):
        return "SlaveReceive/own"
    if status in (0xD0, 0xD8, 0xE0):
        return "SlaveReceive/general"
    # "88h, E8h, C0h, C8h: Busy."
    if status in (0x88, 0xE8, 0xC0, 0xC8):
        return "Busy"
    # "A8h, B0h, B8h: SlaveSend."
    if status in (0xA8, 0xB0, 0xB8):
        return "SlaveSend"
    return None


def cell(status, sta, sto, mode):
    """Return the table's word; no rule of the list consults AA."""
    if status in BESIDE:
        return "beside"
    # Ask 4: "codes that never occur have an entry of their own kind."
    if status not in EVER_GIVEN:
        return "never"
    # Refusal 4: "I2CCON write at 00h, 70h or 78h".  It is before 5:
    # "The first line that applies, from the top, is given".
    if status in (0x00, 0x70, 0x78):
        return "refused4"
    # Refusal 5: "I2CCON write with ENSIO 1 not listed below".
    listed = as_master(status, sta, sto, mode) or as_slave(status)
    return listed or "refused5"


def row(status):
    """Return one status and its 16 cells as a line without its end."""
    words = [f"{status:02X}"]
    for pattern in range(16):
        # Ask 4: "the four bits STA, STO, AA and MODE, highest first".
        sta = pattern >> 3 & 1
        sto = pattern >> 2 & 1
        mode = pattern & 1
        words.append(cell(status, sta, sto, mode))
    return " ".join(words)


def table_text():
    """Return the heading and the 32 rows, each ended by a newline."""
    patterns = [f"{pattern:04b}" for pattern in range(16)]
    lines = [" ".join(["status"] + patterns)]
    # Ask 4: "one table of 512 entries, by status divided by 8".
    lines += [row(8 * index) for index in range(32)]
    return "".join(line + "\n" for line in lines)


if __name__ == "__main__":
    sys.stdout.write(table_text())
