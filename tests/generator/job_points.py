"""Jobs that end at each point of their way: 26, 27, 28, 29 and no own STOP."""

from job_file import read, write
from pairs import ACK, NACK, RESET, START, STOP

# The pairs that lead to each point, of a write of 2 (kind 0) or read of 2,
# and whether a wire turn is reached there
POINTS = {
    "in-free": (0, [], False),
    "in-listen": (0, [(2, 0)], False),
    "in-busy": (0, [(2, 0), (5, 0x40)], False),
    "in-address": (0, [START], True),
    "in-send": (0, [START, ACK], True),
    "amid-send": (0, [START, ACK, ACK], True),
    "in-address-read": (1, [START], True),
    "in-receive": (1, [START, ACK], True),
    "amid-receive": (1, [START, ACK, (7, 0x91)], True),
    # Jobs: at the end (20h, 28h, 30h, 48h, 58h); own STOP doesn't come
    "after-20": (0, [START, NACK], True),
    "after-28": (0, [START, ACK, ACK, ACK], True),
    "after-30": (0, [START, ACK, NACK], True),
    "after-48": (1, [START, NACK], True),
    "after-58": (1, [START, ACK, (7, 0x91), (7, 0x92)], True),
}
SENT = [0xA0, 0x11, 0x22]            # of the write, address byte first


def make_job_points():
    for name, (kind, before, wire) in POINTS.items():
        at = name.replace("-", " ", 1)
        at = at + "h" if name.startswith("after") else at
        end_here(f"{name}-script-ends", f"The script ends {at}", kind,
                 before, [], f"27 count 0 events {len(before)}")
        wrong = START if name.startswith("after") else STOP
        if not wire:
            wrong = ACK
        end_here(f"{name}-refused", f"A refused pair {at}", kind, before,
                 [wrong], f"28 count 0 events {len(before)} refused 8")
        end_here(f"{name}-reset", f"Event 14 {at}", kind, before, [RESET],
                 f"29 count 0 events {len(before) + 1}")
        if wire:                     # elsewhere event 10 changes nothing
            end_here(f"{name}-fault-00", f"Event 10 {at}", kind, before,
                     [(10, 0)], f"26 count 0 events {len(before) + 1}")
        end_here(f"{name}-fault-78", f"Event 12 {at}", kind, before,
                 [(12, 0)], f"26 count 0 events {len(before) + 1}")


def end_here(name, title, kind, before, last, want):
    """The bytes sent are those of the accepted events 6."""
    times = sum(1 for pair in before if pair[0] == 6)
    if kind:
        read(name, title, 0x50, 2, before + last, want,
             out="A1" if times else "", into="")
    else:
        out = " ".join(f"{b:02X}" for b in SENT[:times])
        write(name, title, 0x50, SENT[1:], before + last, want, out=out,
              into="")
