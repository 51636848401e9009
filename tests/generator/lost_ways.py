"""Ask 2: how status 38h is left, and how it is kept, by one group."""

import bench

WAYS = {"left by event 3", "left by event 12", "left by event 14",
        "left by software reset", "left by ENSIO 0", "kept by ENSIO 1"}


def way(part, refused, stays):
    """How a group at 38h left it, or by I2CCON kept it; None: neither."""
    kind, first, second = part
    if refused:
        return None
    if kind == bench.EVENT:
        what = f"event {first}"
    elif kind == bench.WRITE and first == 3:
        what = f"ENSIO {second >> 6 & 1}"
    elif stays:
        return None                  # another register: 38h stays
    else:
        what = "software reset" if second == 0x5A else "an access"
    return ("kept by " if stays else "left by ") + what
