"""How many checks `rt ci` runs side by side in `make test`.

That is one check for each processor, as long as each has 4 GB of the memory that is free. `rt ci` would choose by an
estimate that leaves a processor or two idle in its second half. No check of this repository was seen to take more
than 3.9 GB. `RT_JOBS=N make test` runs N checks side by side.
"""
from __future__ import annotations

import os

EACH = 4_000_000


def free() -> int:
    with open("/proc/meminfo") as lines:
        return next(int(line.split()[1]) for line in lines if line.startswith("MemAvailable:"))


def processors() -> int:
    return len(os.sched_getaffinity(0))


def lanes() -> int:
    """How many checks run side by side."""
    return max(1, min(processors(), free() // EACH))
