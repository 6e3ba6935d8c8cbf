"""Which allocations of a run are refused."""

import argparse
from collections.abc import Sequence

from lib import lanes

# Of a test with more than MOST allocations, MOST are refused. With more than MANY, a run takes longer: then a
# fifth of MOST are refused.
MOST = 2000
MANY = 20_000


def numbers(count: int, most: int | None = None) -> Sequence[int]:
    """The numbers of the allocations that are refused, out of this many."""
    limit = MOST if most is None else most
    if count <= limit:
        return range(1, count + 1)
    if most is None and count > MANY:
        limit //= 5
    first, spread = (limit + 1) // 2, limit // 2
    others = [first + 1 + at * (count - first - 1) // max(1, spread - 1) for at in range(spread)]
    return [*range(1, first + 1), *others]


def jobs_of(words: argparse.ArgumentParser) -> None:
    words.add_argument(
        "--jobs", type=int, default=lanes.processors(), help="number of runs side by side (one for each processor)"
    )
