"""The rate above which times rise: of the lines that are level up to a rate and rise from there on, the one that fits
best.

Fitted is the logarithm of the middle time of each second. The line is compared with a level one, and with those of
other rates, by how likely each makes what was measured.
"""

import math
import statistics
from collections.abc import Mapping, Sequence
from typing import NamedTuple

# Times below so many milliseconds are all alike, and so many seconds are needed at least.
LEAST_TIME, LEAST_SECONDS = 0.01, 30
# Twice the logarithm of how much likelier one line is than another: at random 1 in 1,000 for a line that rises beside
# a level one, and 1 in 20 for another rate.
RISES, OTHER = 13.82, 3.84
# A rise is at least to so many times the level time, at the highest rate.
LEAST_RISE = 2
# A fit that is exact leaves at least this part of the differences.
LEAST_LEFT = 1e-9


class Knee(NamedTuple):
    """The rate, the rates between which it is with 95%, the part of the differences that the line explains, and the
    level time in milliseconds."""

    rate: float
    low: float
    high: float
    explains: float
    level: float


class _Line(NamedTuple):
    """By how much a line that is level up to a rate lessens the sum of squares, and how steeply it rises."""

    less: float
    rate: int
    rise: float


def knee(seconds: Mapping[int, Sequence[float]]) -> Knee | str:
    """The rate above which times rise, or the reason why none is found. Each second has the times of its answers."""
    times: dict[int, list[float]] = {}
    for own in seconds.values():
        times.setdefault(len(own), []).append(math.log(max(LEAST_TIME, statistics.median(own))))
    number = sum(map(len, times.values()))
    if number < LEAST_SECONDS:
        return f"only {number} seconds have answers, and a fit takes {LEAST_SECONDS}"
    return _fitted(times, number)


def _lines(times: Mapping[int, Sequence[float]], number: int, mean: float) -> list[_Line]:
    """The lines that rise from each of the rates on, fitted by the sums of what is above the rate."""
    found = []
    count, x, xx, y, xy = 0, 0, 0, 0.0, 0.0
    for rate in sorted(times, reverse=True):
        own_x = x - rate * count
        own_xx = xx - 2 * rate * x + rate * rate * count
        spread, both = own_xx - own_x * own_x / number, xy - rate * y - own_x * mean
        if spread > 1e-12 * max(1.0, own_xx) and both > 0:
            found.append(_Line(both * both / spread, rate, both / spread))
        size, own = len(times[rate]), sum(times[rate])
        count, x, xx, y, xy = count + size, x + rate * size, xx + rate * rate * size, y + own, xy + rate * own
    return found


def _fitted(times: Mapping[int, Sequence[float]], number: int) -> Knee | str:
    most, mean = max(times), sum(sum(own) for own in times.values()) / number
    squares = sum((time - mean) ** 2 for own in times.values() for time in own)
    found = _lines(times, number, mean)
    best = max(found, default=_Line(0.0, most, 0.0))
    left = max(squares - best.less, LEAST_LEFT * squares)
    is_small = best.rise * (most - best.rate) < math.log(LEAST_RISE)
    if not squares or is_small or number * math.log(squares / left) < RISES:
        return f"no rise to {LEAST_RISE} times the least time up to {most:,} a second"
    if best.rate == min(times):
        return f"times rise from the least rate on, {best.rate:,} a second"
    like = [own.rate for own in found if number * math.log(max(squares - own.less, left) / left) <= OTHER]
    above = sum((rate - best.rate) * len(own) for rate, own in times.items() if rate > best.rate)
    return Knee(best.rate, min(like), max(like), 1 - left / squares, math.exp(mean - best.rise * above / number))
