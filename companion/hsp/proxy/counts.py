"""What each server was given in a period, whatever ended in between."""

from collections import Counter
from collections.abc import Iterable
from dataclasses import dataclass

from hsp.proxy.runtime import Reading


@dataclass(frozen=True)
class Counts:
    """The queries of each server since a period began, and what HAProxy had counted when that was read."""

    # The number of the period, and its length in seconds.
    period: int
    length: float
    # The run of HAProxy that was read last, and its own counts.
    run: str
    seen: dict[str, int]
    taken: dict[str, int]
    # When that was, in seconds since 1970.
    at: float

    @property
    def ends(self) -> float:
        """When the period ends, in seconds since 1970."""
        return (self.period + 1) * self.length

    def left(self, at: float) -> float:
        """The share of the period that is left at a time."""
        return min(1.0, max(0.0, (self.ends - at) / self.length))


def _fresh(before: Counts | None, now: Reading, begins: float) -> Counter[str]:
    """What was given since a period began, and since the last reading. Where that was in an earlier period, queries
    are taken to have come evenly. A run of HAProxy begins at 0."""
    is_same = before is not None and before.run == now.run
    since, seen = (before.at, before.seen) if before and is_same else (now.began, {})
    share = 1.0 if since >= begins else (now.at - begins) / (now.at - since)
    more = {name: round(share * (count - seen.get(name, 0))) for name, count in now.counts.items()}
    return Counter({name: number for name, number in more.items() if number > 0})


def counted(before: Counts | None, now: Reading, length: float) -> Counts:
    """The counts after another reading. They begin anew at the turn of a period, and with another length."""
    period = int(now.at // length)
    known = before if before and before.length == length else None
    taken = Counter(known.taken) if known and known.period == period else Counter[str]()
    return Counts(period, length, now.run, now.counts, dict(taken + _fresh(known, now, period * length)), now.at)


def sum_of(counts: Iterable[Counts], period: int, length: float) -> Counts:
    """What all proxies gave each server in a period. What was read last in another period is none of it."""
    own = [each for each in counts if (each.period, each.length) == (period, length)]
    taken = sum((Counter(each.taken) for each in own), Counter[str]())
    return Counts(period, length, "", {}, dict(taken), max((each.at for each in own), default=0.0))
