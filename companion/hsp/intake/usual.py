"""What each hour of a day or a week usually asks for: what a part of its days or weeks stays below, or their mean.

That is found for all queries of a region in an hour. The rows of the region share it as all days or weeks had them.
"""

import functools
import math
from collections import Counter
from collections.abc import Iterable, Iterator, Sequence
from dataclasses import dataclass, field
from fractions import Fraction

from hsp.base.numbers import queries_of, some
from hsp.intake.forms import OTHER_TIME, Tag
from hsp.intake.hours import OF_DAY, Asked, Chosen
from hsp.intake.times import HOUR, Span, Time, shown_zone


def of_many(counts: Sequence[int], part: Fraction | None) -> int:
    """The least of some numbers that such a part of them doesn't exceed, or their mean, rounded up."""
    if part is None:
        return -(-sum(counts) // len(counts))
    return sorted(counts)[max(1, math.ceil(part * len(counts))) - 1]


@dataclass(frozen=True)
class Usual(Chosen):
    """The hours of a cycle, with what each hour in the logs is asked by each region."""

    asked: Counter[Asked] = field(default_factory=Counter)
    part: Fraction | None = None

    @functools.cached_property
    def turns(self) -> dict[int, list[int]]:
        """The hours in the logs by their places in the cycle, also those without a query."""
        found: dict[int, list[int]] = {}
        for hour in range(min(self.queries), max(self.queries) + 1):
            found.setdefault(self.cycle.place(hour), []).append(hour)
        return found

    @functools.cached_property
    def sums(self) -> dict[tuple[int, bytes], tuple[int, int]]:
        """What each region asks for in each hour of the cycle, and what it asked for in all turns of it."""
        found = {}
        for region in {region for _, region in self.asked}:
            for place, hours in self.turns.items():
                counts = [self.asked[hour, region] for hour in hours]
                found[place, region] = of_many(counts, self.part), sum(counts)
        return found

    @functools.cached_property
    def wanted(self) -> Counter[int]:
        """What each hour of the cycle asks for."""
        found: Counter[int] = Counter()
        for (place, _), (own, _) in self.sums.items():
            found[place] += own
        return found

    @property
    def busiest(self) -> int:
        """The place of the hour that asks for most; of hours with the same number the first one."""
        return min(range(self.cycle.size), key=lambda place: (-self.wanted[place], place))

    def tag(self, span: Span) -> Tag:
        """From a time to the place of its hour. Every turn of it counts."""

        def place_of(time: Time) -> bytes | str:
            is_within = span.has(time.seconds)
            return b"%d" % self.cycle.place((time.seconds + self.zone) // HOUR) if is_within else OTHER_TIME

        return place_of

    def scaled(self, place: int, pieces: Iterable[bytes]) -> Iterator[bytes]:
        """The rows with as many queries of each region as it asks for. They share these as they are, rounded so that
        their sum is exact."""
        before: Counter[bytes] = Counter()
        after: Counter[bytes] = Counter()
        for piece in pieces:
            lines = piece.split(b"\n")
            for at, line in enumerate(lines):
                head, _, count = line.rpartition(b",")
                region = head.partition(b",")[0]
                if (place, region) in self.sums and count.isdigit():
                    wanted, all_of = self.sums[place, region]
                    before[region] += int(count)
                    own = before[region] * wanted // max(1, all_of) - after[region]
                    after[region] += own
                    lines[at] = b"%b,%d" % (head, own)
            yield b"\n".join(lines)

    def lines(self) -> list[str]:
        """Which clock the hours are of, how many turns each has, and which asks for most."""
        turn = "week" if self.cycle.size > OF_DAY else "day"
        numbers = sorted({len(hours) for hours in self.turns.values()})
        counts = f"{numbers[0]} to {numbers[-1]} {turn}s" if len(numbers) > 1 else some(numbers[0], turn)
        which = "the mean" if self.part is None else f"what {float(100 * self.part):g}% stay below"
        hour = f"busiest hour {self.cycle.names[self.busiest]} {shown_zone(self.zone)}"
        return [
            super().lines()[0],
            f"{counts} of each hour: each region asks for {which}",
            f"{hour}: {queries_of(self.wanted[self.busiest])}",
        ]


def usual_of(own: Chosen, asked: Counter[Asked], part: Fraction | None) -> Usual:
    """The hours of a cycle with a part or the mean of their turns."""
    return Usual(own.cycle, own.zone, own.days, own.hours, own.queries, own.zones, asked, part)
