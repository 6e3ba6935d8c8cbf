"""A table of costs that were measured: a figure for each region and site, what stands behind it, and guesses by
distance, as far as light comes in glass."""

import functools
import math
from collections import Counter
from collections.abc import Mapping, Sequence
from dataclasses import dataclass, field
from fractions import Fraction

from hsp.base.grammar import HEADERS
from hsp.base.numbers import listed, some
from hsp.base.programs import table_text
from hsp.base.unfit import Unfit, shown
from hsp.measures.folder import rows_in
from hsp.measures.timed import digits

Pair = tuple[str, str]
Place = tuple[float, float]
# What a figure stands on that wasn't measured.
GUESSED, BEFORE, MISSING = "not measured: a guess by distance", "not measured: as it was before", "not measured"
# Fewer times than these are named as few, and a time so many times as large or as small as the figure stands out.
FEW, FACTOR = 5, 10
# The mean radius of the earth in kilometres, and how far light comes in glass in a millisecond: two thirds of what it
# does in a vacuum.
RADIUS, SPEED = 6371.0088, 299.792458 * 2 / 3
PLACES = "name,latitude,longitude"


def places_in(path: str) -> dict[str, Place]:
    """The places of regions and sites, in degrees north and east."""
    found: dict[str, Place] = {}
    for name, *texts in rows_in(path, PLACES):
        try:
            north, east = map(float, texts)
        except ValueError:
            north = east = math.nan
        if not (abs(north) <= 90 and abs(east) <= 180):
            wanted = "a latitude from -90 to 90 and a longitude from -180 to 180, in degrees"
            raise Unfit(f"{path}: {shown(name)}: {shown(','.join(texts))} isn't {wanted}")
        if found.setdefault(name, (north, east)) != (north, east):
            raise Unfit(f"{path}: {shown(name)} stands twice, at two places")
    return found


def by_distance(one: Place, other: Place) -> float:
    """How many milliseconds light takes there and back along a great circle."""
    (north, east), (south, west) = (map(math.radians, own) for own in (one, other))
    half = math.sin((north - south) / 2) ** 2 + math.cos(north) * math.cos(south) * math.sin((east - west) / 2) ** 2
    return 2 * 2 * RADIUS * math.asin(min(1.0, math.sqrt(half))) / SPEED


@dataclass
class Times:
    """Times of a region at a site, told apart by four digits, and where the least and the greatest stand."""

    counts: Counter[float] = field(default_factory=Counter)
    least: tuple[float, str] = (math.inf, "")
    most: tuple[float, str] = (-1.0, "")

    def add(self, time: float, place: str) -> None:
        self.counts[time if time < 10_000 and time.is_integer() else float(f"{time:.4g}")] += 1
        self.least = (time, place) if time < self.least[0] else self.least
        self.most = (time, place) if time > self.most[0] else self.most

    def figure(self, part: Fraction) -> float:
        """The least time that such a part of all doesn't exceed."""
        left = max(1, math.ceil(part * self.counts.total()))
        for time in sorted(self.counts):
            left -= self.counts[time]
            if left <= 0:
                return time
        return 0.0

    def outliers(self) -> tuple[int, list[tuple[float, str]]]:
        """How many times stand out, and the farthest of them. Less than a millisecond doesn't."""
        middle = self.figure(Fraction(1, 2))
        least, most = middle / FACTOR, FACTOR * max(1.0, middle)
        far = sum(count for time, count in self.counts.items() if time >= most or max(time, 1.0) <= least)
        ends = [own for own in (self.least, self.most) if own[0] >= most or max(own[0], 1.0) <= least]
        return far, ends


@dataclass
class CostTable:
    """The figures of regions and sites, the costs that were there before, and the places by which to guess."""

    regions: Sequence[str]
    sites: Sequence[str]
    part: Fraction
    before: Mapping[Pair, int]
    places: Mapping[str, Place]
    times: dict[Pair, Times] = field(default_factory=dict)

    @functools.cached_property
    def costs(self) -> dict[Pair, tuple[int | None, str]]:
        """The cost of each region and site, and what stands behind it: first of regions of the demand, then of others
        that were measured. Where no demand names regions, they are places that are no site, too."""
        measured = [region for region, _ in self.times]
        placed = [] if self.regions else [name for name in self.places if name not in self.sites]
        regions = dict.fromkeys([*self.regions, *measured, *placed, *(region for region, _ in self.before)])
        return {(region, site): self._cost(region, site) for region in regions for site in self.sites}

    def _cost(self, region: str, site: str) -> tuple[int | None, str]:
        times = self.times.get((region, site))
        if times:
            number = times.counts.total()
            span = f"from {digits(times.least[0])} to {digits(times.most[0])}"
            return _whole(times.figure(self.part)), f"of {number:,}{' only' if number < FEW else ''}, {span}"
        if region in self.places and site in self.places:
            return _whole(by_distance(self.places[region], self.places[site])), GUESSED
        before = self.before.get((region, site))
        return before, MISSING if before is None else BEFORE

    def text(self) -> str:
        """The table as hsplan reads it."""
        rows = ((*pair, cost) for pair, (cost, _) in self.costs.items() if cost is not None)
        return table_text(HEADERS["costs"], rows)

    def lines(self) -> list[str]:
        """What stands behind each cost, what stands out, and what is missing."""
        wide = [max((len(pair[at]) for pair in self.costs), default=0) for at in (0, 1)]
        shown_costs = {pair: "-" if cost is None else f"{cost:,}" for pair, (cost, _) in self.costs.items()}
        most = max(map(len, shown_costs.values()), default=1)
        rows = [
            f"  {pair[0]:<{wide[0]}}  {pair[1]:<{wide[1]}}  {shown_costs[pair]:>{most}}  {why}"
            for pair, (_, why) in self.costs.items()
        ]
        which = "median" if self.part == Fraction(1, 2) else f"{float(100 * self.part):g}th percentile"
        return [f"costs in ms, each the {which} of what was measured", *rows, *self._far(), *self._notes()]

    def _far(self) -> list[str]:
        """The times that stand out."""
        lines = []
        for pair, times in self.times.items():
            number, ends = times.outliers()
            where = listed(f"{digits(time)} at {place}" for time, place in ends)
            of = f"{some(number, 'time')} of {times.counts.total():,}"
            each = f"{FACTOR} times its median, or a tenth of it"
            lines += [f"far   {' '.join(pair)}: {of} beyond {each}: {where}"] if number else []
        return lines

    def _notes(self) -> list[str]:
        """What is few, guessed, missing, or of no demand."""
        few = [" ".join(pair) for pair, times in self.times.items() if times.counts.total() < FEW]
        guessed, missing = (
            [" ".join(pair) for pair, (_, why) in self.costs.items() if why == kind] for kind in (GUESSED, MISSING)
        )
        others = [name for name in dict.fromkeys(region for region, _ in self.times) if name not in self.regions]
        light = "there and back along a great circle at two thirds of the speed of light"
        notes = {
            f"fewer than {FEW} times": ("few", few),
            f"{light}; measure before you trust it": ("guess", guessed),
            "the region may not use the site": ("none", missing),
            "no such region is in the demand": ("other", others if self.regions else []),
        }
        return [f"{word:<5} {listed(names, 6)}: {why}" for why, (word, names) in notes.items() if names]


def _whole(time: float) -> int:
    """A time as a cost: rounded, half up."""
    return math.floor(time + 0.5)
