"""The hours of a day or of a week in some logs, which of the days counts for each, and the busiest hour.

Logs are read once to find that, and once more to count. Hours are those of one clock: that of the first time.
"""

import contextlib
import datetime
import os
import stat
from collections import Counter
from collections.abc import Iterable, Sequence
from dataclasses import dataclass, replace

from hsp.base.numbers import listed, some
from hsp.base.unfit import Unfit
from hsp.intake.forms import OTHER_TIME, Tag
from hsp.intake.lasting import MINUTE, short_line
from hsp.intake.logs import Skipped
from hsp.intake.queries import Reading, first_time
from hsp.intake.regions import tag_of
from hsp.intake.side_by_side import parts_of
from hsp.intake.times import HOUR, Span, Time, shown_time, shown_zone


def refuse_pipes(logs: Sequence[str], option: str) -> None:
    """Refuses logs that can be read only once."""
    for path in logs:
        if path == "-" or os.path.exists(path) and not stat.S_ISREG(os.stat(path).st_mode):
            raise Unfit(f"{path}: {option} reads a log twice, and this one can be read only once; give a file")


def zone_of(logs: Sequence[str], reading: Reading) -> int:
    """The zone of the first time in logs, in seconds before UTC: hours are those of its clock."""
    return next(filter(None, (first_time(path, reading) for path in logs)), Time(0)).offset


def counted_by(
    logs: Sequence[str], reading: Reading, tag: Tag, with_regions: bool = False
) -> tuple[Counter[bytes], Reading]:
    """How many queries have each tag of their time, with the region behind it or without, and what was passed over."""
    first = replace(reading, tag=tag, are_tags=True, with_regions=with_regions, skipped=Skipped())
    counts: Counter[bytes] = Counter()
    with contextlib.closing(parts_of(logs, first)) as parts:
        for part in parts:
            for (own, _), count in part.counts.items():
                counts[own] += count
    return counts, first


def busiest_line(begin: int, offset: int, queries: int, of: int) -> str:
    """Says which hour has most queries, by a clock that is so many seconds before UTC."""
    first, last = shown_time(begin, offset), shown_time(begin + HOUR, offset)
    share = f"{queries:,} of {some(of, 'query', 'queries')}"
    return f"busiest hour {first} to {last} {shown_zone(offset)}: {share}"


# The hour of the clock with most queries, the lines that say it, and how many seconds of it the logs have.
Busiest = tuple[Span, list[str], int]


def busiest_hour(logs: Sequence[str], reading: Reading, span: Span) -> tuple[Busiest | None, Reading]:
    """The hour with most queries within a span, by the clock of the first time, and what was passed over.

    Of hours with the same number it is the first. None where there is no query.
    """
    zone = zone_of(logs, reading)

    def minute_of(time: Time) -> bytes | str:
        return b"%d" % ((time.seconds + zone) // MINUTE) if span.has(time.seconds) else OTHER_TIME

    tags, first = counted_by(logs, reading, minute_of)
    if not tags:
        return None, first
    counts: Counter[int] = Counter()
    for minute, count in tags.items():
        counts[int(minute) * MINUTE // HOUR] += count
    hour = min(counts, key=lambda start: (-counts[start], start))
    begin = hour * HOUR - zone
    short, seconds = short_line([int(minute) for minute in tags], hour, zone)
    lines = [busiest_line(begin, zone, counts[hour], tags.total()), *([short] if short else [])]
    return (Span(begin, begin + HOUR), lines, seconds), first


# An hour by its number since 1970, and a region.
Asked = tuple[int, bytes]
OTHER_DAY = "a day with fewer queries in this hour"
DAYS = ("mon", "tue", "wed", "thu", "fri", "sat", "sun")
OF_DAY = 24
# The first hour of 1970 was that of a Thursday.
BEGIN = OF_DAY * DAYS.index("thu")


@dataclass(frozen=True)
class Cycle:
    """Hours that come again: those of a day or of a week, by their places from 0 on."""

    word: str
    size: int

    @property
    def names(self) -> list[str]:
        """The folder of each hour: `h09`, or `mon-h09`."""
        days = [f"{day}-" for day in DAYS] if self.size > OF_DAY else [""]
        return [f"{day}h{hour:02}" for day in days for hour in range(OF_DAY)]

    def place(self, hour: int) -> int:
        """The place of an hour, by its number since 1970."""
        return (hour + BEGIN) % self.size


CYCLES = {own.word: own for own in (Cycle("hour", OF_DAY), Cycle("weekday-hour", OF_DAY * len(DAYS)))}


@dataclass(frozen=True)
class Chosen:
    """The hours that count, by the clock of a zone, and what all hours have.

    `zone` is the zone's seconds before UTC, and `days` are those with a query, by their numbers since 1970. `hours`
    has the number of the hour since 1970 by its place in the cycle. `queries` has the queries of each such hour, and
    `zones` those of each zone that lines have.
    """

    cycle: Cycle
    zone: int
    days: list[int]
    hours: dict[int, int]
    queries: Counter[int]
    zones: Counter[int]

    def tag(self, span: Span) -> Tag:
        """From a time to the place of its hour, where that hour counts."""

        def place_of(time: Time) -> bytes | str:
            if not span.has(time.seconds):
                return OTHER_TIME
            hour = (time.seconds + self.zone) // HOUR
            place = self.cycle.place(hour)
            return b"%d" % place if self.hours.get(place) == hour else OTHER_DAY

        return place_of

    def scaled(self, place: int, pieces: Iterable[bytes]) -> Iterable[bytes]:
        """The rows that were counted for an hour, as its demand has them."""
        return pieces

    @property
    def busiest(self) -> int:
        """The place of the hour with most queries; of hours with the same number the first one's."""
        hour = min(self.hours.values(), key=lambda own: (-self.queries[own], own))
        return self.cycle.place(hour)

    def lines(self) -> list[str]:
        """Which clock and which days the hours are of, and which is the busiest one."""
        all_of, others = self.zones.total(), sorted(set(self.zones) - {self.zone})
        zone = f"hours are those of the clock of {shown_zone(self.zone)}"
        if others:
            moved = all_of - self.zones[self.zone]
            of_these = f"{moved:,} of {some(all_of, 'query', 'queries')} {'has' if moved == 1 else 'have'}"
            names = listed(map(shown_zone, others))
            zone += f", the zone of the first time; {of_these} times of {names}, moved to it"
        hour = self.hours[self.busiest]
        return [zone, self._days_line(), busiest_line(hour * HOUR - self.zone, self.zone, self.queries[hour], all_of)]

    def _days_line(self) -> str:
        first, last = (_date(day) for day in (self.days[0], self.days[-1]))
        if first == last:
            return f"each hour has its counts of {first}, the only day"
        each = "hour of a weekday" if self.cycle.size > OF_DAY else "hour"
        span = f"{some(len(self.days), 'day')} from {first} to {last}"
        return f"{span}: each {each} has the counts of the day with most queries in it"


def _date(day: int) -> str:
    return f"{datetime.date(1970, 1, 1) + datetime.timedelta(days=day)}"


def asked_by_hour(
    logs: Sequence[str], reading: Reading, span: Span
) -> tuple[Counter[Asked], Counter[int], int, Reading]:
    """How many queries each hour has of each region, and how many have each zone, by the clock of the zone of the
    first time; and what was passed over."""
    zone = zone_of(logs, reading)

    def hour_of(time: Time) -> bytes | str:
        return b"%d:%d" % ((time.seconds + zone) // HOUR, time.offset) if span.has(time.seconds) else OTHER_TIME

    tags, first = counted_by(logs, reading, hour_of, True)
    asked: Counter[Asked] = Counter()
    zones: Counter[int] = Counter()
    for tagged, count in tags.items():
        tag, region = tag_of(tagged)
        number, _, offset = tag.partition(b":")
        asked[int(number), region] += count
        zones[int(offset)] += count
    return asked, zones, zone, first


def chosen_of(cycle: Cycle, asked: Counter[Asked], zones: Counter[int], zone: int) -> Chosen:
    """For each hour of a cycle the one with most queries, by what each hour is asked; of several the first."""
    queries: Counter[int] = Counter()
    for (hour, _), count in asked.items():
        queries[hour] += count
    hours: dict[int, int] = {}
    for hour in sorted(queries, key=lambda own: (queries[own], -own)):
        hours[cycle.place(hour)] = hour
    days = sorted({hour // OF_DAY for hour in queries})
    return Chosen(cycle, zone, days, hours, queries, zones)
