"""The command `hsp forecast`: how well the last week in logs would have been planned by the weeks before it."""

import contextlib
import functools
from collections import Counter, defaultdict
from collections.abc import Callable, Mapping, Sequence
from dataclasses import dataclass, field
from fractions import Fraction
from typing import Any, NamedTuple

import click

from hsp.base.bounds import Query
from hsp.base.grammar import MOST_DEMAND_ROWS
from hsp.base.numbers import average, duration, listed, percent, queries_of
from hsp.base.options import PathName
from hsp.base.programs import Missing, Programs
from hsp.base.text import say
from hsp.base.unfit import Unfit
from hsp.doctor.service_folder import Folder, sound
from hsp.intake.bring import JOBS, REGIONS, reading_of, some_in, span_of, with_hours
from hsp.intake.hours import Asked, CYCLES, Cycle, OF_DAY, asked_by_hour, chosen_of, refuse_pipes
from hsp.intake.forms import OTHER_TIME
from hsp.intake.queries import Reading, field_of
from hsp.intake.regions import tag_of
from hsp.intake.side_by_side import parts_of
from hsp.intake.tally import HEADER, most_first, rows_of
from hsp.intake.times import HOUR, Time, shown_time, shown_zone
from hsp.intake.usual import usual_of
from hsp.plans.service import Service
from hsp.plans.terminal import head
from hsp.scenarios.judged import Judged, Progress, side_by_side, yes_line

# The parts of the weeks before that are tried, in percent; and the mean of these, and what came.
PERCENTS = (50, 75, 90, 95, 100)
MEAN, CAME = "mean", "as it came"
Counts = Counter[Query]


@dataclass
class Weeks:
    """The hours of a cycle in logs: what the last turn asked for, which begins at an hour since 1970, and what all
    turns before it asked for together."""

    cycle: Cycle
    zone: int
    begin: int
    before: Counter[Asked]
    # By whether the turn is the last one, and the place of the hour.
    counts: dict[tuple[bool, int], Counts] = field(default_factory=lambda: defaultdict(Counter))

    def table(self, counts: Mapping[Query, int]) -> bytes:
        """A demand with the rows of all hours."""
        return HEADER + b"".join(rows_of((pair, counts.get(pair, 0)) for pair in self.pairs))

    @functools.cached_property
    def pairs(self) -> list[Query]:
        """The regions and handles of all hours, those first that ask for most."""
        total: Counts = Counter()
        for own in self.counts.values():
            total.update(own)
        return [pair for pair, _ in most_first(total)]


class Kept(NamedTuple):
    """What an hour comes to by a plan: its fullest server, queries above capacity, cost, and whether there is none."""

    fullest: tuple[float, str]
    above: float
    cost: float
    is_short: bool


class Followed:
    """What plans come to where their shares of each row are followed by other counts."""

    def __init__(self, service: Service, weeks: Weeks, programs: Programs) -> None:
        self._service, self._pairs, self._programs = service, weeks.pairs, programs
        handles, sites = {field_of(handle) for _, handle in weeks.pairs}, list(enumerate(service.sites))
        places = programs.places_by_site(service.inputs, sorted(handles), len(sites))
        # The server of each handle at each site, and what each site costs a region that may use it.
        self._servers = {
            handle: [site.servers[int(own[at])].number for at, site in sites] for handle, own in places.items()
        }
        costs = {(region.encode(), site): cost for (region, site), cost in service.costs.items()}
        self._costs = {
            region: {at: costs[region, site.name] for at, site in sites if (region, site.name) in costs}
            for region in {region for region, _ in weeks.pairs}
        }
        unpaid = sorted(region.decode() for region, own in self._costs.items() if not own)
        if unpaid:
            raise Unfit(f"{service.inputs.costs}: no cost of {listed(unpaid)}, so no plan has them")

    def planned(self, demand: bytes, came: Counts) -> Kept:
        """What counts come to by a plan of a demand. A row that it hasn't goes to the cheapest site."""
        inputs = self._service.inputs.but(demand=self._programs.put(demand, ".csv"))
        certificate, _ = self._programs.plan(inputs)
        shares: dict[int, dict[int, int]] = defaultdict(dict)
        for row, site, queries in certificate.uses if certificate.is_plan else ():
            shares[row][site] = queries
        cost, loads = 0.0, [0.0] * len(self._service.servers)
        for at, pair in enumerate(self._pairs):
            costs, servers = self._costs[pair[0]], self._servers[field_of(pair[1])]
            own = shares.get(at) or {min(costs, key=costs.__getitem__): 1}
            each = came[pair] / sum(own.values())
            for site, share in own.items():
                loads[servers[site]] += each * share
                cost += each * share * costs[site]
        rooms = [(load, self._service.capacity(it), it.label) for load, it in zip(loads, self._service.servers)]
        fullest = max((_part(load, room), label) for load, room, label in rooms)
        return Kept(fullest, sum(max(0.0, load - room) for load, room, _ in rooms), cost, not certificate.is_plan)


def _part(load: float, room: int) -> float:
    return load / room if room else 0.0 if load < 1e-9 else float("inf")


def weeks_in(logs: tuple[str, ...], reading: Reading, given: dict[str, Any], cycle: Cycle) -> Weeks:
    """Counts the last turn of a cycle in logs, and all turns before it."""
    span = span_of(given)
    asked, _, zone, first = asked_by_hour(logs, reading, span)
    some_in(logs, first, bool(asked))
    hours = {hour for hour, _ in asked}
    begin = max(hours) + 1 - cycle.size
    if begin - min(hours) < cycle.size:
        turn, remedy = "days", ""
        if cycle.size > OF_DAY:
            turn, remedy = "weeks", "; with --by hour a day is planned by the days before it"
        long = duration((max(hours) + 1 - min(hours)) * HOUR)
        raise Unfit(f"the logs are of {long}, and two whole {turn} are needed{remedy}")
    weeks = Weeks(cycle, zone, begin, Counter({own: count for own, count in asked.items() if own[0] < begin}))

    def place_of(time: Time) -> bytes | str:
        hour = (time.seconds + zone) // HOUR
        return b"%d:%d" % (hour >= begin, cycle.place(hour)) if span.has(time.seconds) else OTHER_TIME

    reading.tag = place_of
    with contextlib.closing(parts_of(logs, reading)) as parts:
        for (tagged, handle), number in (own for part in parts for own in part.counts.items()):
            tag, region = tag_of(tagged)
            is_last, _, place = tag.partition(b":")
            weeks.counts[is_last == b"1", int(place)][region, handle] += number
    return weeks


def tried(service: Service, weeks: Weeks, programs: Judged) -> dict[str, list[Kept]]:
    """What each hour of the last turn comes to by plans of each way to foresee it."""
    followed = Followed(service, weeks, programs)
    turns = chosen_of(weeks.cycle, weeks.before, Counter(), weeks.zone)
    ways = {f"{own}%": usual_of(turns, weeks.before, Fraction(own, 100)) for own in PERCENTS}
    ways[MEAN] = usual_of(turns, weeks.before, None)
    tasks: list[tuple[str, Callable[[], Kept]]] = []
    for place in sorted(place for is_last, place in weeks.counts if is_last):
        came = weeks.counts[True, place]
        before = weeks.table(weeks.counts.get((False, place), {}))
        tables = {name: b"".join(own.scaled(place, [before])) for name, own in ways.items()} | {
            CAME: weeks.table(came)
        }
        tasks += [(name, functools.partial(followed.planned, table, came)) for name, table in tables.items()]
    found: dict[str, list[Kept]] = {name: [] for name in [*ways, CAME]}
    for (name, _), kept in zip(tasks, side_by_side([task for _, task in tasks], Progress(len(tasks)))):
        found[name].append(kept)
    return found


def lines(weeks: Weeks, found: Mapping[str, Sequence[Kept]]) -> list[str]:
    """A line for each way, with the plans of what came at the end."""
    asked = sum(own.total() for (is_last, _), own in weeks.counts.items() if is_last)
    begin, end = (shown_time((weeks.begin + more) * HOUR - weeks.zone, weeks.zone) for more in (0, weeks.cycle.size))
    before = duration((weeks.begin - min(hour for hour, _ in weeks.before)) * HOUR)
    form = "  {:<10}  {:<24}  {:>20}  {:>12}  {}"
    rows = [f"last  {begin} to {end} {shown_zone(weeks.zone)}: {queries_of(asked)}, planned by {before} before"]
    rows.append(form.format("by", "fullest server", "above capacity", "cost a query", "hours without a plan"))
    for name, hours in found.items():
        part, label = max(own.fullest for own in hours)
        fullest = f"{label} {'without room' if part == float('inf') else f'{100 * part:,.0f}%'}"
        above, cost = (round(sum(own)) for own in zip(*((own.above, own.cost) for own in hours)))
        over = f"{above:,} ({percent(above, asked)})"
        rows.append(form.format(name, fullest, over, average(cost, asked), sum(own.is_short for own in hours)))
    return rows


@click.command()
@click.argument("folder", metavar="DIR", type=Folder())
@click.argument("logs", metavar="LOG..", nargs=-1, required=True, type=PathName(dir_okay=False))
@REGIONS
@JOBS
@with_hours
def forecast(folder: str, logs: tuple[str, ...], regions: str, **given: Any) -> None:
    """Shows how well the last week would have been planned.

    Each hour of the last week in the logs is planned by the same hour of the weeks before it: by what 50, 75, 90, 95
    and 100 % of these stay below (--percentile of hsp demand), and by their mean. The counts that came follow the
    plan's shares of each row. With --by hour the last day is planned by the days before it.
    """
    if given["busiest_hour"]:
        raise click.UsageError("--busiest-hour is of one hour, and a forecast of all hours of a week")
    programs = Judged()
    service = sound(folder, programs, {})
    refuse_pipes(logs, "a forecast")
    reading = reading_of(logs, regions, given, programs)
    weeks = weeks_in(logs, reading, given, given["by"].cycle or CYCLES["weekday-hour"])
    if len(weeks.pairs) > MOST_DEMAND_ROWS:
        raise Unfit(f"more than {MOST_DEMAND_ROWS:,} pairs of region and handle: a forecast plans tables")
    if not service.sites:
        raise Missing(f"{service.inputs.settings}: no site, so nothing is planned")
    say(head(service))
    say(*lines(weeks, tried(service, weeks, programs)), yes_line(programs))
