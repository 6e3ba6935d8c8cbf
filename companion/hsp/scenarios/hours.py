"""The hours of a day or of a week, each with its own demand, and a plan of each."""

import csv
import os
from collections.abc import Callable, Sequence
from dataclasses import dataclass, replace

from hsp.base.files import refuse_no_file
from hsp.base.paths import path_in
from hsp.base.programs import Certificate, Load, Missing, Refused
from hsp.base.unfit import Unfit
from hsp.intake.hours import DAYS
from hsp.plans.service import NAMES, OF_DAY, OF_WEEK, Row, Service, table
from hsp.plans.titles import insist_counted
from hsp.scenarios.judged import Judged, side_by_side


class Faulty(Exception):
    """An hour whose files hsplan refuses, by the name of its folder."""

    def __init__(self, name: str) -> None:
        super().__init__(name)
        self.name = name


def label_of(name: str) -> str:
    """An hour by the name of its folder as people write it: `09`, or `mon 09`."""
    return name.replace("-h", " ").removeprefix("h")


@dataclass(frozen=True)
class Hour:
    """An hour by the name of its folder, with the counts of its rows; a log's rows are not read."""

    name: str
    folder: str
    asked: int
    counts: list[int]

    @property
    def label(self) -> str:
        return label_of(self.name)

    @property
    def clock(self) -> str:
        """When it begins: `09:00`, or `mon 09:00`."""
        return f"{self.label}:00"

    @property
    def place(self) -> int:
        """How many hours after the first one of the day, or of the week, it begins."""
        day, hour = _order(self.name)
        return 24 * day + int(hour)

    @property
    def demand(self) -> str:
        return path_in(self.folder, NAMES["demand"])


@dataclass(frozen=True)
class HourPlan:
    """An hour's plan or shortage, its file, and what each server takes by it.

    `moved` counts the queries that it moves from the hour before, where that is asked; `is_nearest` says that no
    cheapest plan moves fewer.
    """

    hour: Hour
    certificate: Certificate
    plan_file: str
    loads: list[Load]
    moved: int | None = None
    is_nearest: bool = False

    @property
    def is_plan(self) -> bool:
        return self.certificate.is_plan

    @property
    def lack(self) -> int:
        return self.certificate.demand - self.certificate.capacity

    @property
    def each(self) -> float:
        """What a query costs."""
        return self.certificate.cost / self.hour.asked if self.hour.asked else 0.0

    @property
    def full(self) -> list[int]:
        """The numbers of the servers that have no room for a query more."""
        return [at for at, own in enumerate(self.loads) if 0 < own.capacity <= own.load]

    @property
    def priced(self) -> list[int]:
        """The numbers of the servers at which room has a price."""
        return [at for at, own in enumerate(self.loads) if own.price]

    @property
    def dearest(self) -> int | None:
        """The server at which room has the greatest price."""
        return min(self.priced, key=lambda at: (-self.loads[at].price, at)) if self.priced else None


def _order(name: str) -> tuple[int, str]:
    day, _, hour = name.rpartition("h")
    return (DAYS.index(day.removesuffix("-")) if day else 0), hour


def names_in(folder: str, is_week: bool | None = None) -> list[str]:
    """The folders of hours in a folder, in their order: those of a day, or of a week where there are only these."""
    try:
        there = [name for name in os.listdir(folder) if os.path.exists(os.path.join(folder, name, NAMES["demand"]))]
    except OSError:
        there = []
    day, week = (sorted(filter(form.fullmatch, there), key=_order) for form in (OF_DAY, OF_WEEK))
    names = week if is_week or (is_week is None and not day) else day
    for name in names:
        demand = path_in(folder, os.path.join(name, NAMES["demand"]))
        refuse_no_file(demand, "the demand of an hour is read more than once")
    if not names:
        kind = "mon-h00" if is_week else "h00"
        by = "weekday-hour" if is_week else "hour"
        raise Missing(f"{path_in(folder, kind)}: no demand of hours is here; hsp demand --by {by} --into writes it")
    return names


def read_hour(first: Service, folder: str, name: str) -> Hour:
    """An hour whose rows are those of the first one. Faulty where its demand is no table."""
    path = path_in(folder, NAMES["demand"])
    insist_counted(path)
    if first.log:
        return Hour(name, folder, 0, [])
    try:
        rows = table(path)
    except (ValueError, csv.Error):
        raise Faulty(name) from None
    if len(rows) != len(first.rows) or any(
        len(row) != 3 or row[0] != own.region or row[1] != own.handle for row, own in zip(rows, first.rows)
    ):
        raise Unfit(
            f"{path}: its rows are others than those of {first.inputs.demand}; all hours have the same rows, with a "
            "count of 0 where nothing is asked for: hsp demand --by hour writes them so"
        )
    try:
        counts = [int(count) for *_, count in rows]
    except ValueError:
        raise Faulty(name) from None
    return Hour(name, folder, sum(counts), counts)


def of_hour(service: Service, hour: Hour) -> Service:
    """The service at an hour. Its certificate is another one's still."""
    rows = [Row(row.region, row.handle, count) for row, count in zip(service.rows, hour.counts)]
    return replace(service, rows=rows, inputs=service.inputs.but(demand=hour.demand))


def planned(service: Service, hour: Hour, programs: Judged) -> HourPlan:
    """The plan of an hour. Faulty where hsplan refuses it."""
    inputs = service.inputs.but(demand=hour.demand)
    try:
        certificate, path = programs.plan(inputs)
    except Refused:
        raise Faulty(hour.name) from None
    loads = programs.loads(inputs, path)[0] if certificate.is_plan else []
    if service.log:
        regions = programs.regions(inputs, path) if certificate.is_plan else {}
        hour = replace(hour, asked=sum(asked for asked, _ in regions.values()) or certificate.demand)
    return HourPlan(hour, certificate, path, loads)


def all_planned(
    service: Service, hours: Sequence[Hour], programs: Judged, done: Callable[[], None] = lambda: None
) -> list[HourPlan]:
    tasks: list[Callable[[], HourPlan]] = [
        lambda hour=hour: planned(service, hour, programs) for hour in hours  # type: ignore[misc]
    ]
    return side_by_side(tasks, done)
