"""One page of a plan, in one file. Lengths are in percent of the width, so that text keeps its size on a phone. Every
drawn number stands beside it as text."""

from __future__ import annotations

import base64
import datetime
import functools
import hashlib
import os
from collections.abc import Iterable, Mapping
from dataclasses import dataclass, field
from typing import TYPE_CHECKING

from hsp import __version__
from hsp.base.grammar import MOST_DEMAND_ROWS
from hsp.base.numbers import average, listed, percent, queries_of, signed, some
from hsp.base.paths import shell_word
from hsp.base.programs import Inputs
from hsp.base.text import escaped
from hsp.plans.counted import rows_of as rows_of_log
from hsp.plans.flows import beside_of
from hsp.plans.plans import Gain, Host, Planned, Reference, Shortage, above, above_limits, by_shares, to_buy
from hsp.plans.service import Row, Server, Service, dotted
from hsp.plans.titles import TITLES


EPOCH = "SOURCE_DATE_EPOCH"


@dataclass(frozen=True)
class Source:
    """A file by its name, with the SHA-256 of its octets."""

    name: str
    sum: str


def now() -> str:
    """The present time; where SOURCE_DATE_EPOCH is set, that time, so that a page can be made again."""
    said = os.environ.get(EPOCH, "")
    moment = datetime.datetime.now(datetime.UTC)
    if said.isascii() and said.isdigit():
        moment = datetime.datetime.fromtimestamp(int(said), datetime.UTC)
    return f"{moment.day} {moment:%B %Y, %H:%M} UTC"


def sum_of(path: str) -> str:
    with open(path, "rb") as file:
        return hashlib.file_digest(file, "sha256").hexdigest()


def sources_of(folder: str, inputs: Inputs) -> list[Source]:
    """The files of a plan, and the titles where the folder has them."""
    titles = os.path.join(folder, TITLES)
    paths = [inputs.settings, inputs.values, inputs.demand, inputs.costs, inputs.capacity]
    found = []
    for path in [*paths, titles if os.path.isfile(titles) else None]:
        if path:
            found.append(Source(os.path.basename(path), sum_of(path)))
    return found


if TYPE_CHECKING:
    import jinja2

# So many rows stand in the page; a script shows the others.
ROWS_SHOWN = 100
# At most so many classes of a log are in the page, as many as a table has rows.
CLASSES_SHOWN = MOST_DEMAND_ROWS
# Above so many servers of a site, only those with something to see are shown, until the reader opens the others.
SERVERS_SHOWN = 24
# So many servers of a purchase are named in its sentence; each is drawn below.
BOUGHT_SHOWN = 6


@dataclass
class ServerView:
    site: int
    id: int
    label: str
    load: int
    capacity: int
    before: int
    bought: int
    gain: Gain | None
    is_full: bool

    @property
    def is_dear(self) -> bool:
        """Full, and more room would save."""
        return self.gain is not None and self.gain.all > 0

    @property
    def is_plain(self) -> bool:
        """Nothing is to be seen of it but its load."""
        return not self.is_full and not self.bought and self.before <= self.capacity


@dataclass
class RegionView:
    """A region of the page: what a query costs now, and by the reference."""

    name: str
    asked: int
    cost: int
    now: float
    was: float | None
    added: int


@dataclass
class RowView:
    """A row of the page: what it costs above its cheapest site, and which servers it asks."""

    region: str
    handle: str
    count: int
    price: int
    added: int
    uses: list[tuple[int, str, int]]


@dataclass(frozen=True)
class Fact:
    """A tile: its title, what it says, and a note below it."""

    title: str
    value: str
    note: str


@dataclass(frozen=True)
class FactTable:
    """A table of texts below a title and a note. Its name distinguishes it from others."""

    name: str
    title: str
    note: str
    head: list[str]
    rows: list[list[str]]


@dataclass
class View:
    service: Service
    plan: Planned | None
    reference: Reference | None
    before: Service | None = None
    changes: list[str] = field(default_factory=list)
    short: Shortage | None = None
    bought: dict[Server, int] = field(default_factory=dict)
    sources: list[Source] = field(default_factory=list)
    time: str = field(default_factory=now)
    facts: list[Fact] = field(default_factory=list)
    tables: list[FactTable] = field(default_factory=list)


def step_of(most: float) -> int:
    """A round step that gives an axis four to seven marks."""
    step = 1
    while most / step > 7:
        step = int(step * (2 if str(step)[0] in "15" else 2.5))
    return step


def servers_of(view: View, plan: Planned) -> list[ServerView]:
    gains = {gain.server: gain for gain in plan.gains}
    before = view.reference.loads if view.reference else [0] * len(plan.loads)
    numbers = {site.name: at for at, site in enumerate(plan.service.sites)}
    return [
        ServerView(
            numbers[server.site],
            server.id,
            server.label,
            plan.loads[server.number],
            plan.service.capacity(server),
            before[server.number],
            view.bought.get(server, 0),
            gains.get(server),
            plan.is_full(server),
        )
        for server in plan.service.servers
    ]


def regions_of(view: View, plan: Planned) -> list[RegionView]:
    """The regions by their names, so that the pages of two plans have them in one order."""
    found = []
    for name, (asked, cost) in plan.regions.items():
        then, was = view.reference.regions.get(name, (0, 0)) if view.reference else (0, 0)
        before = was / then if then else None
        found.append(RegionView(name, asked, cost, cost / asked if asked else 0.0, before, cost - was))
    return sorted(found, key=lambda region: region.name)


def reserve(servers: list[ServerView], hosts: list[Host]) -> str:
    """How full the fullest servers are."""
    full = [server for server in servers if server.is_full]
    words = [f"{len(full)} of {some(len(servers), 'server')}"] if full else []
    machines = sum(host.is_full for host in hosts)
    words += [some(machines, "machine")] if machines else []
    said = f"{listed(words)} {'is' if len(full) + machines == 1 else 'are'} full. " if words else ""
    rest = [server for server in servers if not server.is_full and server.capacity]
    if not rest:
        return said
    most = max(rest, key=lambda server: server.load / server.capacity)
    first = "The fullest of the others" if full else "The fullest server"
    return f"{said}{first}, {most.label}, is {percent(most.load, most.capacity)} full."


def classes_of(plan: Planned) -> list[RowView]:
    """What the regions of a log send to the servers where queries pay least, those first that cost most above their
    cheapest site. The servers stand in place of a handle."""
    service, beside, found = plan.service, beside_of(plan.service), []
    sites = [at for at, site in enumerate(service.sites) for _ in site.servers]
    for region, amounts in plan.classes:
        servers = [service.servers[number] for number in amounts]
        names = " or ".join(server.label for server in servers)
        price = service.costs[region, servers[0].site] + beside[servers[0].number]
        uses = [(sites[it], service.servers[it].id, queries) for it, queries in amounts.items() if queries]
        added = plan.added_at(region, [(site, queries) for site, _, queries in uses])
        shown = [(site, f"{site}.{number}", queries) for site, number, queries in uses]
        if shown:
            found.append(RowView(region, names, sum(amounts.values()), price, added, shown))
    return sorted(found, key=lambda row: (-row.added, -row.count))[:CLASSES_SHOWN]


def rows_of(plan: Planned) -> list[RowView]:
    """The rows that ask for something, those first that cost most above their cheapest site."""
    if plan.service.log:
        return classes_of(plan)
    service, prices = plan.service, plan.service.certificate.prices("row")
    found = []
    for at, own in enumerate(service.rows):
        uses = [(site, service.server(site, own.handle).id, queries) for site, queries in plan.uses.get(at, [])]
        if uses:
            shown = [(site, f"{site}.{number}", queries) for site, number, queries in uses]
            found.append(RowView(own.region, own.handle, own.count, prices[at], plan.added(at), shown))
    return sorted(found, key=lambda row: (-row.added, -row.count))


def packed(rows: Iterable[RowView], regions: list[str]) -> list[list[str]]:
    """All rows as text, one for each handle: small, and no element of the page until it is asked for."""
    numbers = {region: at for at, region in enumerate(regions)}
    lines: dict[str, list[str]] = {}
    for row in rows:
        is_whole = len(row.uses) == 1
        uses = ";".join(key + ("" if is_whole else f"={queries}") for _, key, queries in row.uses)
        fields = f"{numbers[row.region]},{row.count},{row.added},{row.price},{uses}"
        lines.setdefault(row.handle, []).append(fields)
    return [[handle, "|".join(parts)] for handle, parts in lines.items()]


def diverted(plan: Planned) -> int:
    """How many queries do not go to a cheapest site of their region."""
    service = plan.service
    costs = {(region, at): service.costs[region, service.sites[at].name] for region, at in plan.shares}
    least = {
        own: min(service.costs[own, service.sites[at].name] for at in service.sites_for(own))
        for own in service.regions
    }
    return sum(queries for key, queries in plan.shares.items() if costs[key] > least[key[0]])


def changes_between(old: Service, new: Service) -> list[str]:
    """What was changed between the files of two plans."""
    said = _changed("capacity of {} {}", _texts(old.capacities), _texts(new.capacities))
    said += _changed("cost {} to {}", _texts(old.costs), _texts(new.costs))
    if old.log or new.log:
        sums = [sum_of(service.inputs.demand) for service in (old, new)]  # a log is long
        is_other = sums[0] != sums[1] and _asked_in(old) != _asked_in(new)
        said += [f"demand: {old.asked:,} → {new.asked:,} queries"] if is_other else []
        return said + _changed("limit of {}{}", _limits(old), _limits(new))
    rows = [{(row.region, row.handle): row.count for row in service.rows} for service in (old, new)]
    other = sum(rows[0].get(key) != rows[1].get(key) for key in {*rows[0], *rows[1]})
    if other:
        said.append(f"demand: {some(other, 'row')}, {old.asked:,} → {new.asked:,} queries")
    return said + _changed("limit of {}{}", _limits(old), _limits(new))


def _asked_in(service: Service) -> int:
    """A sum of a demand that the order of its rows doesn't change, nor how they are split."""
    rows = (row for rows in rows_of_log(service.inputs.demand) for row in rows)
    return sum(hash((row.region, row.handle)) * row.queries for row in rows)


def _texts(table: Mapping[tuple[str, str], int] | Mapping[tuple[str, int], int]) -> dict[tuple[str, str], int]:
    return {(first, str(second)): number for (first, second), number in table.items()}


def _limits(service: Service) -> dict[tuple[str, str], int]:
    return {(dotted(host["address"]), ""): int(host["limit"]) for host in service.settings.get("host", [])}


def _changed(words: str, before: dict[tuple[str, str], int], after: dict[tuple[str, str], int]) -> list[str]:
    def shown(table: dict[tuple[str, str], int], key: tuple[str, str]) -> str:
        return f"{table[key]:,}" if key in table else "none"

    keys = dict.fromkeys([*before, *after])
    other = (name for name in keys if before.get(name) != after.get(name))
    return [f"{words.format(*name)}: {shown(before, name)} → {shown(after, name)}" for name in other]


def best_room(plan: Planned) -> tuple[str, int, bool] | None:
    """Where room is worth most: its name, what one query more saves there, and whether it is a machine."""
    found = [(gain.server.label, gain.one, False) for gain in plan.gains if gain.all > 0]
    found += [(host.address, host.one, True) for host in plan.hosts if host.one]
    return max(found, key=lambda pair: pair[1]) if found else None


def lacking(short: Shortage) -> list[tuple[str, list[Row]]]:
    """The handles of a shortage with their rows, those first that ask for most."""
    found: dict[str, list[Row]] = {}
    for row in short.rows:
        found.setdefault(row.handle, []).append(row)
    return sorted(found.items(), key=lambda pair: -sum(row.count for row in pair[1]))


def hash_of(text: str) -> str:
    """A style or a script of the template, as the policy of the page allows it. No other one is."""
    return f"sha256-{base64.b64encode(hashlib.sha256(text.encode()).digest()).decode()}"


@functools.cache
def environment() -> jinja2.Environment:
    """What reads the template. It is loaded only where a page is written, and compiles the template once."""
    import jinja2

    made = jinja2.Environment(
        loader=jinja2.PackageLoader("hsp"),
        autoescape=True,
        trim_blocks=True,
        lstrip_blocks=True,
        undefined=jinja2.StrictUndefined,
        finalize=lambda value: escaped(value) if type(value) is str else value,
    )
    made.filters.update(number=lambda number: f"{number:,}", signed=signed, listed=listed, hash=hash_of)
    made.globals.update(percent=percent, average=average, queries_of=queries_of, some=some, version=__version__)
    return made


def render(view: View) -> str:
    plan, names = view.plan, [site.name for site in view.service.sites]
    shown: dict[str, object] = {
        "view": view,
        "service": view.service,
        "plan": plan,
        "reference": view.reference,
        "unit": view.service.unit,
        "where": f"hsp where {shell_word(view.service.folder)}",
        "names": names,
        "bought_shown": BOUGHT_SHOWN,
        "to_buy": to_buy(view.service, view.bought),
        "lacking": lacking(view.short) if view.short else [],
        "least": {
            region: min((view.service.costs[region, names[at]] for at in view.service.sites_for(region)), default=None)
            for region in view.service.regions
        },
    }
    return environment().get_template("page.html").render(**shown, **(plan_shown(view, plan) if plan else {}))


def left_alone(view: View, plan: Planned) -> str:
    """What would be too full if all asked their cheapest site; nothing where that is the plan."""
    if not view.reference or view.before:
        return ""
    count, queries = above(plan.service, view.reference.loads)
    hosts = above_limits(plan.hosts, view.reference.loads)
    servers = f"{some(count, 'server')} would get {queries:,} queries above capacity" if count else ""
    machines = f"{some(hosts, 'machine')} would get more than {'its limit' if hosts == 1 else 'their limits'}"
    return " and ".join(filter(None, [servers, machines if hosts else ""]))


def plan_shown(view: View, plan: Planned) -> dict[str, object]:
    servers, regions, rows = servers_of(view, plan), regions_of(view, plan), rows_of(plan)
    top = max([1, *(max(server.capacity, server.load) for server in servers)])
    widest = min(max([top, *(server.before for server in servers)]), int(top * 1.3))
    axis = max([1.0, *(max(region.now, region.was or 0.0) for region in regions)])
    step = step_of(axis)
    return {
        "servers": servers,
        "servers_shown": SERVERS_SHOWN,
        "regions": regions,
        "rows": rows,
        "rows_shown": ROWS_SHOWN,
        "packed": packed(rows, plan.service.regions),
        "share": lambda number: round(100 * min(number, widest) / widest, 2),
        "widest": widest,
        "axis": (int(axis / step) + 1) * step,
        "step": step,
        "dear": [server for server in servers if server.is_dear],
        "full": [server for server in servers if server.is_full],
        "tight": [host for host in plan.hosts if host.one],
        "best": best_room(plan),
        "by_shares": by_shares(plan),
        "reserve": reserve(servers, plan.hosts),
        "alone": left_alone(view, plan),
        "is_above": any(server.before > server.capacity for server in servers),
        "diverted": diverted(plan),
    }
