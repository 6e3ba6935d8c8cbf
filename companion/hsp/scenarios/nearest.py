"""Of the cheapest plans one that moves the fewest queries.

A row becomes portions: one for each site to which the plan in force sends some of it, its home, and one for what is
new. Away from home a portion's query costs one more than many times the site's cost. So a cheapest plan of the portions
is a cheapest plan of the rows and moves the fewest queries, and a certificate of each shows both.
"""

from collections import Counter
from collections.abc import Iterable, Iterator, Mapping
from dataclasses import dataclass
from typing import NamedTuple

from hsp.base.grammar import GREATEST_COST, HEADERS, LONGEST_NAME, MOST_COST_ROWS, MOST_DEMAND_ROWS, MOST_REGIONS
from hsp.base.numbers import listed, some
from hsp.base.programs import Certificate, Inputs
from hsp.plans.service import Server, Service
from hsp.scenarios.judged import Judged

# What tells a row from others in two tables: its region and its handle.
Key = tuple[str, str]
# A server by its site and its identifier.
Named = tuple[str, int]
# How many queries of each key go to each server by a plan in force.
Homes = Mapping[Key, Mapping[Named, int]]
# How many queries of a row, by its number, go to a site.
Uses = dict[tuple[int, int], int]
# What has a price in a certificate, in its order.
PRICED = ("row", "server", "host")


class TooMany(Exception):
    """More portions, or more regions with their homes, than tables hold. The text says which."""


class Portion(NamedTuple):
    """So many queries of a row, whose home is a site by its number, or None where they are new."""

    row: int
    home: int | None
    queries: int


@dataclass(frozen=True)
class Nearest:
    """A cheapest plan, and how many queries it moves: the fewest, as a plan of the portions shows."""

    certificate: Certificate
    plan_file: str
    moved: int
    portions: Inputs
    portions_plan: str


def homes_of(service: Service, certificate: Certificate) -> Homes:
    """Where a plan of the service's rows sends their queries."""
    found: dict[Key, dict[Named, int]] = {}
    for row, site, queries in zip(*certificate.use_columns):
        own = service.rows[row]
        server = service.server(site, own.handle)
        found.setdefault((own.region, own.handle), {})[server.site, server.id] = queries
    return found


def shared(whole: int, parts: Mapping[int | None, int]) -> dict[int | None, int]:
    """A number in whole parts of the same shares: each is rounded down, and the rest goes to the largest remainders."""
    total = sum(parts.values())
    if not total:
        return {}
    if len(parts) == 1:
        return dict.fromkeys(parts, whole) if whole else {}
    own = {key: part * whole // total for key, part in parts.items()}
    rest = whole - sum(own.values())
    for key in sorted(parts, key=lambda it: -(parts[it] * whole % total))[:rest]:
        own[key] += 1
    return {key: part for key, part in own.items() if part}


def _shares(service: Service, homes: Homes) -> Iterator[dict[int | None, int]]:
    """The queries of each row that the plan in force has at each site; below None those at a server that is gone."""
    numbers = {site.name: at for at, site in enumerate(service.sites)}
    for row in service.rows:
        parts = dict[int | None, int]()
        for (site, server), queries in homes.get((row.region, row.handle), {}).items():
            number = numbers.get(site)
            is_there = number is not None and service.server(number, row.handle).id == server
            home = number if is_there else None
            parts[home] = parts.get(home, 0) + queries
        yield shared(row.count, parts)


def portions_of(service: Service, homes: Homes) -> list[Portion]:
    """The portions of all rows. What had a server that is gone is moved by every plan, so it's new."""
    found = []
    for at, (row, own) in enumerate(zip(service.rows, _shares(service, homes))):
        rest = row.count - sum(own.values()) + own.pop(None, 0)
        found += [Portion(at, home, part) for home, part in own.items()]
        if rest or not own:
            found.append(Portion(at, None, rest))
    return found


def gone_of(service: Service, homes: Homes) -> int:
    """How many queries of the plan in force, in the present counts, had a server that is gone. They have to move."""
    return sum(own.get(None, 0) for own in _shares(service, homes))


def weight_of(service: Service) -> int:
    """How many times a site's cost counts. A round of moves that saves cost passes each server once, and moves at most
    as many queries: so one more than the servers is enough. Where costs allow it, it is more than twice as many, and
    the prices of the portions divided by it are those of the rows."""
    servers, dearest = len(service.servers), max(service.costs.values(), default=0)
    wide = 2 * servers + 4
    return wide if wide * dearest < GREATEST_COST else servers + 1


class Portions:
    """The portions of a service's rows, of which nearest plans are made after any change of costs and capacities."""

    def __init__(self, service: Service, homes: Homes, programs: Judged) -> None:
        self._service, self._programs = service, programs
        self.all = portions_of(service, homes)
        self._rows = [it.row for it in self.all]
        self.weight = weight_of(service)
        self._regions = dict.fromkeys((service.rows[it.row].region, it.home) for it in self.all)
        self._refuse_too_many()
        self._names = self._named()
        self._at_home: Counter[int] = Counter()
        for it in self.all:
            if it.home is not None:
                server = service.server(it.home, service.rows[it.row].handle)
                self._at_home[server.number] += it.queries
        rows = ((self._names[self._region(it)], service.rows[it.row].handle, it.queries) for it in self.all)
        self.demand = programs.put_table(HEADERS["demand"], rows)
        self._gone = gone_of(service, homes)

    def _region(self, portion: Portion) -> tuple[str, int | None]:
        return self._service.rows[portion.row].region, portion.home

    def _refuse_too_many(self) -> None:
        dearest = self.weight * max(self._service.costs.values(), default=0) + 1
        costs = sum(len(self._service.sites_for(region)) for region, _ in self._regions)
        found = {
            some(len(self.all), "portion"): len(self.all) > MOST_DEMAND_ROWS,
            some(len(self._regions), "region with its homes", "regions with their homes"): len(self._regions)
            > MOST_REGIONS,
            f"costs up to {dearest:,}": dearest > GREATEST_COST,
            some(costs, "cost"): costs > MOST_COST_ROWS,
        }
        if any(found.values()):
            raise TooMany(listed(words for words, is_above in found.items() if is_above))

    def _named(self) -> dict[tuple[str, int | None], str]:
        """A name for each region with a home. It is one that people can read, where that is a name and no region's."""
        sites = [site.name for site in self._service.sites]
        names = {(own, home): own if home is None else f"{own}.{sites[home]}" for own, home in self._regions}
        if len(set(names.values())) == len(names) and all(len(name) <= LONGEST_NAME for name in names.values()):
            return names
        return {key: f"r{at}" for at, key in enumerate(names)}

    def forced(self, servers: Iterable[Server]) -> int:
        """How many queries every plan moves without some servers: those at home there, and at servers that are gone."""
        return self._gone + sum(self._at_home[server.number] for server in servers)

    def inputs(self, service: Service) -> Inputs:
        """The tables of the portions for a service of the same rows, which may have other costs and capacities."""
        rows = []
        for (region, home), name in self._names.items():
            for at in service.sites_for(region):
                cost = self.weight * service.costs[region, service.sites[at].name]
                rows.append((name, service.sites[at].name, cost + (home is not None and home != at)))
        costs = self._programs.put_table(HEADERS["costs"], rows)
        return service.inputs.but(demand=self.demand, costs=costs)

    def nearest(self, service: Service, plain: Certificate | None = None) -> Nearest | None:
        """A nearest plan, where there is a plan. The plain plan gives the prices where it is known; otherwise those of
        the portions do, divided by their weight. None where the checker doesn't say yes to the rows' plan."""
        inputs = self.inputs(service)
        found, path = self._programs.plan(inputs)
        if not found.is_plan:
            return None
        uses = self._joined(found)
        cost = self._cost(service, uses)
        if plain and cost != plain.cost:
            return None
        prices = {of: plain.prices(of) if plain else self._divided(found, of) for of in PRICED}
        text = text_of(found.head, cost, uses, prices)
        own = self._programs.put(text)
        if not self._programs.says_yes(service.inputs, own):
            return None
        moved = self._gone + found.cost - self.weight * cost
        return Nearest(Certificate(text), own, moved, inputs, path)

    def _joined(self, found: Certificate) -> Uses:
        """What all portions of a row send to a site."""
        sums: dict[tuple[int, int], int] = {}
        for portion, site, queries in zip(*found.use_columns):
            key = self._rows[portion], site
            sums[key] = sums.get(key, 0) + queries
        return {key: sums[key] for key in sorted(sums)}

    def _cost(self, service: Service, uses: Uses) -> int:
        names, costs = [site.name for site in service.sites], service.costs
        regions = [row.region for row in service.rows]
        return sum(queries * costs[regions[row], names[site]] for (row, site), queries in uses.items())

    def _divided(self, found: Certificate, of: str) -> list[int]:
        """Prices of the portions as those of the rows: divided by the weight, to the nearest whole number."""
        twice = 2 * self.weight
        prices = [(2 * price + self.weight) // twice for price in found.prices(of)]
        if of != "row":
            return prices
        return list(dict(zip(self._rows, prices)).values())


def text_of(head: str, cost: int, uses: Uses, prices: Mapping[str, list[int]]) -> str:
    """A certificate of rows below a head that says its form."""
    lines = [head, "PLAN", f"cost {cost}"]
    lines += [f"use {row} {site} {queries}" for (row, site), queries in uses.items()]
    for of in PRICED:
        lines += [f"{of} {at} {price}" for at, price in enumerate(prices[of])]
    return "\n".join([*lines, "END", ""])


def moved_between(service: Service, homes: Homes, certificate: Certificate) -> int:
    """How many queries of the plan in force, in the present counts, a plan doesn't send to the same server: those at a
    server that is gone, too."""
    at_home = {(it.row, it.home): it.queries for it in portions_of(service, homes) if it.home is not None}
    kept = sum(min(queries, at_home.get((row, site), 0)) for row, site, queries in zip(*certificate.use_columns))
    return gone_of(service, homes) + sum(at_home.values()) - kept
