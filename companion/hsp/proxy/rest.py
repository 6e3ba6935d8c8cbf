"""The plan of what is left of a period: the demand by the time left, and the room that servers and hosts still have.

One rule serves the start, a restart, a lost server and its return. The plan is hsplan's, and hsplan checks it.
It counts in parts of a query, or in several queries, so that rounding makes no shortage.

Of a demand that no table holds, the log stays as it is. In place of it the room grows: where half of the period is
left, the log of a whole period has twice the room that servers and hosts still have. So the plan, by prices, is that
of the rest, and its numbers are those of it by the time left.
"""

import math
from collections import Counter
from collections.abc import Callable, Collection, Iterable, Mapping
from dataclasses import dataclass, replace

from hsp.base.bounds import octets_of
from hsp.base.grammar import GREATEST_CAPACITY, GREATEST_COUNT, GREATEST_LIMIT, HEADERS, MOST_SERVERS, MOST_SITES
from hsp.base.numbers import some
from hsp.base.programs import Certificate, Inputs, Missing, Programs
from hsp.intake.addresses import name_of
from hsp.intake.records import ServerRecord, SiteRecord
from hsp.plans.plans import capacity_file, costs_file, servers_at, settings_file
from hsp.plans.service import Row, Server, Service
from hsp.proxy.config import PLAN, PRICES
from hsp.proxy.kinds import class_lines, key_of, plan_lines, price_lines, shares_by, shares_of


# So many plans are asked for at most: some seconds. If they are used up, more may be left out than has to be.
MOST_PLANS = 200


class Lowering:
    """As few queries left out as can be, where hsplan has no place for a site at which they could stand.

    A shortage names rows that ask for more than their servers take: at least the difference is left out. So rows are
    lowered by that until hsplan has a plan. Lowering by one shortage and then by another may leave out too many. So
    each row that was lowered is raised again as far as hsplan finds a plan. A row that can't be raised is in a set of
    rows that fill their servers, and so are all rows of that set. Where no row can be raised, no plan serves more.
    """

    def __init__(self, service: Service, rows: list[Row], planned: Callable[[list[Row]], Certificate]) -> None:
        self._planned, self._wanted = planned, [row.count for row in rows]
        self._servers = [frozenset(service.kind(row)) for row in rows]
        self.rows, self._left = list(rows), MOST_PLANS
        # So many are left out by every plan, as a shortage shows.
        self._least = 0

    @property
    def left_out(self) -> dict[int, int]:
        """How many queries of which row are left out."""
        lacking = {at: wanted - self.rows[at].count for at, wanted in enumerate(self._wanted)}
        return {at: number for at, number in lacking.items() if number}

    def _ask(self, rows: list[Row]) -> Certificate:
        self._left -= 1
        return self._planned(rows)

    def _short(self, certificate: Certificate) -> list[int]:
        """The rows that may use no other servers than those of a shortage. The shortage counts for all of them."""
        servers = frozenset[tuple[str, int]]().union(*(self._servers[at] for at in certificate.rows))
        short = [at for at, own in enumerate(self._servers) if own <= servers]
        self._least = max(self._least, sum(self._wanted[at] for at in short) - certificate.capacity)
        return short

    def _lower(self, short: Iterable[int], capacity: int) -> None:
        """Lowers rows to what their servers take, those that ask for most first."""
        ordered = sorted(short, key=lambda at: -self.rows[at].count)
        above = sum(self.rows[at].count for at in ordered) - capacity
        if above <= 0:
            raise Missing("hsplan reports a shortage that is none: please report this with your files")
        for at in ordered:
            less = min(above, self.rows[at].count)
            self.rows[at] = replace(self.rows[at], count=self.rows[at].count - less)
            above -= less

    def _lowered(self) -> Certificate:
        """The plan of rows that are low enough."""
        while True:
            certificate = self._ask(self.rows)
            if certificate.is_plan:
                return certificate
            self._lower(self._short(certificate), certificate.capacity)

    def _raised(self, at: int) -> tuple[Certificate | None, list[int]]:
        """The plan in which a row is as high as can be, or the rows that fill their servers with this one."""
        count = self._wanted[at]
        while self._left > 0:
            rows = [replace(row, count=count) if at == own else row for own, row in enumerate(self.rows)]
            certificate = self._ask(rows)
            if certificate.is_plan:
                self.rows = rows
                return certificate, []
            short = self._short(certificate)
            count = certificate.capacity - sum(self.rows[own].count for own in short if own != at)
            if count <= self.rows[at].count:
                return None, short
        return None, []

    def best(self) -> Certificate:
        """The cheapest plan of what is served."""
        best = self._lowered()
        waiting = list(self.left_out)
        while waiting and self._left > 0 and sum(self.left_out.values()) > self._least:
            certificate, full = self._raised(waiting[0])
            best = certificate or best
            waiting = [at for at in waiting[1:] if at not in full]
        return best


# A site that is nowhere, for what is left out.
NOWHERE = "hsp-nowhere"
# How many queries of which row are left out.
_Lacking = dict[int, int]
# So much room for the rest as room for a whole period, and at most so much.
InRest = Callable[[int, int], int]
# With less of a period left than this share of it, as much is taken to be left.
LEAST_LEFT = 1e-6


@dataclass(frozen=True)
class Rest:
    """A plan of the rest that hsplan has checked."""

    # The lines of the map.
    lines: list[str]
    # What is asked for in the rest, what of it has no room, and what the rest costs.
    asked: int
    left_out: int
    cost: int
    # What each server gets in the rest, by its name.
    loads: dict[str, int]
    # The lines of the map of prices, where no table holds the demand. The other map has classes then.
    prices: list[str] | None = None

    @property
    def maps(self) -> dict[str, list[str]]:
        """The lines of the maps, by the names of their files."""
        return {PLAN: self.lines, **({} if self.prices is None else {PRICES: self.prices})}


def _whole(room: float, most: int) -> int:
    """Room as a whole number. A part of a query is as good as a whole one."""
    return min(most, math.ceil(max(0, room)))


@dataclass(frozen=True)
class _Parts:
    """How many parts a query has."""

    of_query: float

    def room(self, queries: int) -> int:
        """Room for so many queries. A part of a part is as good as a whole one, which no query notices."""
        return _whole(queries * self.of_query, GREATEST_CAPACITY)

    def queries(self, parts: int) -> int:
        return round(parts / self.of_query)


def _in_parts(kinds: list[Row], left: float) -> tuple[_Parts, list[Row]]:
    """The demand of the rest in parts as small as hsplan's limits allow."""
    counts = [row.count * left for row in kinds]
    most, whole = max(counts, default=0.0), sum(counts)
    if most <= 0:
        return _Parts(1.0), []
    of_query = min(GREATEST_COUNT / most, GREATEST_CAPACITY / whole)
    parts = _Parts(math.floor(of_query) if of_query >= 1 else 1 / math.ceil(1 / of_query))
    return parts, [
        replace(row, count=min(GREATEST_COUNT, max(1, math.floor(count * parts.of_query))))
        for row, count in zip(kinds, counts)
    ]


def _demand(rows: Iterable[Row], own: Programs) -> str:
    return own.put_table(HEADERS["demand"], ((row.region, row.handle, row.count) for row in rows))


def _inputs(service: Service, demand: str, room: Mapping[str, int], rest: InRest, own: Programs) -> Inputs:
    """The files of the rest. None of the folder's is read again, since it may be edited meanwhile."""
    rooms = {(it.site, it.id): rest(room[name_of(it)], GREATEST_CAPACITY) for it in service.servers}
    given = service.settings.get("host", [])
    hosts = [{**host, "limit": rest(room[host["address"]], GREATEST_LIMIT)} for host in given]
    settings, costs = settings_file(own, service.settings, *hosts), costs_file(own, service.costs)
    return service.inputs.but(settings=settings, demand=demand, costs=costs, capacity=capacity_file(own, rooms))


def room_of(service: Service, taken: Mapping[str, int], down: Collection[str]) -> dict[str, int]:
    """What servers, by their names, and hosts, by their addresses, can still take."""
    room = {
        name_of(server): 0 if name_of(server) in down else service.capacity(server) - taken.get(name_of(server), 0)
        for server in service.servers
    }
    for host in service.settings.get("host", []):
        own = sum(taken.get(name_of(server), 0) for server in servers_at(service, host))
        room[host["address"]] = host["limit"] - own
    return room


def _nowhere() -> str:
    """A site of one server, as the settings have it."""
    record = SiteRecord(1, (2, 11), 1, 0, 2, b"", (), (ServerRecord(1, bytes(15) + b"\1", b"", ()),))
    return f'[[site]]\nname = "{NOWHERE}"\nrecord = "{record.octets().hex()}"\n'


def with_nowhere(service: Service, inputs: Inputs, own: Programs, room: int) -> Inputs:
    """The inputs with a site that is nowhere, at which there is so much room. Where that has to be found out, a query
    costs 1 there and nothing elsewhere."""
    is_sought = not room
    costs = {pair: 0 if is_sought else cost for pair, cost in service.costs.items()}
    costs |= {(region, NOWHERE): int(is_sought) for region in service.regions}
    more = f"{NOWHERE},1,{room or GREATEST_CAPACITY}\n"
    return inputs.but(
        settings=own.put(octets_of(inputs.settings) + _nowhere().encode(), ".toml"),
        costs=costs_file(own, costs),
        capacity=own.put(octets_of(inputs.capacity) + more.encode(), ".csv"),
    )


def has_place(service: Service) -> bool:
    """Whether hsplan has a place for one more site."""
    return len(service.sites) < MOST_SITES and len(service.servers) < MOST_SERVERS


def _least_left_out(service: Service, inputs: Inputs, rows: list[Row], own: Programs) -> tuple[Certificate, _Lacking]:
    """A plan of those that leave out the fewest, and how many queries of which row it leaves out."""
    if not has_place(service):
        lowering = Lowering(service, rows, lambda lowered: own.judged(inputs.but(demand=_demand(lowered, own)))[0])
        return lowering.best(), lowering.left_out
    least = own.judged(with_nowhere(service, inputs, own, 0))[0].cost
    certificate, _ = own.judged(with_nowhere(service, inputs, own, least))
    return certificate, {use.row: use.queries for use in certificate.uses if use.site == len(service.sites)}


def _usual(service: Service, row: Row, plan: Mapping[str, Counter[Server]]) -> Counter[Server]:
    """The servers that the folder's own plan gives a kind; or its cheapest one, where that plan has none."""
    sites = sorted(service.sites_for(row.region), key=lambda at: service.costs[row.region, service.sites[at].name])
    return plan.get(key_of(service, row)) or Counter(service.server(at, row.handle) for at in sites[:1])


def _with_left_out(service: Service, rest: Service, left_out: _Lacking) -> dict[str, Counter[Server]]:
    """What each server gets of each kind that is left out: what the folder's own plan gives it."""
    plan = shares_of(service) if service.certificate.is_plan else {}
    found: dict[str, Counter[Server]] = {}
    for at, lacking in left_out.items():
        row = rest.rows[at]
        usual = _usual(service, row, plan)
        own = {server: round(lacking * queries / usual.total()) for server, queries in usual.items()}
        found[key_of(rest, row)] = Counter(own)
    return found


def _joined(planned: dict[str, Counter[Server]], more: dict[str, Counter[Server]]) -> dict[str, Counter[Server]]:
    """The shares of both. A kind that no site serves has none."""
    both = {key: planned.get(key, Counter()) + more.get(key, Counter()) for key in {**planned, **more}}
    return {key: own for key, own in both.items() if own}


def _loads(service: Service, shares: dict[str, Counter[Server]], parts: _Parts) -> dict[str, int]:
    """What each server gets in the rest, in queries."""
    whole = sum(shares.values(), Counter[Server]())
    return {name_of(server): parts.queries(whole[server]) for server in service.servers}


def rest_of(service: Service, kinds: list[Row], left: float, room: Mapping[str, int], own: Programs) -> Rest:
    """The plan of the rest of a period, of which this share is left, where servers and hosts have this room."""
    parts, rows = _in_parts(kinds, left)
    inputs = _inputs(service, _demand(rows, own), room, lambda queries, _: parts.room(queries), own)
    certificate, _ = own.judged(inputs)
    left_out: _Lacking = {}
    if not certificate.is_plan:
        certificate, left_out = _least_left_out(service, inputs, rows, own)
    if not certificate.is_plan:
        raise Missing("hsplan has no plan though all may be left out: please report this with your files")
    rest = replace(service, rows=rows, certificate=certificate)
    planned = shares_by(rest, (use for use in certificate.uses if use.site < len(service.sites)))
    return Rest(
        plan_lines(_joined(planned, _with_left_out(service, rest, left_out))),
        parts.queries(sum(row.count for row in rows)),
        parts.queries(sum(left_out.values())),
        parts.queries(certificate.cost),
        _loads(service, planned, parts),
    )


def priced_rest(service: Service, left: float, room: Mapping[str, int], own: Programs) -> Rest:
    """The plan of the rest of a period, of which this share is left, where servers and hosts have this room."""
    left = max(left, LEAST_LEFT)
    inputs = _inputs(service, service.inputs.demand, room, lambda own, most: _whole(own / left, most), own)
    least = 0
    certificate, path = own.judged(inputs)
    if not certificate.is_plan:
        if not has_place(service):
            sizes = f"{some(len(service.sites), 'site')} and {some(len(service.servers), 'server')}"
            raise Missing(f"a shortage, and with {sizes} hsplan has no place for what is left out; the map stays")
        least = own.judged(with_nowhere(service, inputs, own, 0))[0].cost
        inputs = with_nowhere(service, inputs, own, least)
        certificate, path = own.judged(inputs)
    if not certificate.is_plan:
        raise Missing("a shortage that is larger than hsplan's limits; the map stays")
    loads = [load.load for load in own.loads(inputs, path)[0]]
    planned = replace(service, certificate=certificate)
    return Rest(
        class_lines(planned),
        round(service.asked * left),
        round(least * left),
        round(certificate.cost * left),
        {name_of(server): round(loads[server.number] * left) for server in service.servers},
        price_lines(planned),
    )
