"""Answers to queries by a certificate by prices, by the definitions in the specs of hsp_price_dispatch.

A front counts what it holds for classes as queries are taken, so that an answer takes no longer where there are many
classes. What is the same each time that a pair is asked for is found once.
"""

from collections.abc import Iterable, Sequence
from dataclasses import dataclass
from typing import NamedTuple

from lib import price_verdicts, prices
from lib.oracle import Service
from lib.price_verdicts import Bounds, Claim

WORDS = ("assigned", "diverted", "full", "unknown", "refused")


def share(number: int, fronts: int, front: int) -> int:
    """The share of a front in a number: all fronts have the quotient, and the first ones one of the remainder each."""
    return number // fronts + (front < number % fronts)


def amounts_at(claim: Claim, servers: int) -> list[int]:
    """The amounts of all classes at each server."""
    found = [0] * servers
    for server, amount in (sent for own in claim.classes for sent in zip(own.servers, own.amounts)):
        found[server] += amount
    return found


def unfit(service: Service, bounds: Bounds, claim: Claim) -> str | None:
    """The first reason why no front can begin with a plan, if there is one."""
    servers = len(bounds.capacities)
    if [len(claim.servers), len(claim.hosts)] != [servers, len(bounds.limits)]:
        return "Shape"
    if any(own.servers[-1] >= servers for own in claim.classes):
        return "NoSuchServer"
    loads = amounts_at(claim, servers)
    taken = [*zip(loads, bounds.capacities), *zip(price_verdicts.on_hosts(service, loads), bounds.limits)]
    return "Load" if any(load > bound for load, bound in taken) else None


@dataclass
class Cell:
    """What a front has of the amount of a class at a server, and what is left of that."""

    server: int
    share: int
    left: int


class Route(NamedTuple):
    """The ways of a pair, those of least pay among them, all of them by pay, and the numbers of the cells of its
    class, which are those of the least ways in their order. Ways of one pay keep the order of their sites."""

    ways: Sequence[prices.Way]
    least: Sequence[prices.Way]
    by_pay: Sequence[prices.Way]
    cells: range


class Plan:
    """A plan that fits a service within these bounds, and the routes of the pairs that were asked for."""

    def __init__(self, service: Service, bounds: Bounds, claim: Claim) -> None:
        self.service, self.bounds, self.claim = service, bounds, claim
        self.host_of = prices.hosts_of(service)
        self.extras = prices.extras(service, claim.servers, claim.hosts)
        self.cells: dict[prices.Key, range] = {}
        first = 0
        for own in claim.classes:
            self.cells[own.key] = range(first, first + len(own.servers))
            first += len(own.servers)
        self.names = [f"{site.name} {place} {own}" for site in service.sites for place, own in enumerate(site.servers)]
        self.routes: dict[tuple[str, str], Route] = {}

    def route(self, region: str, handle: str) -> Route:
        known = self.routes.get((region, handle))
        if known is None:
            known = self.routes[region, handle] = self._found(region, handle)
        return known

    def _found(self, region: str, handle: str) -> Route:
        ways = prices.ways(self.service, (region, handle, 1))
        least = prices.least(ways, self.extras) if ways else []
        by_pay = sorted(ways, key=lambda way: way.cost + self.extras[way.server])
        key = (region.encode(), tuple(way.server for way in least))
        cells = self.cells.get(key, range(0)) if len(least) > 1 else range(0)
        return Route(ways, least, by_pay, cells)


class Rooms:
    """For each server, or each host, the room that is left, and how much of it is held for classes."""

    def __init__(self, free: Iterable[int], held: Sequence[int]) -> None:
        self.left = [own + kept for own, kept in zip(free, held)]
        self.held = list(held)

    def has_room(self, at: int) -> bool:
        return self.left[at] > 0

    def is_free(self, at: int) -> bool:
        return self.left[at] > self.held[at]


class Front:
    """The front with this number, of so many, which answers by its share of a plan."""

    def __init__(self, plan: Plan, fronts: int = 1, front: int = 0) -> None:
        self.plan = plan
        self.cells = [
            Cell(server, own, own)
            for known in plan.claim.classes
            for server, amount in zip(known.servers, known.amounts)
            for own in [share(amount, fronts, front)]
        ]
        held = [0] * len(plan.host_of)
        for cell in self.cells:
            held[cell.server] += cell.left
        loads = amounts_at(plan.claim, len(held))
        capacities, limits = plan.bounds
        on_hosts = price_verdicts.on_hosts(plan.service, loads)
        free = [share(bound - load, fronts, front) for bound, load in zip(capacities, loads)]
        host_free = [share(bound - load, fronts, front) for bound, load in zip(limits, on_hosts)]
        self.servers = Rooms(free, held)
        self.hosts = Rooms(host_free, price_verdicts.on_hosts(plan.service, held))

    def has_room(self, server: int) -> bool:
        host = self.plan.host_of[server]
        return self.servers.has_room(server) and (host is None or self.hosts.has_room(host))

    def is_free(self, server: int) -> bool:
        """Whether a server has room that is held for no class, and so has its host."""
        host = self.plan.host_of[server]
        return self.servers.is_free(server) and (host is None or self.hosts.is_free(host))

    def fullest(self, numbers: range) -> Cell | None:
        """The cell of which the greatest part is left, of those that can give, the first of such cells."""
        best = None
        for number in numbers:
            cell = self.cells[number]
            if cell.left and self.has_room(cell.server):
                if best is None or cell.left * best.share > best.left * cell.share:
                    best = cell
        return best

    def first_free(self, ways: Sequence[prices.Way]) -> int | None:
        """The server of the first way that leads to free room."""
        return next((way.server for way in ways if self.is_free(way.server)), None)

    def elsewhere(self, route: Route) -> int | None:
        """The server over the way of least pay to free room, and otherwise to room that is held for others."""
        free = self.first_free(route.by_pay)
        if free is not None:
            return free
        return next((way.server for way in route.by_pay if self.has_room(way.server)), None)

    def take(self, server: int, cell: Cell | None = None) -> str:
        """Takes a query of the room at a server, and of a class's amount where there is a cell. Names the server."""
        host, held = self.plan.host_of[server], 1 if cell else 0
        self.servers.left[server] -= 1
        self.servers.held[server] -= held
        if host is not None:
            self.hosts.left[host] -= 1
            self.hosts.held[host] -= held
        if cell:
            cell.left -= 1
        return self.plan.names[server]

    def answer(self, region: str, handle: str) -> str:
        """The line that a query is answered by. What it takes is taken."""
        route = self.plan.route(region, handle)
        if not route.ways:
            return "unknown"
        cell = self.fullest(route.cells)
        if cell:
            return f"assigned {self.take(cell.server, cell)}"
        server = self.first_free(route.least)
        if server is not None:
            return f"assigned {self.take(server)}"
        server = self.elsewhere(route)
        return "full" if server is None else f"diverted {self.take(server)}"


def sums_of(answers: Iterable[str]) -> str:
    """The line of the sums of answers."""
    first = [answer.split()[0] for answer in answers]
    return " ".join(f"{word} {first.count(word)}" for word in WORDS) + "\n"


def answers_of(front: Front, entries: Iterable[tuple[str, str]]) -> list[str]:
    return [front.answer(region, handle) for region, handle in entries]


def read_plan(service: Service, bounds: Bounds, text: bytes) -> Plan:
    claim = price_verdicts.read(text)
    assert isinstance(claim, Claim) and claim.kind == b"PLAN", claim
    assert unfit(service, bounds, claim) is None
    return Plan(service, bounds, claim)
