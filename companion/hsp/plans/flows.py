"""Where the queries of a log go by a certificate by prices, region by region.

hsplan-stream says the servers of each handle, the prices and the classes. What is added up here has to be what its
reports say of servers.
"""

from collections import Counter
from collections.abc import Iterable
from dataclasses import dataclass, field

from hsp.base.programs import Class, Prices, Programs
from hsp.plans.joined import Placed, joined, placed
from hsp.plans.service import Server, Service

# A server that a kind of rows may use: its site, its number, and what a query pays there.
Way = tuple[int, int, int]


@dataclass
class Flows:
    """Sums over all rows of a log."""

    # How many queries of each region may go to a server of a site, and how many go there since they pay least there.
    leads: Counter[tuple[str, int, int]] = field(default_factory=Counter)
    single: Counter[tuple[str, int]] = field(default_factory=Counter)
    # Of a shortage, how many queries of each region may go only to its servers.
    caught: Counter[str] = field(default_factory=Counter)


class _Ways:
    """The servers that rows may use, with what they pay there by a certificate."""

    def __init__(self, service: Service) -> None:
        self._service = service
        self._first = [site.servers[0].number if site.servers else 0 for site in service.sites]
        self._beside = beside_of(service)
        self._usable: dict[str, list[tuple[int, int]]] = {}

    def of(self, region: str, places: tuple[bytes, ...]) -> list[Way]:
        """The ways of a kind of rows."""
        if region not in self._usable:
            sites = self._service.sites_for(region)
            costs = [self._service.costs[region, self._service.sites[at].name] for at in sites]
            self._usable[region] = list(zip(sites, costs))
        found = []
        for at, cost in self._usable[region]:
            server = self._first[at] + int(places[at])
            found.append((at, server, cost + self._beside[server]))
        return found


def beside_of(service: Service) -> list[int]:
    """What a query pays at each server beside its cost: the price of the server and of its host."""
    certificate = service.certificate
    if not certificate.is_plan:
        return [0] * len(service.servers)
    hosts = service.settings.get("host", [])
    on = {host["address"].lower(): price for host, price in zip(hosts, certificate.prices("host"))}
    prices = certificate.prices("server")
    return [prices[server.number] + on.get(server.address.lower(), 0) for server in service.servers]


def _add(flows: Flows, rows: Placed, ways: _Ways, short: set[int], is_plan: bool) -> None:
    """Adds the queries of some rows. A row with one least server goes there; the others are of classes."""
    for (own, places), (_, _, count) in rows:
        region = own.decode()
        usable = ways.of(region, places)
        for at, server, _ in usable:
            flows.leads[region, at, server] += count
        if not is_plan:
            flows.caught[region] += count if all(server in short for _, server, _ in usable) else 0
            continue
        pay = min((own_pay for _, _, own_pay in usable), default=0)
        least = [server for _, server, own_pay in usable if own_pay == pay]
        if len(least) == 1:
            flows.single[region, least[0]] += count


def flows_of(service: Service, programs: Programs) -> Flows:
    """What the rows of a service's log come to by its certificate."""
    certificate, flows, ways = service.certificate, Flows(), _Ways(service)
    assert isinstance(certificate, Prices)
    short = set() if certificate.is_plan else set(certificate.servers)
    for rows in placed(service, programs, joined(service, programs).demand):
        _add(flows, rows, ways, short, certificate.is_plan)
    return flows


def classes_of(service: Service, flows: Flows) -> list[Class]:
    """All that a plan sends, by regions and the servers where queries pay least: those with one, and the classes."""
    assert isinstance(service.certificate, Prices)
    alone = [Class(region, {server: queries}) for (region, server), queries in flows.single.items() if queries]
    return [*alone, *service.certificate.classes]


def shares_of(service: Service, classes: Iterable[Class]) -> dict[tuple[str, int], int]:
    """How many queries each region sends to each site."""
    sites = [at for at, site in enumerate(service.sites) for _ in site.servers]
    shares: Counter[tuple[str, int]] = Counter()
    for region, amounts in classes:
        for server, queries in amounts.items():
            shares[region, sites[server]] += queries
    return dict(shares)


def loads_of(service: Service, classes: Iterable[Class]) -> list[int]:
    """How many queries go to each server."""
    loads = [0] * len(service.servers)
    for _, amounts in classes:
        for server, queries in amounts.items():
            loads[server] += queries
    return loads


def servers_of(service: Service) -> list[Server]:
    assert isinstance(service.certificate, Prices)
    return [service.servers[number] for number in service.certificate.servers]
