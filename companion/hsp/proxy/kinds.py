"""The kinds of handles as HAProxy finds them, and the servers that a plan gives each kind.

A kind is a region, and the place of the handle's server at each site that the region may use. hsplan says these
places, and HAProxy computes them for each request. A kind of several servers is drawn by lot.

A demand that no table holds has any number of kinds, and is answered by prices. A query pays a site's cost, and the
prices of the server there and of its machine. Where it pays least at several servers, its class says what part each of
these gets.
"""

from collections import Counter
from collections.abc import Iterable, Mapping
from dataclasses import replace

from hsp.base.programs import Class, Prices, Use
from hsp.intake.addresses import name_of
from hsp.plans.flows import beside_of
from hsp.plans.service import Row, Server, Service

# One of so many lots is drawn for a request.
LOTS = 1_000_000
BETWEEN = "|"


def key_of(service: Service, row: Row) -> str:
    """The kind of a row. A site that its region may not use has an empty place."""
    usable = set(service.sites_for(row.region))
    places = [
        str(service.places[row.handle, site.name]) if at in usable else "" for at, site in enumerate(service.sites)
    ]
    return BETWEEN.join([row.region, *places])


def kinds_of(service: Service) -> list[Row]:
    """A row for each kind of a service, with the handle of its first row. All handles of a kind have the same
    servers."""
    found: dict[str, Row] = {}
    for row in service.rows:
        key = key_of(service, row)
        own = found.get(key, replace(row, count=0))
        found[key] = replace(own, count=own.count + row.count)
    return [row for row in found.values() if row.count]


def shares_by(service: Service, uses: Iterable[Use]) -> dict[str, Counter[Server]]:
    """How many queries of each kind the uses of a plan send to each server."""
    found: dict[str, Counter[Server]] = {}
    for use in uses:
        row = service.rows[use.row]
        if use.queries:
            own = found.setdefault(key_of(service, row), Counter())
            own[service.server(use.site, row.handle)] += use.queries
    return found


def shares_of(service: Service) -> dict[str, Counter[Server]]:
    """How many queries of each kind the plan sends to each server."""
    return shares_by(service, service.certificate.uses)


def drawn_from(queries: Counter[Server]) -> str:
    """The servers of a kind, the largest share first. Behind each but the last stands the first lot that is no more
    its own, as in `paris:1|750000|reston:2`."""
    whole, passed = queries.total(), 0
    words: list[str] = []
    for server, number in sorted(queries.items(), key=lambda pair: (-pair[1], pair[0].number)):
        passed += number
        words += [name_of(server), str(round(LOTS * passed / whole))]
    return BETWEEN.join(words[:-1])


def plan_lines(shares: Mapping[str, Counter[Server]]) -> list[str]:
    """The map from kinds to servers."""
    return [f"{key} {drawn_from(queries)}" for key, queries in shares.items()]


def site_lines(service: Service, regions: Iterable[str]) -> list[str]:
    """The map from regions to the sites that they may use: a bit for each site, by its number."""
    usable = {region: service.sites_for(region) for region in regions}
    return [f"{region} {sum(1 << at for at in sites)}" for region, sites in usable.items() if sites]


def cost_lines(service: Service) -> list[str]:
    """The map from regions and sites to costs."""
    return [f"{region}/{site} {cost}" for (region, site), cost in service.costs.items()]


def server_lines(service: Service) -> list[str]:
    """The map from sites and places to servers."""
    return [
        f"{site.name}/{place} {name_of(server)}" for site in service.sites for place, server in enumerate(site.servers)
    ]


def price_lines(service: Service) -> list[str]:
    """The map from servers to what a query pays there beside the cost of the site."""
    beside = beside_of(service)
    return [f"{name_of(server)} {beside[server.number]}" for server in service.servers if beside[server.number]]


def _shares_of_classes(servers: list[Server], classes: Iterable[Class]) -> dict[str, Counter[Server]]:
    """How many queries of each class go to each of its servers. A server that isn't among these has none."""
    found: dict[str, Counter[Server]] = {}
    for region, amounts in classes:
        own = Counter({servers[at]: amounts[at] for at in sorted(amounts) if at < len(servers)})
        if len(own) > 1 and own.total():
            key = BETWEEN.join([region, *map(name_of, own)])
            found[key] = found.get(key, Counter()) + own
    return found


def class_lines(service: Service) -> list[str]:
    """The map from classes to servers: a region, and the servers at which its queries pay least."""
    certificate = service.certificate
    return plan_lines(
        _shares_of_classes(service.servers, certificate.classes if isinstance(certificate, Prices) else [])
    )
