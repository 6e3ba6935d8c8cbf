"""Certificates by prices, made of what `hsplan plan` prints of a table."""

from collections.abc import Mapping, Sequence
from typing import NamedTuple

from lib import oracle

# A class by its region and its servers.
Key = tuple[bytes, tuple[int, ...]]


class Way(NamedTuple):
    """A way from a row to a site: the site, its responsible server among all servers, and the cost of a query."""

    site: int
    server: int
    cost: int


def ways(service: oracle.Service, row: oracle.Row) -> list[Way]:
    """The ways of a row, in the order of the sites."""
    region, handle, _ = row
    first = [sum(len(site.servers) for site in service.sites[:at]) for at in range(len(service.sites))]
    return [
        Way(at, first[at] + service.sites[at].place(handle), service.costs[region, service.sites[at].name])
        for at in service.sites_of(region)
    ]


def numbers_of(text: bytes, word: str) -> list[list[int]]:
    """The numbers of the lines of a certificate that begin with a word."""
    lines = (line.split() for line in text.decode().splitlines())
    return [[int(it) for it in words[1:]] for words in lines if words[:1] == [word]]


def hosts_of(service: oracle.Service) -> list[int | None]:
    """The host of each server, where it has a limit: one of the first places stands there, whatever its site."""
    places = (place for site in service.sites for place in range(len(site.servers)))
    return [place if place < service.hosts else None for place in places]


def extras(service: oracle.Service, servers: Sequence[int], hosts: Sequence[int]) -> list[int]:
    """What a query pays at each server beside its cost, by the prices of servers and of hosts."""
    on = hosts_of(service)
    return [price + (0 if host is None else hosts[host]) for price, host in zip(servers, on)]


def least(own: Sequence[Way], beside: Sequence[int]) -> list[Way]:
    pays = [way.cost + beside[way.server] for way in own]
    return [way for way, pay in zip(own, pays) if pay == min(pays)]


def written(*lines: str) -> bytes:
    return "".join(f"{line}\n" for line in ("HSPLAN PRICES 1", *lines, "END")).encode()


def text_of(cost: int, servers: Sequence[int], hosts: Sequence[int], sent: Mapping[Key, Sequence[int]]) -> bytes:
    """The certificate of a plan with this cost, these prices, and what each class sends to its servers."""
    lines = [f"server {at} {price}" for at, price in enumerate(servers)]
    lines += [f"host {at} {price}" for at, price in enumerate(hosts)]
    for (region, own), numbers in sorted(sent.items()):
        lines.append(f"class {region.decode()} " + " ".join(f"{it} {number}" for it, number in zip(own, numbers)))
    return written("PLAN", f"cost {cost}", *lines)


def of_plan(service: oracle.Service, table: Sequence[oracle.Row], plan: bytes) -> bytes:
    servers, hosts = ([price for _, price in numbers_of(plan, word)] for word in ("server", "host"))
    beside = extras(service, servers, hosts)
    used = {(use.row, use.site): use.number for use in oracle.uses_of(plan)}
    sent: dict[Key, list[int]] = {}
    for at, row in enumerate(table):
        own = least(ways(service, row), beside)
        if len(own) > 1:
            key = (row[0].encode(), tuple(way.server for way in own))
            before = sent.get(key, [0] * len(own))
            sent[key] = [number + used.get((at, way.site), 0) for number, way in zip(before, own)]
    return text_of(numbers_of(plan, "cost")[0][0], servers, hosts, sent)


def of_shortage(service: oracle.Service, table: Sequence[oracle.Row], shortage: bytes) -> bytes:
    """The certificate by prices of a shortage of a table: its servers are those that the rows of the short set may use,
    and they take what is printed there. Further rows may be able to use only these."""
    reached = {way.server for (row,) in numbers_of(shortage, "row") for way in ways(service, table[row])}
    demand = sum(row[2] for row in table if all(way.server in reached for way in ways(service, row)))
    servers = [f"server {server}" for server in sorted(reached)]
    return written("SHORT", *servers, f"demand {demand}", f"capacity {numbers_of(shortage, 'capacity')[0][0]}")
