"""Reports of valid certificates by prices, computed here by the definitions in the specs of hsp_price_report."""

from collections.abc import Sequence

from lib import price_verdicts, prices
from lib.oracle import Row, Service
from lib.price_verdicts import Bounds, Claim

KINDS = ("load", "region")


def _line(widths: Sequence[int], numbers: Sequence[int], name: str) -> str:
    return "".join(f"{number:>{width}} " for width, number in zip(widths, numbers)) + name


def paid(service: Service, rows: Sequence[Row], claim: Claim) -> int:
    """What the rows pay by the prices, each of its queries at one of its least servers."""
    beside = prices.extras(service, claim.servers, claim.hosts)
    ways = [(row[2], prices.ways(service, row)) for row in rows]
    return sum(count * min((way.cost + beside[way.server] for way in own), default=0) for count, own in ways)


def of_loads(service: Service, bounds: Bounds, rows: Sequence[Row], claim: Claim) -> str:
    """What each server takes, and the bound."""
    loads = price_verdicts.brought(service, rows, claim).loads
    price_verdicts.of_classes(service, claim, loads)
    lines = ["place     server       load   capacity         price site"]
    named = [(place, own, site.name) for site in service.sites for place, own in enumerate(site.servers)]
    for (place, own, name), *numbers in zip(named, loads, bounds.capacities, claim.servers):
        lines.append(_line((5, 10, 10, 10, 13), [place, own, *numbers], name))
    full = [*zip(bounds.capacities, claim.servers), *zip(bounds.limits, claim.hosts)]
    worth = sum(bound * price for bound, price in full)
    lines.append(f"bound {paid(service, rows, claim)} - {worth} = {claim.sums[b'cost']}")
    return "".join(f"{line}\n" for line in lines)


def of_regions(service: Service, rows: Sequence[Row], claim: Claim) -> str:
    """What each region asks for and costs, in the order in which the rows first name them, and the sums."""
    lines = ["    demand             cost region"]
    for region in dict.fromkeys(row[0] for row in rows):
        own = [row for row in rows if row[0] == region]
        classes = [it for it in claim.classes if it.region == region.encode()]
        part = Claim()
        part.servers, part.hosts, part.classes = claim.servers, claim.hosts, classes
        found = price_verdicts.brought(service, own, part)
        cost = found.cost + price_verdicts.of_classes(service, part, found.loads)
        lines.append(_line((10, 16), (sum(row[2] for row in own), cost), region))
    lines.append(f"total {sum(row[2] for row in rows)} {claim.sums[b'cost']}")
    return "".join(f"{line}\n" for line in lines)


def text_of(kind: str, service: Service, bounds: Bounds, rows: Sequence[Row], claim: Claim) -> bytes:
    is_load = kind == "load"
    return (of_loads(service, bounds, rows, claim) if is_load else of_regions(service, rows, claim)).encode()
