"""The region of each network, as a map that HAProxy looks through for the longest prefix."""

import ipaddress
from collections.abc import Iterable, Iterator
from dataclasses import dataclass

from hsp.base.programs import Programs
from hsp.intake.regions import networks_in

# What stands for no region: no name is so.
NOWHERE = "|"
# The first address and the prefix of IPv4 within IPv6.
MAPPED, MAPPED_PREFIX = 0xFFFF << 32, 96


@dataclass(frozen=True)
class Map:
    """The lines of a map, the regions that it names, and how many networks its table has."""

    lines: list[str]
    regions: list[str]
    number: int


def _written(family: int, first: int, prefix: int) -> Iterator[str]:
    """A network as HAProxy reads it. That of IPv4 stands within IPv6 too, where a socket of both families has it."""
    if family == 4:
        yield str(ipaddress.IPv4Network((first, prefix)))
        first, prefix = MAPPED | first, MAPPED_PREFIX + prefix
    yield str(ipaddress.IPv6Network((first, prefix)))


def _lines(networks: Iterable[tuple[int, int, int, str]], rest: str) -> list[str]:
    """The lines of networks by family, first address, prefix and value. Each family has a line for all addresses, so
    that none is sought in the other."""
    values = {text: rest for family in (4, 6) for text in _written(family, 0, 0)}
    values |= {text: value for *network, value in networks for text in _written(*network)}
    return [f"{network} {value}" for network, value in values.items()]


def trusted_lines(networks: Iterable[str]) -> list[str]:
    """The map of networks, 1 for those of trusted proxies and 0 for all others."""
    parsed = [ipaddress.ip_network(text) for text in networks]
    return _lines(((own.version, int(own.network_address), own.prefixlen, "1") for own in parsed), "0")


def map_of(path: str, elsewhere: str, programs: Programs) -> Map:
    table = networks_in(path, elsewhere or None, programs)
    networks = [(family, *key, region.decode()) for family, own in table.found.items() for key, region in own.items()]
    named = dict.fromkeys([*table.names, *([elsewhere] if elsewhere else [])])
    return Map(_lines(networks, elsewhere or NOWHERE), list(named), len(networks))
