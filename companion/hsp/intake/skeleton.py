"""The files of a new service: empty ones that say what goes into them, or those of a small example."""

import ipaddress
from collections.abc import Sequence
from importlib.resources import files

from hsp.base.grammar import HEADERS
from hsp.base.programs import table_text
from hsp.intake.records import Interface, ServerRecord, SiteRecord
from hsp.plans.titles import TITLES
from hsp.plans.service import NAMES

README = "README.txt"
PORT, BOTH = 2641, 3

# How the text begins that goes with the example.
EXAMPLE = """An example for hsplan, of which hsp plan DIR makes a plan at once. At a terminal in this folder, hsp by itself
says which step comes next. The files of a service of your own are filled in, in this order.

"""

# Sites, each with the addresses of its servers and how many queries an hour each of them takes.
SITES = {"north": {"192.0.2.1": 900, "192.0.2.2": 700}, "south": {"198.51.100.1": 1600}}
COSTS = {
    "coast": {"north": 10, "south": 60},
    "hills": {"north": 25, "south": 30},
    "islands": {"north": 90, "south": 15},
}
ASKED = {"coast": (420, 310, 240, 60), "hills": (180, 150, 90, 40), "islands": (120, 200, 60, 30)}
HANDLES = ("20.500.1234/atlas", "20.500.1234/herbarium", "20.500.1234/letters", "20.500.1234/maps")


def _text(name: str) -> str:
    return files("hsp").joinpath("templates", "new", name).read_text(encoding="utf-8")


def empty() -> dict[str, str]:
    """The files of a service that has yet to be filled in."""
    tables = {NAMES[role]: f"{header}\n" for role, header in HEADERS.items()}
    return {NAMES["settings"]: _text(NAMES["settings"]), **tables, TITLES: _text(TITLES), README: _text(README)}


def _record(addresses: list[str]) -> bytes:
    """The record of a site that hashes the whole handle, with servers 1, 2 and so on."""
    interfaces = (Interface(BOTH, 0, PORT), Interface(BOTH, 1, PORT))
    octets = [ipaddress.ip_address(address).packed.rjust(16, b"\0") for address in addresses]
    servers = tuple(ServerRecord(at, address, b"", interfaces) for at, address in enumerate(octets, 1))
    return SiteRecord(1, (2, 11), 1, 0, 2, b"", (), servers).octets()


def example() -> dict[str, str]:
    """The files of a small service that plans at once."""
    blocks = [
        f'[[site]]\n# {", ".join(room)}\nname = "{name}"\nrecord = "{_record(list(room)).hex()}"\n'
        for name, room in SITES.items()
    ]
    demand = [(region, handle, count) for region, counts in ASKED.items() for handle, count in zip(HANDLES, counts)]
    costs = [(region, site, cost) for region, prices in COSTS.items() for site, cost in prices.items()]
    rooms = [(name, at, room) for name, servers in SITES.items() for at, room in enumerate(servers.values(), 1)]
    tables: dict[str, Sequence[tuple[object, ...]]] = {"demand": demand, "costs": costs, "capacity": rooms}
    titles = 'title = "An example"\ncost = "ms"\ntime = "the busiest hour"\n'
    return {
        NAMES["settings"]: _text(NAMES["settings"]) + "\n" + "\n".join(blocks),
        **{NAMES[role]: table_text(HEADERS[role], rows) for role, rows in tables.items()},
        TITLES: titles,
        README: EXAMPLE + _text(README).partition("\n\n")[2],
    }
