"""Services, and what `hsplan-stream` has to print about their logs, computed here by the definitions.

The responsible server of a handle (RFC 3652, section 3.1.3) is computed by Python's own MD5. Rows of one region are
of one kind where their handles have the same places at the sites where the region has a cost.
"""

import functools
import hashlib
import os
import random
from collections.abc import Iterable, Iterator, Mapping, Sequence
from typing import NamedTuple

INPUTS = "--settings settings.toml --demand demand.csv --costs costs.csv --capacity capacity.csv"
GREATEST_COUNT = 1_000_000
FIRST_INDEX = 10

Row = tuple[str, str, int]
Kind = tuple[str, tuple[int, ...]]


class Use(NamedTuple):
    """So many queries of a row that a plan sends to a site."""

    row: int
    site: int
    number: int


@functools.lru_cache(maxsize=1 << 16)
def hash_of(option: int, handle: str) -> int:
    """The number by which a hash option finds the responsible server: its remainder by their count is the place."""
    authority, local = handle.split("/", 1)
    octets = (authority, local, handle)[option].encode()
    upper = bytes(it - 32 if 97 <= it <= 122 else it for it in octets)
    return abs(int.from_bytes(hashlib.md5(upper).digest()[12:], "big", signed=True))


def field_of(value: object) -> str:
    """A field, quoted where it has a comma, a quote or the end of a line: Python's csv lets a carriage return stand."""
    text = str(value)
    return '"' + text.replace('"', '""') + '"' if any(mark in text for mark in ',"\r\n') else text


def csv_of(header: str, rows: Iterable[Iterable[object]]) -> bytes:
    return "".join(f"{line}\n" for line in (header, *(",".join(map(field_of, row)) for row in rows))).encode()


class Site(NamedTuple):
    """A site by its name, its hash option, and the identifiers of its servers."""

    name: str
    option: int
    servers: tuple[int, ...]

    def place(self, handle: str) -> int:
        return hash_of(self.option, handle) % len(self.servers)

    def record(self) -> bytes:
        """The record (RFC 3651, section 3.2), without a filter, attributes, keys and interfaces."""
        head = bytes.fromhex(f"00010200000100{self.option:02x}") + bytes(8) + len(self.servers).to_bytes(4, "big")
        hosts = (address.to_bytes(16, "big") for address in range(1, 1 + len(self.servers)))
        return head + b"".join(it.to_bytes(4, "big") + host + bytes(8) for it, host in zip(self.servers, hosts))

    def value(self, index: int) -> bytes:
        """The value of this index whose data is the record."""
        data, numbers = self.record(), [number.to_bytes(4, "big") for number in (index, 7)]
        return numbers[0] + numbers[1] + b"HS_SITE" + len(data).to_bytes(4, "big") + data + bytes(18)


class Service(NamedTuple):
    """Sites, and the costs of regions to sites by their names; how many hosts have a limit, all beyond reach."""

    sites: tuple[Site, ...]
    costs: Mapping[tuple[str, str], int]
    has_values: bool = False
    hosts: int = 0

    def sites_of(self, region: str) -> list[int]:
        """The numbers of the sites where the region has a cost."""
        return [at for at, site in enumerate(self.sites) if (region, site.name) in self.costs]

    def kind(self, region: str, handle: str) -> Kind:
        return region, tuple(self.sites[at].place(handle) for at in self.sites_of(region))

    def table(self, rows: Iterable[Row]) -> list[Row]:
        """The table of the kinds of rows: the name of the first row of each, and the sum of the counts."""
        named: dict[Kind, tuple[str, str]] = {}
        sums: dict[Kind, int] = {}
        for region, handle, count in rows:
            kind = self.kind(region, handle)
            named.setdefault(kind, (region, handle))
            sums[kind] = sums.get(kind, 0) + count
        return [(*named[kind], number) for kind, number in sums.items()]

    def places(self, handle: str) -> Iterator[tuple[str, str, int, int]]:
        for site in self.sites:
            yield handle, site.name, site.place(handle), site.servers[site.place(handle)]

    def settings(self, limits: Sequence[int] = ()) -> bytes:
        """The settings, in which hosts have these limits, or ones beyond reach."""
        lines = []
        for at, site in enumerate(self.sites):
            source = f"index = {FIRST_INDEX + at}" if self.has_values else f'record = "{site.record().hex()}"'
            lines.append(f'[[site]]\nname = "{site.name}"\n{source}\n')
        given = limits or [1_000_000_000_000] * self.hosts
        lines += [f'[[host]]\naddress = "{at + 1:032x}"\nlimit = {limit}\n' for at, limit in enumerate(given)]
        return "".join(lines).encode()

    def files(self, demand: Iterable[Row] = (), capacity: int = 1_000_000_000) -> dict[str, bytes]:
        costs = [(region, site, cost) for (region, site), cost in self.costs.items()]
        servers = [(site.name, own, capacity) for site in self.sites for own in site.servers]
        values = [site.value(FIRST_INDEX + at) for at, site in enumerate(self.sites)]
        return {
            "settings.toml": self.settings(),
            "demand.csv": csv_of("region,handle,count", demand),
            "costs.csv": csv_of("region,site,cost", costs),
            "capacity.csv": csv_of("site,server_id,capacity", servers),
            **({"values": len(values).to_bytes(4, "big") + b"".join(values)} if self.has_values else {}),
        }


def uses_of(plan: bytes) -> list[Use]:
    lines = (line.split() for line in plan.decode().splitlines())
    return [Use(*map(int, words[1:])) for words in lines if words[:1] == ["use"]]


def sums_of(answers: Iterable[str]) -> str:
    """The line of the sums of the answers of `hsplan dispatch`."""
    first = [answer.split()[0] for answer in answers]
    return " ".join(f"{word} {first.count(word)}" for word in ("assigned", "spent", "unknown")) + "\n"


# ---- the service of three sites that the cases and the checks share

REGIONS = ("eu", "us", "asia")
_SITES = (Site("alpha", 2, (11, 12)), Site("beta", 1, (21, 22, 23)), Site("gamma", 0, (31, 32, 33, 34)))
_COSTS = {("eu", "alpha"): 1, ("eu", "beta"): 5, ("us", "beta"): 2, ("us", "gamma"): 3}
THREE = Service(_SITES, {**_COSTS, **{("asia", site.name): 7 for site in _SITES}})


def put_files(folder: str, files: Mapping[str, bytes]) -> None:
    for name, octets in files.items():
        with open(os.path.join(folder, name), "wb") as file:
            file.write(octets)


def put_cases(folder: str) -> None:
    """Writes the files that the cases of checks/hsplan-stream share, but for the plan."""
    demand = [(region, f"10.1/h{at}", 5) for region in REGIONS for at in range(40)]
    first = THREE.sites[0]
    more = {
        "log.csv": csv_of("region,handle", (row[:2] for row in demand)),
        "indexed.toml": f'[[site]]\nname = "{first.name}"\nindex = 1\n'.encode(),
        "values": (1).to_bytes(4, "big") + first.value(1),
        "cut.txt": b"HSPLAN 1\n",
    }
    put_files(folder, {**THREE.files(demand), **more})


def entries(draw: random.Random, number: int, handles: int = 400) -> list[tuple[str, str]]:
    """Entries of the regions, some of them for handles that CSV has to quote."""
    odd = ('10.7/a,"b"', "20.500.1234/film-5", "10/é", "10/two\rlines", "10/" + "x" * 300)
    return [
        (
            draw.choice(REGIONS),
            draw.choice(odd) if draw.random() < 0.02 else f"10.{draw.randrange(7)}/h{draw.randrange(handles)}",
        )
        for _ in range(number)
    ]


def many_rows(number: int) -> Iterator[bytes]:
    """A log of so many rows, each with a handle of its own."""
    yield b"region,handle\n"
    for first in range(0, number, 10_000):
        yield b"".join(
            b"%s,10.%d/item%d\n" % (REGIONS[at % 3].encode(), at % 11, at)
            for at in range(first, min(first + 10_000, number))
        )
