"""What tests share: small services as texts, and a random one with the queries of its log."""

import csv
import io
import ipaddress
import random
from dataclasses import dataclass
from pathlib import Path

from hsp.intake.records import Interface, ServerRecord, SiteRecord
from hsp.intake.skeleton import BOTH
from hsp.base.programs import Programs
from hsp.plans.service import Service, read_service

NETWORKS = "network,region\n10.1.0.0/16,eu\n10.2.0.0/16,us\n10.3.0.0/16,asia\n"
CLIENTS = {"10.1.0.1": "eu", "10.2.0.1": "us", "10.3.0.1": "asia"}


@dataclass(frozen=True)
class Place:
    """A site of a test: what it hashes, and the address of each server."""

    name: str
    option: int
    addresses: list[str]

    def block(self) -> str:
        octets = [ipaddress.ip_address(it).packed.rjust(16, b"\0") for it in self.addresses]
        # Each server has a port of its own, whatever other sites are at its address.
        first = 64 * int.from_bytes(self.name.encode()[-3:], "big")
        servers = tuple(ServerRecord(at, it, b"", (Interface(BOTH, 0, first + at),)) for at, it in enumerate(octets, 1))
        record = SiteRecord(1, (2, 11), 1, 0, self.option, b"", (), servers).octets().hex()
        return f'[[site]]\nname = "{self.name}"\nrecord = "{record}"\n'


def host(address: str, limit: int) -> str:
    return f'[[host]]\naddress = "{ipaddress.ip_address(address).packed.rjust(16, bytes(1)).hex()}"\nlimit = {limit}\n'


def written(folder: Path, **texts: str) -> Path:
    """A folder with settings, and tables without their headers."""
    folder.mkdir(exist_ok=True)
    heads = {"demand": "region,handle,count", "costs": "region,site,cost", "capacity": "site,server_id,capacity"}
    for name, text in texts.items():
        path = folder / {"settings": "settings.toml", "titles": "hsp.toml"}.get(name, f"{name}.csv")
        path.write_text(f"{heads[name]}\n{text}" if name in heads else text)
    return folder


def rows(path: Path) -> list[list[str]]:
    return list(csv.reader(path.read_text().splitlines()))[1:]


def read(folder: Path, **given: str) -> tuple[Service, Programs]:
    programs = Programs()
    return read_service(str(folder), programs, dict(given)), programs


def table_of(text: str) -> list[dict[str, str]]:
    """The rows of a table by its header."""
    return list(csv.DictReader(io.StringIO(text, newline="")))


TWO_IN_ONE = Place("north", 2, ["192.0.2.1", "192.0.2.1"])
OTHER = Place("south", 2, ["198.51.100.1"])


def one_machine(folder: Path) -> Path:
    """10,000 queries that all prefer a machine with two servers, of the limit 8,000."""
    handles = "".join(f"eu,20.500.1/item-{number},1000\n" for number in range(10))
    return written(
        folder,
        settings=TWO_IN_ONE.block() + OTHER.block() + host("192.0.2.1", 8_000),
        demand=handles,
        costs="eu,north,1\neu,south,100\n",
        capacity="north,1,9999\nnorth,2,9999\nsouth,1,9999\n",
        titles='title = "One machine"\n',
    )


@dataclass
class Random:
    """A service of random sites, and the queries of its log."""

    folder: Path
    log: Path
    hosts: dict[str, int]
    sites: list[Place]


def random_service(tmp_path: Path, seed: int, handles: int = 400, share: float = 0.75) -> Random:
    """Sites of a few servers, of which the first two of each stand on one machine with a limit."""
    draw = random.Random(seed)
    sites = [
        Place(f"s{at}", draw.choice((0, 1, 2, 2)), [f"192.0.{at}.{draw.choice((1, 2, 3, 4))}" for _ in range(size)])
        for at, size in enumerate(draw.choices((2, 3, 4), k=3))
    ]
    names = [f"20.{draw.randrange(40)}/item-{number}" for number in range(handles)]
    ranks = [min(int(draw.paretovariate(0.6)), handles) - 1 for _ in range(20_000)]
    asked = [(draw.choice(list(CLIENTS)), names[it]) for it in ranks]
    log = tmp_path / f"log-{seed}.csv"
    log.write_text("client,handle\n" + "".join(f"{client},{handle}\n" for client, handle in asked))
    servers = [(it, at) for it in sites for at in range(1, len(it.addresses) + 1)]
    each = {it.name: 20_000 * share / len(it.addresses) for it in sites}
    room = [(it.name, at, int(each[it.name] * draw.uniform(0.8, 1.6)) + draw.randrange(99)) for it, at in servers]
    hosts = {it.addresses[0]: int(20_000 * share * draw.uniform(0.4, 0.9)) + 7 for it in sites}
    costs = [(region, it.name, draw.randint(1, 200)) for region in CLIENTS.values() for it in sites]
    folder = written(
        tmp_path / f"service-{seed}",
        settings="".join(it.block() for it in sites) + "".join(host(*it) for it in hosts.items()),
        costs="".join(f"{a},{b},{c}\n" for a, b, c in costs),
        capacity="".join(f"{a},{b},{c}\n" for a, b, c in room),
    )
    (tmp_path / "networks.csv").write_text(NETWORKS)
    return Random(folder, log, hosts, sites)
