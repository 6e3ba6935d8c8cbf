#!/usr/bin/env python3
"""Measures whole runs of `hsplan-stream plan` over logs of many rows, and LEMON's network simplex on the same networks.

    tools/measure/price_plans.py [--program FILE] [--folder FOLDER] [--cases NAME,..] [--lemon NAME,..]

Each row is put at a random site with its count, and a server takes what is put there, times the case's factor. So there
is a plan, and where the factor is near 1 it is hard to find. Counts are 1 to 1,000, or of a heavy tail: one row in N
has a count of N. `check` has to say yes to each certificate, and all costs have to be the same. Seconds are those of a
processor. The files of a case are kept where --folder names a folder.
"""

import argparse
import os
import random
import sys
import tempfile
from collections.abc import Iterator
from pathlib import Path
from typing import NamedTuple

sys.path.insert(0, str(Path(__file__).resolve().parents[1]))

from lib import instances, lemon, oracle, programs
from lib.price_cases import Case as Sites
from lib.price_cases import service_of

FILES = "--settings settings.toml --costs costs.csv --capacity capacity.csv --log log.csv"
GREATEST_CAPACITY = 1_000_000_000


class Case(NamedTuple):
    """So many rows, at sites that are drawn, with capacities that are the factor times what is put at the servers."""

    rows: int
    sites: Sites
    factor: float
    has_tail: bool = False
    hosts: int = 0


LARGE, SMALL = Sites(32, 1024, 32, 32, 64, 1000, 0), Sites(12, 59, 2, 8, 10, 1000, 0)
CASES = {
    "100k": Case(100_000, LARGE, 1.05),
    "1m-roomy": Case(1_000_000, LARGE, 1.2),
    "1m-tight": Case(1_000_000, LARGE, 1.01),
    "1m-tail": Case(1_000_000, LARGE, 1.01, has_tail=True),
    "1m-hosts": Case(1_000_000, LARGE, 1.05, hosts=256),
    "8m": Case(8_064_000, SMALL, 1.05),
}


class Row(NamedTuple):
    """A row, how many queries it asks for, and the number of its server at each site."""

    region: str
    handle: str
    asked: int
    servers: list[int]


class Drawn:
    """A case's service, and its rows, which are the same each time."""

    def __init__(self, case: Case) -> None:
        self.case, self.service = case, service_of(case.sites)
        self.sizes = [len(site.servers) for site in self.service.sites]
        self.firsts = [sum(self.sizes[:at]) for at in range(len(self.sizes))]
        self.hosts = [at % case.hosts if case.hosts else None for at in range(sum(self.sizes))]

    def count(self, draw: random.Random) -> int:
        return min(int(1 / (1 - draw.random())), 1_000_000) if self.case.has_tail else draw.randint(1, 1000)

    def rows(self) -> Iterator[Row]:
        draw = random.Random(7)
        for at in range(self.case.rows):
            handle = f"20.500.{at % 1000}/object-{at}"
            digests = [oracle.hash_of(option, handle) for option in range(3)]
            servers = [
                first + digests[site.option] % size
                for first, size, site in zip(self.firsts, self.sizes, self.service.sites)
            ]
            yield Row(f"region-{draw.randrange(self.case.sites.regions)}", handle, self.count(draw), servers)


def with_room(loads: list[int], factor: float) -> list[int]:
    return [min(int(load * factor) + 1, GREATEST_CAPACITY) for load in loads]


def write_log(drawn: Drawn, folder: str) -> tuple[list[int], list[int]]:
    """Writes the log. Returns what is put at each server, and at each host."""
    draw, loads, on = random.Random(8), [0] * sum(drawn.sizes), [0] * drawn.case.hosts
    with open(os.path.join(folder, "log.csv"), "w", encoding="utf-8") as log:
        log.write("region,handle,count\n")
        for row in drawn.rows():
            log.write(f"{row.region},{row.handle},{row.asked}\n")
            server = row.servers[draw.randrange(len(row.servers))]
            loads[server] += row.asked
            host = drawn.hosts[server]
            if host is not None:
                on[host] += row.asked
    return loads, on


def settings_of(drawn: Drawn, limits: list[int]) -> list[str]:
    """The sites, whose servers stand on the hosts, and the hosts with their limits."""
    lines = []
    for site, first, size in zip(drawn.service.sites, drawn.firsts, drawn.sizes):
        own = [host + 1 if host is not None else 0 for host in drawn.hosts[first : first + size]]
        lines.append(f'[[site]]\nname = "{site.name}"\nrecord = "{lemon.record(site.option, own)}"')
    return lines + [f'[[host]]\naddress = "{at + 1:032x}"\nlimit = {limit}' for at, limit in enumerate(limits)]


def make(drawn: Drawn, folder: str) -> None:
    if os.path.exists(os.path.join(folder, "capacity.csv")):
        return
    os.makedirs(folder, exist_ok=True)
    loads, on = write_log(drawn, folder)
    factor = drawn.case.factor
    instances.write(folder, "settings.toml", settings_of(drawn, with_room(on, (1 + factor) / 2)))
    costs = [f"{region},{site},{cost}" for (region, site), cost in drawn.service.costs.items()]
    instances.write(folder, "costs.csv", ["region,site,cost", *costs])
    places = [(site.name, at) for site, size in zip(drawn.service.sites, drawn.sizes) for at in range(size)]
    capacities = [f"{name},{at},{room}" for (name, at), room in zip(places, with_room(loads, factor))]
    instances.write(folder, "capacity.csv", ["site,server_id,capacity", *capacities])


def network(drawn: Drawn, folder: str) -> str:
    """A file of the network of all rows and arcs in numbers."""
    costs = drawn.service.costs
    with open(os.path.join(folder, "capacity.csv"), encoding="utf-8") as table:
        capacities = [int(line.split(",")[2]) for line in table.readlines()[1:]]
    rows = list(drawn.rows())
    names = [site.name for site in drawn.service.sites]
    arcs = (
        f"{at} {server} {costs[row.region, name]}"
        for at, row in enumerate(rows)
        for name, server in zip(names, row.servers)
    )
    return lemon.network(folder, [row.asked for row in rows], capacities, arcs, len(rows) * len(names))


def run(words: list[str], folder: str, out: str) -> instances.Spent:
    return instances.spent_by(words, os.path.join(folder, out), folder)


def measure(name: str, folder: str, program: str, peer: str) -> bool:
    """Prints the figures of a case. Returns whether its certificate is right."""
    drawn = Drawn(CASES[name])
    make(drawn, folder)
    _, seconds, memory, _ = run([program, "plan", *FILES.split()], folder, "own.prices")
    run([program, "check", *FILES.split(), "--prices", "own.prices"], folder, "verdict")
    path = os.path.join(folder, "own.prices")
    with open(os.path.join(folder, "verdict"), encoding="utf-8") as file:
        verdict = file.read().strip()
    with open(path, encoding="utf-8") as file:
        classes = sum(line.startswith("class ") for line in file)
    size = os.path.getsize(path)
    print(f"{name}: {seconds:.2f} s, {memory:.0f} MB, {classes:,} classes, {size:,} octets, {verdict}", flush=True)
    if not peer:
        return verdict == "yes"
    numbers, cost, are_same = network(drawn, folder), lemon.cost_in(path), True
    for rule in lemon.RULES:
        _, whole, held, _ = run([peer, numbers, rule], folder, "other.txt")
        other = lemon.cost_in(os.path.join(folder, "other.txt"))
        print(f"{name}: LEMON, {rule}, {whole:.2f} s, {held:.0f} MB, costs {cost} and {other}", flush=True)
        are_same = are_same and cost == other
    return verdict == "yes" and are_same


def main() -> int:
    arguments = argparse.ArgumentParser(description="Measures plans of logs of many rows.")
    arguments.add_argument("--program", default=programs.tested("hsplan-stream"))
    arguments.add_argument("--folder", default="", help="where files are kept")
    arguments.add_argument("--cases", default=",".join(CASES))
    arguments.add_argument("--lemon", default="100k", help="the cases that LEMON solves, too")
    given = arguments.parse_args()
    if programs.is_absent(given.program):
        return 1
    with tempfile.TemporaryDirectory() as room:
        folder = os.path.abspath(given.folder or room)
        solved = given.lemon.split(",") if given.lemon else []
        peer = lemon.peer_in(room) if solved else ""
        program = os.path.abspath(given.program)
        right = [
            measure(name, os.path.join(folder, name), program, peer if name in solved else "")
            for name in given.cases.split(",")
        ]
    return 0 if all(right) else 1


if __name__ == "__main__":
    sys.exit(main())
