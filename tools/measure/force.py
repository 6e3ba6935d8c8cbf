#!/usr/bin/env python3
"""Measures what a plan of examples/twelve-sites does once it is in force: where its answers end, and what each server
gets, as planned and where demand is other than planned.

    tools/measure/force.py [--seed N]

The queries of the demand come in random order. `hsplan dispatch` answers each. A query that is answered `spent` is
counted for the cheapest site of its region, which is what a resolver does that nobody steers. Demand other than planned is
each row's count times a log-normal factor of mean 1. The script prints two tables in Markdown.
"""

import argparse
import csv
import math
import os
import random
import subprocess
import sys
import tempfile
from collections import Counter
from dataclasses import dataclass
from pathlib import Path

sys.path.insert(0, str(Path(__file__).resolve().parents[1]))

from lib import examples, programs


Row = tuple[str, str]
Server = tuple[str, str]
FILES = ("settings.toml", "demand.csv", "costs.csv", "capacity.csv")
SPREAD = 0.3


def rows(path: str) -> list[list[str]]:
    with open(path, encoding="utf-8", newline="") as file:
        return list(csv.reader(file))[1:]


@dataclass
class Service:
    """The example, its plan, and which server is responsible for a handle at a site."""

    folder: str
    demand: dict[Row, int]
    capacity: dict[Server, int]
    cheapest: dict[str, str]
    places: dict[tuple[str, str], str]

    def words(self) -> list[str]:
        return [it for name in FILES for it in ("--" + name.split(".")[0], os.path.join(self.folder, name))]


def printed(name: str, words: list[str]) -> str:
    return subprocess.run([programs.tested(name), *words], capture_output=True, text=True, check=True).stdout


def service_in(folder: str) -> Service:
    examples.write(folder, examples.twelve_sites())
    demand = {(region, handle): int(count) for region, handle, count in rows(f"{folder}/demand.csv")}
    capacity = {(site, number): int(room) for site, number, room in rows(f"{folder}/capacity.csv")}
    costs: dict[str, list[tuple[int, str]]] = {}
    for region, site, cost in rows(f"{folder}/costs.csv"):
        costs.setdefault(region, []).append((int(cost), site))
    with open(f"{folder}/handles.csv", "w", encoding="utf-8", newline="") as file:
        csv.writer(file, lineterminator="\n").writerows([["handle"], *([it] for it in {it for _, it in demand})])
    words = ["places", "--settings", f"{folder}/settings.toml", "--log", f"{folder}/handles.csv"]
    lines = list(csv.reader(printed("hsplan-stream", words).splitlines()))[1:]
    places = {(handle, site): number for handle, site, _, number in lines}
    found = Service(folder, demand, capacity, {it: min(own)[1] for it, own in costs.items()}, places)
    with open(f"{folder}/plan.txt", "w", encoding="utf-8") as file:
        file.write(printed("hsplan", ["plan", *found.words()]))
    return found


def answers(service: Service, queries: list[Row], fronts: int = 0) -> list[list[str]]:
    """The words of the answers to queries, by the plan or by so many fronts, which take them in turn."""
    log = f"{service.folder}/log.csv"
    lines: list[tuple[object, ...]] = [("region", "handle"), *queries]
    if fronts:
        lines = [("front", *lines[0]), *((at % fronts, *row) for at, row in enumerate(queries))]
    with open(log, "w", encoding="utf-8", newline="") as file:
        csv.writer(file, lineterminator="\n").writerows(lines)
    words = ["dispatch", *service.words(), "--plan", f"{service.folder}/plan.txt", "--log", log]
    words += ["--fronts", str(fronts)] if fronts else []
    return [line.split() for line in printed("hsplan", words).splitlines()]


def in_turn(service: Service, queries: list[Row], fronts: int) -> str:
    """How many of the queries, taken in turn by so many fronts, are answered `spent`."""
    spent = sum(it[0] == "spent" for it in answers(service, queries, fronts))
    return f"{100 * spent / len(queries):.1f}%"


def line_of(service: Service, name: str, queries: list[Row]) -> str:
    """What is answered `spent`, and what the servers get if each of these asks its cheapest site."""
    loads: Counter[Server] = Counter()
    spent = 0
    for (region, handle), words in zip(queries, answers(service, queries)):
        if words[0] == "assigned":
            loads[words[1], words[3]] += 1
        else:
            spent += 1
            site = service.cheapest[region]
            loads[site, service.places[handle, site]] += 1
    fullest = max(100 * load / service.capacity[it] for it, load in loads.items())
    many = sum(max(0, load - service.capacity[it]) for it, load in loads.items())
    return f"| {name} | {len(queries):,} | {100 * spent / len(queries):.1f}% | {fullest:.1f}% | {many:,} |"


def drawn(draw: random.Random, demand: dict[Row, int], spread: float, more: float = 1.0) -> list[Row]:
    """The queries of a demand in random order, each row's count times a factor, whose mean is `more`."""
    found = []
    for row, count in demand.items():
        found += [row] * round(count * more * math.exp(draw.gauss(-spread * spread / 2, spread)))
    draw.shuffle(found)
    return found


def main() -> int:
    arguments = argparse.ArgumentParser(description="Measures what a plan does once it is in force.")
    arguments.add_argument("--seed", type=int, default=1, help="of the order and of the factors")
    draw = random.Random(arguments.parse_args().seed)
    if programs.is_absent(*map(programs.tested, programs.PROGRAMS)):
        return 1
    with tempfile.TemporaryDirectory() as folder:
        service = service_in(folder)
        queries = drawn(draw, service.demand, 0)
        print("| Demand | Queries | `spent` | Fullest server | Queries too many |\n|---|---|---|---|---|")
        print(line_of(service, "as planned", queries))
        print(line_of(service, f"each row times a factor of {SPREAD}", drawn(draw, service.demand, SPREAD)))
        print(line_of(service, "the same and 5% more", drawn(draw, service.demand, SPREAD, 1.05)))
        print("\n| Fronts | `spent` |\n|---|---|")
        for fronts in (1, 2, 8, 64):
            print(f"| {fronts} | {in_turn(service, queries, fronts)} |")
    return 0


if __name__ == "__main__":
    programs.ended(main)
