#!/usr/bin/env python3
"""Measures whole runs of `hsplan plan` beside LEMON's network simplex on the same networks, by turns.

    tools/measure/peers.py [--parts] [--turns N] [--program FILE] [FACTOR..]

It measures processor seconds of whole runs: hsplan reads its files, hashes, solves and prints the certificate; LEMON
reads the network as numbers, solves it by each of two pivot rules, and prints flows and potentials. All costs have to
be the same. Capacities are the factor times the demand. It needs a C++ compiler and LEMON (Debian's liblemon-dev).

With `--parts` it needs neither, and measures `hsplan check` of a plan, and of three texts that `check` refuses, each a
step later: after reading, once all arcs are listed, and once the flows are added up.
"""

import argparse
import concurrent.futures
import os
import random
import statistics
import subprocess
import sys
import tempfile
from pathlib import Path
from typing import NamedTuple

sys.path.insert(0, str(Path(__file__).resolve().parents[1]))

from lib import instances, lemon, programs


SITES, REGIONS, ROWS = 32, 64, 8192
FACTORS = [2.0, 1.2, 1.05, 1.01]


class Instance:
    """Drawn inputs, as files and as a network of numbers."""

    def __init__(self, folder: str, factor: float) -> None:
        draw = random.Random(1)
        self.sites = list(range(16, 16 + SITES))
        self.counts = [draw.randint(1, 1_000_000) for _ in range(ROWS)]
        self.regions = [draw.randrange(REGIONS) for _ in range(ROWS)]
        self.costs = [[draw.randrange(1_000_001) for _ in range(SITES)] for _ in range(REGIONS)]
        weights = [draw.randint(1, 1000) for _ in range(sum(self.sites))]
        self.capacities = [min(int(factor * sum(self.counts) * it / sum(weights)), 1_000_000_000) for it in weights]
        self.words = self.written(folder)

    def handle(self, row: int) -> str:
        return f"20.500.12345/object-{row:06}"

    def written(self, folder: str) -> list[str]:
        """Writes the four files, and returns the options that name them."""
        servers, rows = iter(self.capacities), enumerate(zip(self.regions, self.counts))
        sites = enumerate(self.sites)
        records = [f'[[site]]\nname = "site-{at}"\nrecord = "{lemon.record(2, [0] * many)}"' for at, many in sites]
        demand = [f"region-{region},{self.handle(row)},{count}" for row, (region, count) in rows]
        pairs = [(region, site) for region in range(REGIONS) for site in range(SITES)]
        costs = [f"region-{region},site-{site},{self.costs[region][site]}" for region, site in pairs]
        places = [(site, place) for site, many in enumerate(self.sites) for place in range(many)]
        files = {
            "settings.toml": records,
            "demand.csv": ["region,handle,count", *demand],
            "costs.csv": ["region,site,cost", *costs],
            "capacity.csv": ["site,server_id,capacity", *(f"site-{at},{own},{next(servers)}" for at, own in places)],
        }
        return instances.put(folder, files)

    def network(self, program: str, folder: str) -> str:
        """A file of the network in numbers, with the servers that `hsplan locate` names for each handle."""
        firsts = [sum(self.sites[:site]) for site in range(SITES)]

        def places(row: int) -> list[int]:
            words = [program, "locate", *self.words[:2], self.handle(row)]
            return [
                int(line.split()[1])
                for line in subprocess.run(words, stdout=subprocess.PIPE, text=True, check=True).stdout.splitlines()
            ]

        with concurrent.futures.ThreadPoolExecutor() as pool:
            found = list(pool.map(places, range(ROWS)))
        arcs = [
            f"{row} {firsts[site] + found[row][site]} {self.costs[self.regions[row]][site]}"
            for row in range(ROWS)
            for site in range(SITES)
        ]
        return lemon.network(folder, self.counts, self.capacities, arcs, len(arcs))


def turn(folder: str, program: str, words: list[str], peer: list[str]) -> tuple[dict[str, float], set[str]]:
    """What a turn took by kind, and the costs that hsplan and LEMON state."""
    own, other, verdict = (os.path.join(folder, name) for name in ("own.txt", "other.txt", "verdict.txt"))
    took: dict[str, float] = {}
    costs: set[str] = set()
    _, took["plan"], took["memory"], _ = instances.spent_by([program, "plan", *words], own)
    costs.add(lemon.cost_in(own))
    for rule in lemon.RULES:
        _, took[rule], took["held"], solving = instances.spent_by([*peer, rule], other)
        took[f"{rule}, solving"] = float(solving)
        costs.add(lemon.cost_in(other))
    took["check"] = instances.spent_by([program, "check", *words, "--plan", own], verdict).seconds
    return took, costs


class Text(NamedTuple):
    """A text for `check`: the last that `check` does with it, what `check` says of it, and its lines."""

    last: str
    verdict: str
    lines: list[str]


def texts_of(plan: list[str]) -> list[Text]:
    """Three texts that `check` refuses, each a step later, and the plan, whose lines these are."""
    first = next(at for at, line in enumerate(plan) if line.startswith("use "))
    row, site, count = plan[first].split()[1:]
    more = f"use {row} {site} {int(count) + 1}"
    return [
        Text("reading", f"hsplan: certificate: BadLine line {len(plan)}", [*plan[:-1], "none"]),
        Text("arcs", "no 1 Shape", [*plan[:-2], plan[-1]]),
        Text("sums", "no 3 RowSum", [*plan[:first], more, *plan[first + 1 :]]),
        Text("conditions", "yes", plan),
    ]


def checked(folder: str, words: list[str], text: Text) -> float:
    """The seconds in which `check`, called by these words, says of a text what it has to say."""
    verdict = os.path.join(folder, "verdict.txt")
    _, seconds, _, reported = instances.spent_by(
        [*words, "--plan", instances.write(folder, "text.txt", text.lines)], verdict
    )
    said = Path(verdict).read_text(encoding="utf-8") + reported
    if said.strip() != text.verdict:
        sys.exit(f"check says {said.strip()}, and not {text.verdict}")
    return seconds


def parts(folder: str, chosen: argparse.Namespace, factor: float) -> None:
    """Prints what `check` takes of a plan and of the texts that it refuses, each in a row of the table."""
    instance, own = Instance(folder, factor), os.path.join(folder, "own.txt")
    instances.spent_by([chosen.program, "plan", *instance.words], own)
    texts = texts_of(Path(own).read_text(encoding="utf-8").splitlines())
    words = [chosen.program, "check", *instance.words]
    turns = [[checked(folder, words, text) for text in texts] for _ in range(chosen.turns)]
    took = dict(zip((text.last for text in texts), zip(*turns)))
    whole = statistics.median(took["conditions"])
    for last, seconds in took.items():
        middle = statistics.median(seconds)
        print(f"| {factor:.2f} | {last} | {min(seconds):.4f} | {middle:.4f} | {middle / whole:.2f} |", flush=True)


def arguments() -> argparse.Namespace:
    words = argparse.ArgumentParser(description="Measures hsplan beside LEMON, or the parts of its check.")
    words.add_argument("--turns", type=int, default=5)
    words.add_argument("--program", default=programs.tested("hsplan"))
    words.add_argument("--parts", action="store_true")
    words.add_argument("factors", type=float, nargs="*", default=FACTORS)
    return words.parse_args()


def beside_lemon(folder: str, chosen: argparse.Namespace) -> int:
    """Prints a row for each factor. Returns 1 where hsplan and LEMON state other costs, and otherwise 0."""
    heads = "Capacity over demand|Cost|`plan`|LEMON, blocks|LEMON, list|`plan` over the faster|LEMON, solving only"
    heads += "|Memory of `plan`, of LEMON|`check`"
    print(f"| {heads.replace('|', ' | ')} |\n|{'---|' * 9}")
    peer = lemon.peer_in(folder)
    for factor in chosen.factors:
        instance = Instance(folder, factor)
        words = [peer, instance.network(chosen.program, folder)]
        turns = [turn(folder, chosen.program, instance.words, words) for _ in range(chosen.turns)]
        costs: set[str] = set().union(*(stated for _, stated in turns))
        if len(costs) > 1:
            print(f"at factor {factor} the costs differ: {costs}", file=sys.stderr)
            return 1
        mid = {kind: statistics.median(took[kind] for took, _ in turns) for kind in turns[0][0]}
        print(
            f"| {factor:.2f} | {int(costs.pop()):,} | {mid['plan']:.3f} | {mid['block']:.3f} | {mid['list']:.3f} "
            f"| {mid['plan'] / min(mid[rule] for rule in lemon.RULES):.2f} "
            f"| {', '.join(format(mid[f'{rule}, solving'], '.3f') for rule in lemon.RULES)} "
            f"| {mid['memory']:.1f}, {mid['held']:.1f} MB | {mid['check']:.3f} |",
            flush=True,
        )
    return 0


def main() -> int:
    chosen = arguments()
    if programs.is_absent(chosen.program):
        return 1
    with tempfile.TemporaryDirectory() as folder:
        if not chosen.parts:
            return beside_lemon(folder, chosen)
        print("| Capacity over demand | `check` up to | Least | Middle | Of the whole |\n|---|---|---|---|---|")
        for factor in chosen.factors:
            parts(folder, chosen, factor)
    return 0


if __name__ == "__main__":
    sys.exit(main())
