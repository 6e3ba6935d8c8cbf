#!/usr/bin/env python3
"""Measures a day of examples/twelve-sites that is answered hour by hour by the plan of the hour before.

    tools/measure/day.py [--seed N] [--hours N] [--fronts 1,4,64] [--program FILE] [--hsplan FILE] [--model]

A row's count is that of the example times a curve of its region's local time (0.35 in the night, 1 at 15 h), times a
log-normal factor of mean 1 for each row and hour. All counts are scaled: before the factors are drawn, the busiest
hour asks for the part PEAK of what the example asks for. The queries of an hour come in random order, and fronts take
them in turn. Each hour is answered by `answer`. The certificate is made of a plan of the hour before, and `check` has to
say yes to it for that hour's demand. With --model the answers are those of tools/lib/price_answers.py.

A line of the table has the sums of the day. The fullest server is that of the worst hour. Queries above capacity are
added up over servers and hours. Costs are those of a query that has a server, beside those of a query by the best plan
of each hour itself. The last lines ask for three times the plan of the busiest hour.
"""

import argparse
import math
import os
import random
import subprocess
import sys
import tempfile
from collections import Counter
from collections.abc import Callable, Iterable, Sequence
from dataclasses import dataclass, field
from pathlib import Path

sys.path.insert(0, str(Path(__file__).resolve().parents[1]))

from lib import examples, oracle, price_answers, prices, programs
from lib.price_verdicts import Bounds

SPREAD, PEAK, NIGHT, NOON = 0.3, 1.0, 0.35, 15
INPUTS = "--settings settings.toml --costs costs.csv --capacity capacity.csv"
HEAD = (
    "| Fronts | Assigned | Diverted | `full` | Fullest server | Queries above capacity | Cost |\n"
    "|---|---|---|---|---|---|---|"
)
# Answers a log of these lines by the prices of the folder, as one of so many fronts.
Answering = Callable[[Sequence[str], int, int], list[str]]
# A server by its site and its identifier.
Server = tuple[str, str]


# ---- the service and its hours


@dataclass
class Scene:
    """The example in a folder, with the programs that answer there."""

    folder: str
    stream: str
    hsplan: str
    service: oracle.Service
    bounds: Bounds
    demand: list[oracle.Row]

    def run(self, program: str, words: str, given: bytes = b"") -> str:
        """What a run prints. One that ends badly ends the script."""
        ended = subprocess.run([program, *words.split()], input=given, cwd=self.folder, capture_output=True)
        if ended.returncode:
            sys.exit(f"{words}: status {ended.returncode} {ended.stderr.decode()} {ended.stdout[:300].decode()}")
        return ended.stdout.decode()

    def put(self, name: str, octets: bytes) -> None:
        oracle.put_files(self.folder, {name: octets})

    def capacity(self) -> dict[Server, int]:
        servers = [(site.name, str(own)) for site in self.service.sites for own in site.servers]
        return dict(zip(servers, self.bounds.capacities))


def rows_of(table: bytes) -> list[list[str]]:
    return [line.split(",") for line in table.decode().splitlines()[1:]]


def scene_in(folder: str, stream: str, hsplan: str) -> Scene:
    files = examples.twelve_sites()
    oracle.put_files(folder, files)
    option = examples.BY_HANDLE
    named = examples.twelve_addresses().items()
    sites = tuple(oracle.Site(name, option, tuple(range(1, 1 + len(own)))) for name, own in named)
    costs = {(region, site): int(cost) for region, site, cost in rows_of(files["costs.csv"])}
    given = {(site, int(own)): int(bound) for site, own, bound in rows_of(files["capacity.csv"])}
    capacities = [given[site.name, own] for site in sites for own in site.servers]
    service = oracle.Service(sites, costs)
    return Scene(folder, stream, hsplan, service, Bounds(capacities, []), list(examples.twelve_demand()))


def curve(hour: int, region: str) -> float:
    """What part of its greatest demand a region has at an hour of the day."""
    local = hour + examples.REGIONS[region][1] / 15
    return (1 + NIGHT) / 2 + (1 - NIGHT) / 2 * math.cos((local - NOON) * math.pi / 12)


def scale_of(demand: Iterable[oracle.Row]) -> float:
    """The factor by which the busiest hour asks for its part of what the example asks for."""
    sums: Counter[str] = Counter()
    for region, _, count in demand:
        sums[region] += count
    busiest = max(sum(count * curve(hour, region) for region, count in sums.items()) for hour in range(24))
    return PEAK * sum(sums.values()) / busiest


def drawn(demand: Iterable[oracle.Row], hour: int, scale: float, draw: random.Random) -> list[oracle.Row]:
    factor = {region: scale * curve(hour, region) for region in examples.REGIONS}
    return [
        (region, handle, round(count * factor[region] * math.exp(draw.gauss(-SPREAD * SPREAD / 2, SPREAD))))
        for region, handle, count in demand
    ]


def queries_of(rows: Iterable[oracle.Row], draw: random.Random, times: int = 1) -> list[str]:
    """The lines of a log of these rows in random order."""
    lines = [f"{region},{handle}" for region, handle, count in rows for _ in range(times * count)]
    draw.shuffle(lines)
    return lines


# ---- answers


@dataclass
class Hour:
    """An hour's demand, the certificate by prices of its plan, and what the plan costs."""

    rows: list[oracle.Row]
    prices: bytes
    cost: int

    def queries(self) -> int:
        return sum(row[2] for row in self.rows)


def table_of(rows: Iterable[oracle.Row]) -> bytes:
    return oracle.csv_of("region,handle,count", rows)


def planned(scene: Scene, rows: list[oracle.Row]) -> Hour:
    """Plans a demand. The certificate by prices of the plan is checked."""
    scene.put("demand.csv", table_of(rows))
    plan = scene.run(scene.hsplan, f"plan {INPUTS} --demand demand.csv")
    text = prices.of_plan(scene.service, rows, plan.encode())
    scene.put("plan.prices", text)
    verdict = scene.run(scene.stream, f"check {INPUTS} --log demand.csv --prices plan.prices")
    if verdict != "yes\n":
        sys.exit(f"{verdict} to a certificate by prices that was made of a plan")
    return Hour(rows, text, prices.numbers_of(plan.encode(), "cost")[0][0])


def by_program(scene: Scene) -> Answering:
    def answering(lines: Sequence[str], fronts: int, front: int) -> list[str]:
        log = "\n".join(["region,handle", *lines, ""]).encode()
        more = f" --fronts {fronts} --front {front}" if fronts > 1 else ""
        words = f"answer {INPUTS} --prices plan.prices --log /dev/stdin{more}"
        return scene.run(scene.stream, words, log).splitlines()

    return answering


def by_model(scene: Scene, text: bytes) -> Answering:
    plan = price_answers.read_plan(scene.service, scene.bounds, text)

    def answering(lines: Sequence[str], fronts: int, front: int) -> list[str]:
        own = price_answers.Front(plan, fronts, front)
        return [own.answer(*line.split(",")) for line in lines]

    return answering


def has_answers(scene: Scene) -> bool:
    words = f"answer {INPUTS} --prices plan.prices --log /dev/stdin".split()
    ended = subprocess.run([scene.stream, *words], input=b"region,handle\n", cwd=scene.folder, capture_output=True)
    return ended.returncode == 0


# ---- sums


@dataclass
class Sums:
    """What the answers of a day, or of an hour, come to."""

    words: Counter[str] = field(default_factory=Counter)
    fullest: float = 0.0
    above: int = 0
    cost: int = 0

    def served(self) -> int:
        return self.words["assigned"] + self.words["diverted"]

    def add_loads(self, loads: Counter[Server], capacity: dict[Server, int]) -> None:
        """Adds an hour's loads of the servers."""
        self.fullest = max(self.fullest, *(100 * load / capacity[it] for it, load in loads.items()))
        self.above += sum(max(0, load - capacity[it]) for it, load in loads.items())

    def part(self, word: str) -> str:
        """How many answers have this word, and what part of all that is."""
        return f"{self.words[word]:,} ({100 * self.words[word] / self.words.total():.1f}%)"

    def line(self, fronts: int, best: float) -> str:
        cost = self.cost / self.served()
        return (
            f"| {fronts} | {self.part('assigned')} | {self.part('diverted')} | {self.part('full')} "
            f"| {self.fullest:.1f}% | {self.above:,} | {100 * (cost / best - 1):+.1f}% |"
        )


Day = dict[int, Sums]


def answers_in_turn(answering: Answering, lines: Sequence[str], fronts: int) -> Counter[tuple[str, str]]:
    """How often each line was answered by each answer, where so many fronts take them in turn."""
    found: Counter[tuple[str, str]] = Counter()
    for front in range(fronts):
        own = lines[front::fronts]
        answers = answering(own, fronts, front)
        assert len(answers) == len(own), f"{len(answers)} answers to {len(own)} queries"
        found.update(zip(own, answers))
    return found


def count(scene: Scene, found: Counter[tuple[str, str]], sums: Sums) -> None:
    loads: Counter[Server] = Counter()
    for (line, answer), number in found.items():
        word, *rest = answer.split()
        sums.words[word] += number
        if word in ("assigned", "diverted"):
            loads[rest[0], rest[2]] += number
            sums.cost += number * scene.service.costs[line.split(",")[0], rest[0]]
    sums.add_loads(loads, scene.capacity())


def answer_hour(scene: Scene, lines: Sequence[str], answering: Answering, day: Day) -> None:
    for fronts, sums in day.items():
        count(scene, answers_in_turn(answering, lines, fronts), sums)


def answering_by(scene: Scene, hour: Hour, is_model: bool) -> Answering:
    """What answers by an hour's plan. Its certificate is put into the folder."""
    scene.put("plan.prices", hour.prices)
    return by_model(scene, hour.prices) if is_model else by_program(scene)


def ask_too_much(scene: Scene, given: argparse.Namespace, hour: Hour, draw: random.Random) -> bool:
    """Asks for three times a plan. Prints what becomes of it, and returns whether no server gets too much."""
    answering, is_kept = answering_by(scene, hour, given.model), True
    lines = queries_of(hour.rows, draw, 3)
    for fronts in given.fronts:
        sums = Sums()
        count(scene, answers_in_turn(answering, lines, fronts), sums)
        is_kept = is_kept and not sums.above
        said = ", ".join(f"{word} {sums.words[word]:,}" for word in ("assigned", "diverted", "full"))
        print(
            f"three times the plan, {fronts} fronts: {said}; fullest server {sums.fullest:.1f}%, "
            f"{sums.above:,} queries above capacity"
        )
    return is_kept


def answer_day(scene: Scene, given: argparse.Namespace, draw: random.Random, day: Day) -> list[Hour]:
    """Answers the hours of a day, and returns the plans that suit the hours themselves."""
    scale, found = scale_of(scene.demand), []
    last = planned(scene, drawn(scene.demand, -1, scale, draw))
    for hour in range(given.hours):
        now = planned(scene, drawn(scene.demand, hour, scale, draw))
        answer_hour(scene, queries_of(now.rows, draw), answering_by(scene, last, given.model), day)
        found.append(now)
        last = now
        print(f"hour {hour}: {now.queries():,} queries, best plan {now.cost:,}", file=sys.stderr, flush=True)
    return found


def measure(scene: Scene, given: argparse.Namespace) -> bool:
    """Prints the table of the day, and what three times a plan comes to. Returns whether prices keep to capacities."""
    draw = random.Random(given.seed)
    day: Day = {fronts: Sums() for fronts in given.fronts}
    hours = answer_day(scene, given, draw, day)
    queries = sum(hour.queries() for hour in hours)
    best = sum(hour.cost for hour in hours) / queries
    print(f"{len(hours)} hours, {queries:,} queries, {best:.2f} a query by the best plan of each hour\n\n{HEAD}")
    print("\n".join(sums.line(fronts, best) for fronts, sums in day.items()) + "\n")
    is_kept = not any(sums.above for sums in day.values())
    return ask_too_much(scene, given, max(hours, key=Hour.queries), draw) and is_kept


def main() -> int:
    words = argparse.ArgumentParser(description="Measures a day that is answered by the plan of the hour before.")
    words.add_argument("--seed", type=int, default=1)
    words.add_argument("--hours", type=int, default=24)
    words.add_argument("--fronts", type=lambda text: [int(it) for it in text.split(",")], default=[1, 4, 64])
    words.add_argument("--program", default=programs.tested("hsplan-stream"))
    words.add_argument("--hsplan", default=programs.tested("hsplan"))
    words.add_argument("--model", action="store_true", help="answer by prices by the model, and not by the program")
    given = words.parse_args()
    paths = [os.path.abspath(it) for it in (given.program, given.hsplan)]
    if programs.is_absent(*paths):
        return 1
    with tempfile.TemporaryDirectory() as folder:
        scene = scene_in(folder, *paths)
        planned(scene, scene.demand)
        if not given.model and not has_answers(scene):
            print(f"{paths[0]} doesn't answer by prices: give --model to take the answers of the model")
            return 1
        print(f"answers by prices are those of {'the model' if given.model else paths[0]}")
        return 0 if measure(scene, given) else 1


if __name__ == "__main__":
    programs.ended(main)
