#!/usr/bin/env python3
"""Measures how many rows of a log the built program answers in a second, without fronts and with 64, over an instance
at the limits, and peers by turns with it.

    tools/measure/dispatch.py [--rows N] [--turns N] [--times N] [--program FILE]

The instance is that of tools/lib/instances.py, with N times its counts by `--times N`. A log draws its rows at random
by their counts. So most of it is assigned. The peers are tools/measure/dispatch_peer, in Rust over Debian's crates csv
and indexmap (librust-csv-dev, librust-indexmap-dev), where they and cargo are there. They are given the answers of each
row in their order, and have to answer the log as hsplan does, octet for octet.

Seconds are processor seconds, and memory is its peak. A run on a log of only a header measures what is spent before
the first row. Factors are printed by the fastest runs, and by the median of the turns: on a busy machine these differ.
All runs are on one processor, where the machine lets one be chosen.
"""

import argparse
import glob
import itertools
import os
import random
import shutil
import statistics
import subprocess
import sys
import tempfile
from pathlib import Path

sys.path.insert(0, str(Path(__file__).resolve().parents[1]))

from lib import instances, programs

FRONTS = 64
FAST_PEER, PEER_AT_FRONTS = "peer, fast", "peer, fast, fronts passed over"
# A name, the words for an empty log, and the words for a log.
Way = tuple[str, list[str], list[str]]


def timed(words: list[str]) -> instances.Spent:
    """What a run takes. One that ends badly ends the script."""
    spent = instances.spent_by(words)
    if spent.status:
        sys.exit(spent.reported)
    return spent


def peer_in(folder: str) -> str | None:
    """The peer, compiled in a folder, or None where that cannot be done."""
    registry = "/usr/share/cargo/registry"
    if not shutil.which("cargo") or not glob.glob(f"{registry}/csv-1.*") or not glob.glob(f"{registry}/indexmap-1.*"):
        print("note: cargo or its crates csv and indexmap are not there, so that no peer is measured")
        return None
    source = shutil.copytree(
        os.path.join(programs.TOP, "tools", "measure", "dispatch_peer"), os.path.join(folder, "peer")
    )
    os.makedirs(os.path.join(source, ".cargo"))
    instances.write(
        os.path.join(source, ".cargo"),
        "config.toml",
        ["[source.crates-io]", 'replace-with = "debian"', "[source.debian]", f'directory = "{registry}"'],
    )
    built = subprocess.run(["cargo", "build", "--release", "--offline", "--quiet"], cwd=source, check=False)
    return os.path.join(source, "target", "release", "dispatch_peer") if built.returncode == 0 else None


def table_for(folder: str, program: str, instance: instances.Instance, plan: str) -> str:
    """The answers of each row in their order, as hsplan gives them: each as a number and a line."""
    rows, counts, files = instance
    asked = os.path.join(folder, "all.csv")
    with open(asked, "w") as file:
        file.write("region,handle\n")
        file.writelines((row + "\n") * count for row, count in zip(rows, counts))
    words = [program, "dispatch", *files, "--plan", plan, "--log", asked]
    with subprocess.Popen(words, stdout=subprocess.PIPE, stderr=subprocess.DEVNULL, text=True) as run:
        assert run.stdout
        lines = []
        for row, count in zip(rows, counts):
            answers = itertools.groupby(run.stdout.readline().rstrip("\n") for _ in range(count))
            lines.append(",".join([row] + [f"{len(list(same))},{line}" for line, same in answers]))
    os.remove(asked)
    return instances.write(folder, "table.csv", lines)


def measure(kinds: list[Way], many: int, turns: int) -> dict[str, list[float]]:
    """Runs the kinds by turns, and returns the seconds of each run behind its first row. A kind is a name, the words
    for an empty log, and the words for a log."""
    before = {name: min(timed(empty).seconds for _ in range(3)) for name, empty, _ in kinds}
    spent: dict[str, list[float]] = {name: [] for name, *_ in kinds}
    for _ in range(turns):
        for name, _, words in kinds:
            _, seconds, memory, reported = timed(words)
            spent[name].append(seconds - before[name])
            print(
                f"{name}: {seconds:.3f} s, {before[name]:.3f} of them before the first row, "
                f"{many / spent[name][-1] / 1e6:.2f} million rows a second, {memory:.1f} MB: {reported.strip()}",
                flush=True,
            )
    return spent


def beside_peer(name: str, spent: dict[str, list[float]]) -> str:
    """A kind against the fast peer over the same log, by the fastest runs and by the median of the turns."""
    peer = spent.get(PEER_AT_FRONTS if "fronts" in name else FAST_PEER)
    if not peer:
        return ""
    by_turns = statistics.median(own / other for own, other in zip(spent[name], peer))
    return f", {min(spent[name]) / min(peer):.2f} times the fast peer, {by_turns:.2f} by the median of the turns"


def compare(spent: dict[str, list[float]], turns: int) -> None:
    """Prints each kind against the fast peer, and fronts against none."""
    least = {name: min(seconds) for name, seconds in spent.items()}
    for name, seconds in least.items():
        print(f"{name}: {seconds:.3f} s behind the first row at best{beside_peer(name, spent)}")
    pairs = [a / b for a, b in zip(spent["none"], spent[f"{FRONTS} fronts"])]
    print(
        f"of the rows a second without fronts: {least['none'] / least[f'{FRONTS} fronts']:.3f} by the fastest runs, "
        f"{statistics.median(pairs):.3f} by the median of {turns} turns"
    )


def ways_of(chosen: argparse.Namespace, peer: str | None, folder: str, draw: random.Random) -> list[Way]:
    """The ways in which logs are answered, each with its words for an empty log and for the whole one."""
    rows, counts, files = instances.inputs(folder, draw, times=chosen.times)
    plan = os.path.join(folder, "plan.txt")
    with open(plan, "w") as file:
        subprocess.run([chosen.program, "plan"] + files, stdout=file, check=True)
    words = [chosen.program, "dispatch"] + files + ["--plan", plan]
    empty = instances.log(folder, "no_log.csv", ["region,handle"], [], 0, draw)
    full = instances.log(folder, "log.csv", ["region,handle", *rows], counts, chosen.rows, draw)
    at_fronts = [f"{front},{row}" for row in rows for front in range(FRONTS)]
    weights = [count for count in counts for _ in range(FRONTS)]
    no_events = instances.log(folder, "no_events.csv", ["front,region,handle"], [], 0, draw)
    all_events = instances.log(folder, "events.csv", ["front,region,handle", *at_fronts], weights, chosen.rows, draw)
    events = words + ["--fronts", str(FRONTS), "--log"]
    ways = [
        ("none", words + ["--log", empty], words + ["--log", full]),
        (f"{FRONTS} fronts", events + [no_events], events + [all_events]),
    ]
    if peer:
        table = table_for(folder, chosen.program, (rows, counts, files), plan)
        ways += [
            ("peer, plain", [peer, "plain", table, empty], [peer, "plain", table, full]),
            (FAST_PEER, [peer, "fast", table, empty], [peer, "fast", table, full]),
            (PEER_AT_FRONTS, [peer, "fast", table, no_events], [peer, "fast", table, all_events]),
        ]
    return ways


def main() -> int:
    arguments = argparse.ArgumentParser(description="Measures how many rows of a log are answered a second.")
    arguments.add_argument("--rows", type=int, default=10_000_000)
    arguments.add_argument("--turns", type=int, default=7)
    arguments.add_argument("--times", type=int, default=1)
    arguments.add_argument("--program", default=programs.tested("hsplan"))
    chosen = arguments.parse_args()
    if programs.is_absent(chosen.program):
        return 1
    with tempfile.TemporaryDirectory() as folder:
        peer = peer_in(folder)
        if hasattr(os, "sched_setaffinity"):
            os.sched_setaffinity(0, {max(os.sched_getaffinity(0))})
        ways = ways_of(chosen, peer, folder, random.Random(1))
        answers = {name: instances.digest_of(words) for name, _, words in ways if peer and "fronts" not in name}
        if len(set(answers.values())) > 1:
            sys.exit(f"answers differ: {answers}")
        compare(measure(ways, chosen.rows, chosen.turns), chosen.turns)
    return 0


if __name__ == "__main__":
    sys.exit(main())
