#!/usr/bin/env python3
"""Measures what Dask's scheduler costs, and what workers gain: `hsp fleet dispatch` beside one `hsplan dispatch` and
GNU parallel, by turns over the same rows of 8 fronts. All have to give the same octets.

    tools/measure/fleet.py [--rows N] [--turns N] [--workers 1,2,4] [--program FILE]

A run without rows measures the engine's start, its parts and its end; 64 logs of one line beside one measure what a
part costs. Seconds are those of the clock, the middle of the turns, and behind them those of the processor.
"""

import argparse
import hashlib
import os
import random
import resource
import shutil
import statistics
import subprocess
import sys
import tempfile
import time
from collections.abc import Callable
from pathlib import Path

sys.path.insert(0, str(Path(__file__).resolve().parents[1]))

from lib import instances, programs, transcripts


FRONTS = 8
PYTHON = "/usr/bin/python3"
NETWORKS = "network,region\n10.0.0.0/8,eu\n"
LINE = '10.1.2.3 UDP:HDL "2026-11-26 10:00:00.123+0000" 1 1 3ms 20.500.1234/item\n'
PARTS = 64
Way = Callable[[], None]


def ran(words: list[str], folder: str, environment: dict[str, str], out: str = os.devnull) -> None:
    with open(os.path.join(folder, out), "wb") as file:
        done = subprocess.run(words, cwd=folder, env=environment, stdout=file, stderr=subprocess.PIPE, text=True)
    if done.returncode:
        sys.exit(f"{' '.join(words)}\n{done.stderr}")


def put_logs(folder: str, rows: list[str], counts: list[int], many: int) -> None:
    """The log of all fronts, a file of each front, and one of each without rows."""
    draw = random.Random(2)
    whole = instances.log(folder, "rows", ["region,handle", *rows], counts, many, draw)
    fronts = [open(os.path.join(folder, f"front-{it}.csv"), "w") for it in range(FRONTS)]
    with open(whole) as lines, open(os.path.join(folder, "events.csv"), "w") as events:
        head = next(lines)
        events.write(f"front,{head}")
        for it in fronts:
            it.write(head)
        for line in lines:
            front = draw.randrange(FRONTS)
            events.write(f"{front},{line}")
            fronts[front].write(line)
    for at, it in enumerate(fronts):
        it.close()
        with open(os.path.join(folder, f"none-{at}.csv"), "w") as file:
            file.write(head)


def answers_of_fronts(folder: str) -> list[str]:
    """The sums of each front's answers, taken out of those of the whole log."""
    sums = [hashlib.sha256() for _ in range(FRONTS)]
    with open(os.path.join(folder, "events.csv"), "rb") as events, open(os.path.join(folder, "whole"), "rb") as answers:
        next(events)
        for event, answer in zip(events, answers):
            sums[event[0] - 48].update(answer)
    return [it.hexdigest() for it in sums]


def same(folder: str, wanted: list[str]) -> None:
    """Ends where the answers of the fronts aren't those of one run, and takes them away."""
    for at, it in enumerate(wanted):
        path = os.path.join(folder, f"front-{at}.csv.answers")
        if programs.sum_of(path) != it:
            sys.exit(f"front {at}: other answers than those of one hsplan")
        os.unlink(path)


def parallel(jobs: int, options: list[str]) -> list[str]:
    """GNU parallel's run of the recipe in docs/use/FLEET.md."""
    sed = "sed '1s/^/front,/;1!s/^/{},/' front-{}.csv"
    one = f"{sed} | hsplan dispatch {' '.join(options)} --fronts {FRONTS} --log /dev/stdin > front-{{}}.csv.answers"
    return ["parallel", "--will-cite", "--halt", "now,fail=1", "-j", str(jobs), one, ":::", *map(str, range(FRONTS))]


def fleet(workers: int, prefix: str) -> list[str]:
    logs = [f"{at}={prefix}-{at}.csv" for at in range(FRONTS)]
    return [PYTHON, "-m", "hsp", "fleet", "dispatch", ".", "--fronts", str(FRONTS), "--workers", str(workers), *logs]


def counting(workers: int, logs: int) -> list[str]:
    names = [f"line-{at}.log" for at in range(logs)]
    words = ["--regions", "networks.csv", "-o", "demand.out", "--workers", str(workers)]
    return [PYTHON, "-m", "hsp", "fleet", "demand", *words, *names]


def timed(way: Way) -> tuple[float, float]:
    before, begun = resource.getrusage(resource.RUSAGE_CHILDREN), time.monotonic()
    way()
    after = resource.getrusage(resource.RUSAGE_CHILDREN)
    return time.monotonic() - begun, after.ru_utime + after.ru_stime - before.ru_utime - before.ru_stime


def compared(ways: dict[str, Way], turns: int) -> None:
    found: dict[str, list[tuple[float, float]]] = {name: [] for name in ways}
    for _ in range(turns):
        for name, way in ways.items():
            found[name].append(timed(way))
    for name, taken in found.items():
        clock, processor = (statistics.median(it) for it in zip(*taken))
        print(f"{name:<44} {clock:7.2f} s {processor:7.2f} s", flush=True)


def ways_in(folder: str, options: list[str], workers: list[int], environment: dict[str, str]) -> dict[str, Way]:
    """All ways, each as a call that runs it and compares its octets."""
    one = ["hsplan", "dispatch", *options, "--fronts", str(FRONTS), "--log", "events.csv"]
    ran(one, folder, environment, "whole")
    wanted = answers_of_fronts(folder)

    def way(words: list[str], is_answering: bool) -> Way:
        def run() -> None:
            ran(words, folder, environment)
            if is_answering:
                same(folder, wanted)

        return run

    ways: dict[str, Way] = {"one hsplan over the whole log": lambda: ran(one, folder, environment, "whole")}
    for it in workers:
        if shutil.which("parallel"):
            ways[f"GNU parallel, jobs {it}"] = way(parallel(it, options), True)
        ways[f"hsp fleet, workers {it}"] = way(fleet(it, "front"), True)
        ways[f"hsp fleet, workers {it}, no rows"] = way(fleet(it, "none"), False)
    for logs in (1, PARTS):
        ways[f"hsp fleet demand, workers 1, logs {logs} of a line"] = way(counting(1, logs), False)
    return ways


def main() -> int:
    arguments = argparse.ArgumentParser(description="Measures what Dask's scheduler costs, and what workers gain.")
    arguments.add_argument("--rows", type=int, default=10_000_000)
    arguments.add_argument("--turns", type=int, default=3)
    arguments.add_argument("--workers", default="1,2,4")
    arguments.add_argument(
        "--program", default=transcripts.PROGRAM, help="the program that is run, if not the built one"
    )
    chosen = arguments.parse_args()
    workers = [int(it) for it in chosen.workers.split(",")]
    if programs.is_absent(chosen.program):
        return 1
    with tempfile.TemporaryDirectory() as folder:
        environment = transcripts.room_for(folder, os.path.abspath(chosen.program))
        environment["PYTHONPATH"] = os.path.join(programs.TOP, "companion")
        rows, counts, options = instances.inputs(folder, random.Random(1))
        ran(["hsplan", "plan", *options], folder, environment, "plan.txt")
        put_logs(folder, rows, counts, chosen.rows)
        for at in range(PARTS):
            with open(os.path.join(folder, f"line-{at}.log"), "w", encoding="utf-8") as file:
                file.write(LINE)
        with open(os.path.join(folder, "networks.csv"), "w", encoding="utf-8") as file:
            file.write(NETWORKS)
        print(f"{chosen.rows:,} rows; load {os.getloadavg()[0]:.1f} on {os.cpu_count()} processors", flush=True)
        compared(ways_in(folder, [*options, "--plan", "plan.txt"], workers, environment), chosen.turns)
    return 0


if __name__ == "__main__":
    programs.ended(main)
