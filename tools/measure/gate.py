#!/usr/bin/env python3
"""Runs `rt ci`, and prints the processor seconds that each crate took.

    tools/measure/gate.py [--jobs N] [--log FILE] [--edits]    N checks side by side, by default as many as in
                                                               `make test`; the log is what rt ci prints; each edit's
                                                               seconds too, dearest first

The seconds of a crate are those of its proof, of the proof that its must-fail edits begin with, of the edits, and of
its tests. What rt kept of an earlier run is not proved again, and has no seconds here. Each check is a process that is
asked once a second for its processor time. Every half minute a loop of a fixed length is timed too, so that runs on
other machines and at other hours can be compared.
"""

import argparse
import glob
import os
import statistics
import subprocess
import time
import sys
from collections import defaultdict
from collections.abc import Iterator
from pathlib import Path
from typing import IO, NamedTuple

sys.path.insert(0, str(Path(__file__).resolve().parents[1]))

from lib import lanes, programs


KINDS = ("proof", "before the edits", "edits", "tests")
TICK = os.sysconf("SC_CLK_TCK")
# The crate of a check, its kind, the edit that it tries, and its seconds so far.
Check = tuple[str, str, str, float]
# How many rounds the loop has that is timed, and how many seconds lie between two of its runs.
ROUNDS, BETWEEN = 2_500_000, 30


class Measured(NamedTuple):
    """The status of rt ci, its seconds by the clock, the seconds of a processor by crate and kind, and by crate and
    edit, and those of each run of the loop."""

    status: int
    clock: float
    took: dict[tuple[str, str], float]
    edits: dict[tuple[str, str], float]
    loops: list[float]


def kind_of(words: list[str]) -> str:
    if "--test" in words:
        return "tests"
    if "--incremental" not in words:
        return "proof"
    return "before the edits" if words[words.index("--incremental") + 1].endswith("/seed") else "edits"


def edit_of(words: list[str], crate: str) -> str:
    """The file of the must-fail edit that a check over a proof tries. The folder that it works in has its number."""
    number = os.path.basename(words[words.index("--incremental") + 1])
    edits = sorted(glob.glob(f"{programs.TOP}/crates/{crate}/must-fail/*.edit"))
    return os.path.basename(edits[int(number)]) if number.isdigit() else ""


def checks_of(parent: int) -> Iterator[tuple[tuple[str, str], Check]]:
    """The checks that run below a process. Each is known by its process number and its start, and has its crate, its
    kind, the edit that it tries, and its seconds so far."""
    for number in filter(str.isdigit, os.listdir("/proc")):
        try:
            with open(f"/proc/{number}/stat") as file:
                fields = file.read().rpartition(")")[2].split()
            if int(fields[1]) != parent:
                continue
            with open(f"/proc/{number}/cmdline") as file:
                words = file.read().split("\0")
            if "--crate-name" in words and os.path.basename(words[0]) == "rattle":
                crate, kind = words[words.index("--crate-name") + 1], kind_of(words)
                edit = edit_of(words, crate) if kind == "edits" else ""
                yield (number, fields[19]), (crate, kind, edit, sum(map(int, fields[11:15])) / TICK)
        except (FileNotFoundError, ProcessLookupError):
            continue


def loop_seconds() -> float:
    """The seconds of a processor that the loop of a fixed length takes."""
    began, total = time.process_time(), 0
    for number in range(ROUNDS):
        total += number * number & 0xFFFF
    return time.process_time() - began


def measured(jobs: int, log: IO[str]) -> Measured:
    began = time.monotonic()
    seen: dict[tuple[str, str], Check] = {}
    loops: list[float] = []
    run = subprocess.Popen(
        ["rt", "ci"], cwd=programs.TOP, env={**os.environ, "RT_JOBS": str(jobs)}, stdout=log, stderr=subprocess.STDOUT
    )
    while run.poll() is None:
        seen.update(checks_of(run.pid))
        if time.monotonic() - began > BETWEEN * (len(loops) + 1):
            loops.append(loop_seconds())
        time.sleep(1)
    took: defaultdict[tuple[str, str], float] = defaultdict(float)
    edits: defaultdict[tuple[str, str], float] = defaultdict(float)
    for crate, kind, edit, seconds in seen.values():
        took[crate, kind] += seconds
        if edit:
            edits[crate, edit] += seconds
    return Measured(run.returncode, time.monotonic() - began, took, edits, loops)


def main() -> int:
    arguments = argparse.ArgumentParser(description="Prints the processor seconds that rt ci takes, by crate.")
    arguments.add_argument("--jobs", type=int, default=lanes.lanes())
    arguments.add_argument("--log", default="/tmp/rt-ci.log")
    arguments.add_argument("--edits", action="store_true")
    given = arguments.parse_args()
    with open(given.log, "w", encoding="utf-8") as log:
        status, clock, took, edits, loops = measured(given.jobs, log)
    print(f"| Crate | {' | '.join(it.capitalize() for it in KINDS)} |")
    print("|---" * (len(KINDS) + 1) + "|")
    for crate in dict.fromkeys(crate for crate, _ in took):
        print(f"| `{crate}` | {' | '.join(str(round(took[crate, kind])) for kind in KINDS)} |")
    for (crate, edit), seconds in sorted(edits.items(), key=lambda one: -one[1]) if given.edits else ():
        print(f"{round(seconds)} {crate}/{edit}")
    for kind in KINDS:
        print(f"{kind}: {sum(seconds for (_, it), seconds in took.items() if it == kind) / 60:.0f} minutes")
    print(
        f"{sum(took.values()) / 60:.0f} minutes of a processor, {clock / 60:.0f} by the clock, "
        f"{given.jobs} checks side by side"
    )
    quarters = statistics.quantiles(loops, n=4) if len(loops) > 1 else loops
    print(f"quarters of the {len(loops)} loops, in seconds: {', '.join(f'{it:.2f}' for it in quarters)}")
    with open(given.log, encoding="utf-8") as log:
        print(log.read().splitlines()[-1])
    return status


if __name__ == "__main__":
    raise SystemExit(main())
