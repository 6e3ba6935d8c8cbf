#!/usr/bin/env python3
"""Measures whole runs of the built program over an instance at the limits: processor seconds and peak memory.

    tools/measure/program.py [--runs N] [--hosts N] [--program FILE] [FACTOR..]

A factor is the capacity of all servers over the demand of all rows. For each factor the script makes the inputs,
plans them, has the answer judged, and reports the loads of a plan. Then it locates a handle over the largest
settings. Of N runs (by default 5) it prints the least, the middle and the greatest. With `--hosts N` the servers
stand on N machines, whose limits together are three fifths of the capacity.
"""

import argparse
import os
import random
import statistics
import sys
import tempfile
from pathlib import Path

sys.path.insert(0, str(Path(__file__).resolve().parents[1]))

from lib import instances, programs


FACTORS = [2.0, 1.2, 1.05, 1.01, 1.0, 0.99]
STATUSES = {0: "plan", 3: "shortage"}


def row(name: str, words: list[str], out: str, runs: int) -> int:
    """Runs a command `runs` times, and prints a row of the table. Returns the status of the last run."""
    took = [instances.spent_by(words, out) for _ in range(runs)]
    seconds = [it.seconds for it in took]
    print(
        f"| {name} | {min(seconds):.3f}, {statistics.median(seconds):.3f}, {max(seconds):.3f} "
        f"| {max(it.megabytes for it in took):.1f} MB | {took[-1].status} |",
        flush=True,
    )
    return took[-1].status


def measure(factor: float, chosen: argparse.Namespace, folder: str) -> list[str]:
    _, _, files = instances.inputs(folder, random.Random(1), factor, chosen.hosts)
    answer, sink = os.path.join(folder, "answer.txt"), os.path.join(folder, "sink.txt")
    status = row(f"`plan` at factor {factor}", [chosen.program, "plan"] + files, answer, chosen.runs)
    row(
        f"`check` of that {STATUSES.get(status, 'refusal')}",
        [chosen.program, "check"] + files + ["--plan", answer],
        sink,
        chosen.runs,
    )
    if status == 0:
        row(
            "`report` of its loads",
            [chosen.program, "report", "--kind", "load"] + files + ["--plan", answer],
            sink,
            chosen.runs,
        )
    return files


def main() -> int:
    arguments = argparse.ArgumentParser(description="Measures whole runs over an instance at the limits.")
    arguments.add_argument("--runs", type=int, default=5)
    arguments.add_argument("--hosts", type=int, default=0)
    arguments.add_argument("--program", default=programs.tested("hsplan"))
    arguments.add_argument("factors", type=float, nargs="*", default=FACTORS)
    chosen = arguments.parse_args()
    if programs.is_absent(chosen.program):
        return 1
    print("| Run | Seconds | Peak | Status |\n|---|---|---|---|")
    with tempfile.TemporaryDirectory() as folder:
        for factor in chosen.factors:
            files = measure(factor, chosen, folder)
        settings = files[:2]
        row(
            "`locate` over the settings",
            [chosen.program, "locate"] + settings + ["20.500.12345/object-000001"],
            os.path.join(folder, "sink.txt"),
            chosen.runs,
        )
    return 0


if __name__ == "__main__":
    sys.exit(main())
