#!/usr/bin/env python3
"""Measures how many rows of a log the built program hsplan-stream checks a certificate by prices against in a second.

    tools/measure/prices.py [--rows N] [--turns N] [--program FILE] [--folder FOLDER] [--cases NAME,..]

Nothing is solved: tools/measure/prices_peer.cpp draws prices and rows, sends each row to the servers where it pays
least, and takes the loads as capacities wherever a price is above 0. By turns with the program runs that peer, the same
steps in plain C++, over the same files. Both have to say yes, and no to the certificate with another amount. Seconds
are processor seconds, the least of all turns. Memory is the most that a run held. All runs are on one processor, where
the machine lets one be chosen. Files are taken from the folder where it has them.
"""

import argparse
import os
import subprocess
import sys
import tempfile
from pathlib import Path

sys.path.insert(0, str(Path(__file__).resolve().parents[1]))

from lib import memory, preload, programs
from lib.price_cases import Case, lines_of, make, peer_in

CHECK = "check --settings settings.toml --costs costs.csv --capacity capacity.csv --log log.csv --prices"
CASES = {
    "12-sites": Case(12, 59, 2, 8, 6, 10, 5),
    "12-sites-long": Case(12, 59, 2, 8, 6, 10, 5, 5),
    "32-sites": Case(32, 1024, 16, 47, 6, 40, 20),
    "64-regions": Case(32, 1024, 16, 47, 64, 40, 20),
    "most-classes": Case(32, 1024, 16, 47, 64, 8, 1, 3),
}


def timed(words: list[str], folder: str) -> tuple[str, float]:
    """What a run printed, and the seconds of a processor that it took."""
    running = subprocess.Popen(words, cwd=folder, stdout=subprocess.PIPE, text=True)
    assert running.stdout
    said = running.stdout.read().strip()
    _, status, used = os.wait4(running.pid, 0)
    running.returncode = os.waitstatus_to_exitcode(status)
    return said, used.ru_utime + used.ru_stime


def refuse_wrong(runs: dict[str, list[str]], folder: str) -> None:
    """Ends the script where a run doesn't say no to the wrong certificate."""
    for name, words in runs.items():
        wrong, _ = timed([*words, "wrong.prices"], folder)
        if not wrong.startswith("no"):
            sys.exit(f"{name}: {wrong!r} to a wrong certificate in {folder}")


def one_turn(runs: dict[str, list[str]], folder: str) -> dict[str, float]:
    """The seconds of each run, which says yes."""
    spent = {}
    for name, words in runs.items():
        right, spent[name] = timed([*words, "right.prices"], folder)
        if right != "yes":
            sys.exit(f"{name}: {right!r} to a right certificate in {folder}")
    return spent


def least_seconds(runs: dict[str, list[str]], folder: str, turns: int) -> dict[str, float]:
    spent = [one_turn(runs, folder) for _ in range(turns)]
    return {name: min(own[name] for own in spent) for name in runs}


def measure(folder: str, runs: dict[str, list[str]], turns: int, preloaded: str) -> None:
    certificate = lines_of(folder, "right.prices")
    rows = len(lines_of(folder, "log.csv")) - 1
    classes = sum(line.startswith(b"class ") for line in certificate)
    name = os.path.basename(folder)
    print(f"{name}: {rows:,} rows, {classes:,} classes, a certificate of {sum(map(len, certificate)):,} octets")
    refuse_wrong(runs, folder)
    least = least_seconds(runs, folder, turns)
    for run, words in runs.items():
        taken = memory.measured(words[0], " ".join([*words[1:], "right.prices"]), folder, preloaded)
        print(
            f"  {run}: {least[run]:.2f} s, {rows / least[run] / 1e6:.2f} million rows a second, "
            f"{(taken.kilobytes or 0) / 1000:.1f} MB",
            flush=True,
        )


def main() -> int:
    words = argparse.ArgumentParser(description="Measures how many rows a second hsplan-stream check passes over.")
    words.add_argument("--rows", type=int, default=1_000_000)
    words.add_argument("--turns", type=int, default=3)
    words.add_argument("--program", default=programs.tested("hsplan-stream"))
    words.add_argument("--folder", default="", help="where the files are made and kept")
    words.add_argument("--cases", default="", help="names with a comma between them")
    given = words.parse_args()
    program = os.path.abspath(given.program)
    if programs.is_absent(program):
        return 1
    if hasattr(os, "sched_setaffinity"):
        os.sched_setaffinity(0, {max(os.sched_getaffinity(0))})
    chosen = [name for name in CASES if not given.cases or name in given.cases.split(",")]
    with tempfile.TemporaryDirectory() as room:
        top, peer = os.path.abspath(given.folder or room), peer_in(room)
        preloaded = preload.built("report_memory", room)
        for name in chosen:
            make(os.path.join(top, name), CASES[name], peer, given.rows)
        runs = {"hsplan-stream": [program, *CHECK.split()], "peer": [peer, "check"]}
        for name in chosen:
            measure(os.path.join(top, name), runs, given.turns, preloaded)
    return 0


if __name__ == "__main__":
    sys.exit(main())
