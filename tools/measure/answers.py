#!/usr/bin/env python3
"""Measures how many rows of a log the built program hsplan-stream answers by a certificate by prices in a second.

    tools/measure/answers.py [--rows N] [--turns N] [--program FILE] [--folder FOLDER] [--cases NAME,..]

Nothing is solved: tools/measure/prices_peer.cpp draws prices and a log, and makes a certificate for it. By turns with
the program runs that peer, the same steps in plain C++, over the same files. Both have to print the same octets, and
before that to answer a small log as tools/lib/price_answers.py does, by each front. Seconds are processor seconds, the
least of all turns. Memory is the most that a run held. All runs are on one processor, where the machine lets one be
chosen. Then a co-process over pipes is asked row by row.
"""

import argparse
import os
import subprocess
import sys
import tempfile
from pathlib import Path
from typing import NamedTuple

sys.path.insert(0, str(Path(__file__).resolve().parents[1]))

from lib import instances, memory, preload, price_answers, price_cases, programs, talks
from lib.price_cases import Case, lines_of
from lib.price_verdicts import Bounds

ANSWER = "answer --settings settings.toml --costs costs.csv --capacity capacity.csv --prices right.prices --log"
PEER = "answer right.prices"
LOG, TALKS = "asked.csv", 20_000


class Asked(NamedTuple):
    """A case, and how often its log asks for what is planned."""

    case: Case
    times: int = 1


TWELVE = Case(12, 59, 2, 8, 6, 10, 5, most_count=1)
CASES = {
    "12-sites": Asked(TWELVE),
    "12-sites-pairs": Asked(TWELVE._replace(handles=3_333)),
    "12-sites-thrice": Asked(TWELVE, 3),
    "32-sites": Asked(Case(32, 1024, 16, 47, 6, 40, 20, most_count=1)),
    "32-sites-pairs": Asked(Case(32, 1024, 16, 47, 6, 40, 20, most_count=1, handles=3_333)),
}
SMALL = Asked(TWELVE._replace(handles=700), 3)
SMALL_ROWS = 3_000
# The fronts that answer the small log, each with the number of fronts.
FRONTS = ((1, 0), (3, 0), (3, 1), (3, 2))


def make(folder: str, asked: Asked, peer: str, rows: int) -> None:
    """Makes the files of a case, and the log that is asked for, without counts."""
    price_cases.make(folder, asked.case, peer, rows)
    header, *body = (line.rsplit(b",", 1)[0] + b"\n" for line in lines_of(folder, "log.csv"))
    with open(os.path.join(folder, LOG), "wb") as file:
        file.writelines([header, *body * asked.times])


# ---- against the model


def modelled(folder: str, asked: Asked, fronts: int, front: int) -> tuple[str, str]:
    """What the model answers to the log of a case, and the sums."""
    capacities = [int(line.rsplit(b",", 1)[1]) for line in lines_of(folder, "capacity.csv")[1:]]
    text = b"".join(lines_of(folder, "right.prices"))
    plan = price_answers.read_plan(price_cases.service_of(asked.case), Bounds(capacities, []), text)
    pairs = [line.decode().rstrip("\n").split(",") for line in lines_of(folder, LOG)[1:]]
    lines = price_answers.answers_of(price_answers.Front(plan, fronts, front), [(it[0], it[1]) for it in pairs])
    return "".join(f"{line}\n" for line in lines), price_answers.sums_of(lines)


def compare(folder: str, runs: dict[str, list[str]], wanted: tuple[str, str]) -> None:
    """Ends the script where a run answers a small log otherwise than the model."""
    for name, words in runs.items():
        ended = subprocess.run(words, cwd=folder, capture_output=True, text=True)
        if (ended.stdout, ended.stderr) != wanted:
            sys.exit(f"{name} answers otherwise than the model: {' '.join(words)}: {ended.stderr}")
    print(f"{', '.join(runs)}: as the model: {wanted[1].strip()}")


def runs_of(program: str, peer: str, fronts: int = 1, front: int = 0) -> dict[str, list[str]]:
    """The runs that are measured, by their names: that of the program, if there is one, and that of the peer."""
    words = [program, *ANSWER.split(), LOG, *f"--fronts {fronts} --front {front}".split()]
    own = {"hsplan-stream": words} if program else {}
    return {**own, "peer": [peer, *PEER.split(), LOG, str(fronts), str(front)]}


def has_answers(folder: str, program: str) -> bool:
    ended = subprocess.run([program, *ANSWER.split(), "/dev/null"], cwd=folder, capture_output=True)
    return ended.returncode != 2


# ---- figures


def seconds_of(words: list[str], folder: str) -> float:
    before = memory.spent_below()
    subprocess.run(words, cwd=folder, stdout=subprocess.DEVNULL, stderr=subprocess.DEVNULL, check=True)
    return memory.spent_below() - before


def measure(folder: str, runs: dict[str, list[str]], turns: int, preloaded: str) -> None:
    classes = sum(line.startswith(b"class ") for line in lines_of(folder, "right.prices"))
    log = lines_of(folder, LOG)[1:]
    rows, pairs = len(log), len(set(log))
    print(f"{os.path.basename(folder)}: {rows:,} rows, {pairs:,} pairs, {classes:,} classes")
    if len({instances.digest_of(words, folder) for words in runs.values()}) > 1:
        sys.exit(f"the answers in {folder} differ")
    spent = [{name: seconds_of(words, folder) for name, words in runs.items()} for _ in range(turns)]
    for name, words in runs.items():
        least = min(own[name] for own in spent)
        taken = memory.measured(words[0], " ".join(words[1:]), folder, preloaded)
        print(
            f"  {name}: {least:.2f} s, {rows / least / 1e6:.2f} million rows a second, "
            f"{(taken.kilobytes or 0) / 1000:.1f} MB: {taken.said}",
            flush=True,
        )


def ask(folder: str, program: str) -> None:
    rows = (line.rstrip(b"\n") for line in lines_of(folder, LOG)[1 : 1 + TALKS])
    print(talks.talk([program, *ANSWER.split(), "/dev/stdin"], folder, rows).line())


def compare_all(folder: str, given: str, peer: str) -> str:
    """Compares the peer and the program with the model. Returns the program's path, or nothing where it doesn't answer
    by prices."""
    make(folder, SMALL, peer, SMALL_ROWS)
    program = os.path.abspath(given)
    if not os.access(program, os.X_OK) or not has_answers(folder, program):
        print(f"note: {program} doesn't answer by prices, and is not measured")
        program = ""
    for fronts, front in FRONTS:
        compare(folder, runs_of(program, peer, fronts, front), modelled(folder, SMALL, fronts, front))
    return program


def measure_all(given: argparse.Namespace, room: str) -> None:
    peer, preloaded = price_cases.peer_in(room), preload.built("report_memory", room)
    program = compare_all(os.path.join(room, "small"), given.program, peer)
    for name in given.cases.split(","):
        folder = os.path.join(os.path.abspath(given.folder or room), name)
        make(folder, CASES[name], peer, given.rows)
        measure(folder, runs_of(program, peer), given.turns, preloaded)
        if program:
            ask(folder, program)


def main() -> int:
    words = argparse.ArgumentParser(description="Measures how many rows a second are answered by prices.")
    words.add_argument("--rows", type=int, default=1_000_000)
    words.add_argument("--turns", type=int, default=3)
    words.add_argument("--program", default=programs.tested("hsplan-stream"))
    words.add_argument("--folder", default="", help="where the files are made and kept")
    words.add_argument("--cases", default=",".join(CASES), help="names with a comma between them")
    given = words.parse_args()
    if hasattr(os, "sched_setaffinity"):
        os.sched_setaffinity(0, {max(os.sched_getaffinity(0))})
    with tempfile.TemporaryDirectory() as room:
        measure_all(given, room)
    return 0


if __name__ == "__main__":
    programs.ended(main)
