#!/usr/bin/env python3
"""Runs the built programs over the cases in checks/hsplan and checks/hsplan-stream, whose form tools/lib/cases.py says.

    tools/gate/check_program.py [--jobs N] [--most N]    refuses N allocations of a case that has more

Each case with words is run twice: with the words as arguments, and with the words on standard input. Then every
allocation of each case is refused in turn. The program has to report that, or to end as without a refusal. The commands
that print as they read may have printed their first lines by then.
"""

import argparse
import concurrent.futures
import os
import sys
import tempfile
from collections.abc import Sequence
from pathlib import Path
from typing import NamedTuple

sys.path.insert(0, str(Path(__file__).resolve().parents[1]))

from lib import cases, children, growth, preload, programs

# The commands that print as they read.
GOING_ON = ([b"dispatch"], [b"places"], [b"answer"], [b"faults"])


def is_cut_short(name: str, words: list[bytes], got: children.Child, wanted: cases.Ended) -> bool:
    """Whether a run ended because memory ran out. Then it printed nothing or, by a command that prints as it reads,
    some of the lines."""
    is_begun = words[:1] in GOING_ON and got[0].endswith(b"\n") and wanted[0].startswith(got[0])
    return got[1:] == (f"{name}: OutOfMemory\n".encode(), 4) and (not got[0] or is_begun)


class Room(NamedTuple):
    """Where the cases of a program run: its name, its path, the shared files, and the library that refuses."""

    name: str
    program: str
    data: str
    preloaded: str


def counted(room: Room, words: list[bytes], given: bytes, folder: str) -> tuple[cases.Ended, int | None]:
    """What a run does, and how many allocations it has."""
    with tempfile.TemporaryDirectory() as other:
        path = os.path.join(other, "count")
        order = [room.program.encode(), *words]
        got = children.run(order, given, folder, LD_PRELOAD=room.preloaded, COUNT_GROWTH=path)
        return got, preload.count_in(path)


class Run(NamedTuple):
    """A case that is run one way in a folder: its faults, what it has to print, and its number of allocations."""

    case: cases.Case
    way: cases.Way
    folder: str
    faults: list[str]
    wanted: cases.Ended
    held: int

    @property
    def words(self) -> list[bytes]:
        """The words, however they are given."""
        return self.way[0] or self.way[1].split()


def run_of(room: Room, case: cases.Case, folder: str, way: cases.Way) -> Run:
    faults = cases.faults_of(room.program, case, way, folder)
    got, count = counted(room, *way, folder)
    wanted = case.wanted(got[0])
    faults += [] if got == wanted else [f"{case.name}: by files: wanted {wanted}, got {got}"]
    faults += [f"{case.name}: no count of allocations"] if count is None else []
    return Run(case, way, folder, faults, got, count or 0)


def refused(room: Room, run: Run, numbers: Sequence[int]) -> list[str]:
    """The faults of a run where each of these allocations is refused."""
    words, given = run.way
    ordered = list(map(str, numbers))
    found = children.ended(room.preloaded, [room.program.encode(), *words], given, run.folder, ordered)
    faults = [] if len(found) == len(numbers) else [f"{run.case.name}: {len(found)} of {len(numbers)} refused"]
    return faults + [
        f"{run.case.name}: allocation {number} refused: {got}"
        for number, got in zip(numbers, found)
        if got != run.wanted and not is_cut_short(room.name, run.words, got, run.wanted)
    ]


def check(pool: concurrent.futures.Executor, name: str, folder: str, most: int | None) -> list[str]:
    data = cases.base(name, folder, programs.tested("hsplan"))
    room = Room(name, programs.tested(name), data, preload.built("refuse_growth", folder))
    every = cases.cases_in(name)
    places = [(case, cases.folder_of(case, folder, data)) for case in every]
    ways = [(case, place, way) for case, place in places for way in case.ways()]
    runs = list(pool.map(lambda it: run_of(room, *it), ways))
    parts = [(run, part) for run in runs for part in children.pieces(growth.numbers(run.held, most or run.held))]
    found = pool.map(lambda it: refused(room, *it), parts)
    faults = [fault for run in runs for fault in run.faults] + [fault for it in found for fault in it]
    faults += [] if every else [f"{name}: no cases"]
    count, held = sum(len(part) for _, part in parts), sum(run.held for run in runs)
    lines = [*faults, f"{name}: {len(every)} cases, {count} of {held} allocations refused, {len(faults)} faults"]
    print("\n".join(lines), flush=True)
    return faults


def main() -> int:
    arguments = argparse.ArgumentParser(description="Runs the built programs over the cases in checks.")
    growth.jobs_of(arguments)
    arguments.add_argument("--most", type=int, metavar="N", help="refuse N allocations of each case that has more")
    given = arguments.parse_args()
    if programs.is_absent(*map(programs.tested, programs.PROGRAMS)):
        return 1
    faults = []
    with concurrent.futures.ThreadPoolExecutor(given.jobs) as pool:
        for name in programs.PROGRAMS:
            with tempfile.TemporaryDirectory() as folder:
                faults += check(pool, name, folder, given.most)
    return 1 if faults else 0


if __name__ == "__main__":
    sys.exit(main())
