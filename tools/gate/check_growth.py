#!/usr/bin/env python3
"""Refuses each allocation of each test in turn. Each test has to end well even then: it accepts out of memory as an
answer.

    tools/gate/check_growth.py [--jobs N] [--most N | --all | --count] [CRATE]..

It runs the test programs that `rt ci` leaves in crates/NAME/out/NAME_tests, side by side on the processors. Of how many
allocations are refused says tools/lib/growth.py; with --most N, N of each test that has more, with --all each, and with
--count none: then it prints how many there are. A test of which some are left out is named with both numbers.
"""

import argparse
import concurrent.futures
import os
import subprocess
import sys
import tempfile
from collections.abc import Sequence
from pathlib import Path
from typing import NamedTuple

sys.path.insert(0, str(Path(__file__).resolve().parents[1]))

from lib import children, growth, memory, preload, programs


class Counted(NamedTuple):
    """A test that ran without a refusal: its fault, if any, how many allocations it has, and the seconds it took."""

    test: str
    faults: list[str]
    held: int
    seconds: float


def has_tests(crate: str) -> bool:
    folder = os.path.join("crates", crate, "src")
    names = sorted(os.listdir(os.path.join(programs.TOP, folder)))
    return any("#[test]" in programs.text_of(folder, it) for it in names)


def tests_of(program: str) -> list[str]:
    listed = subprocess.run([program, "--list"], stdout=subprocess.PIPE, text=True).stdout
    return [line[: -len(": test")] for line in listed.splitlines() if line.endswith(": test")]


def counted(program: str, test: str, preloaded: str) -> Counted:
    with tempfile.TemporaryDirectory() as room:
        path = os.path.join(room, "count")
        before = memory.spent_below()
        ended = subprocess.run(
            [program, test],
            env=dict(os.environ, LD_PRELOAD=preloaded, COUNT_GROWTH=path),
            stdout=subprocess.PIPE,
            stderr=subprocess.STDOUT,
            text=True,
            errors="replace",
        )
        spent, count = memory.spent_below() - before, preload.count_in(path)
    fault = f"{test}: status {ended.returncode}, count {count}: {ended.stdout}"
    return Counted(test, [fault] if ended.returncode or count is None else [], count or 0, spent)


def refused(program: str, test: str, preloaded: str, numbers: Sequence[int]) -> list[str]:
    """The faults of a test where each of these allocations is refused."""
    words = [program.encode(), test.encode()]
    found = children.ended(preloaded, words, b"", programs.TOP, list(map(str, numbers)))
    faults = [] if len(found) == len(numbers) else [f"{test}: {len(found)} of {len(numbers)} allocations refused"]
    return faults + [
        f"{test}: allocation {number} refused: status {it.status}: {(it.output + it.error).decode(errors='replace')}"
        for number, it in zip(numbers, found)
        if it.status != 0
    ]


def check(pool: concurrent.futures.Executor, crate: str, preloaded: str, most: int | None) -> list[str]:
    if not has_tests(crate):
        return []
    program = os.path.join(programs.TOP, "crates", crate, "out", crate + "_tests")
    if not os.access(program, os.X_OK):
        return [f"{crate}: no test program {program}: run rt ci first"]
    tests = [counted(program, test, preloaded) for test in tests_of(program)]
    chosen = {it.test: growth.numbers(it.held, most) for it in tests}
    parts = [(test, part) for test, numbers in chosen.items() for part in children.pieces(numbers)]
    found = pool.map(lambda it: refused(program, it[0], preloaded, it[1]), parts)
    faults = [f"{crate} {fault}" for it in (*(test.faults for test in tests), *found) for fault in it]
    count, held = sum(map(len, chosen.values())), sum(it.held for it in tests)
    faults += [] if tests else [f"{crate}: the test program lists no test"]
    faults += [] if count or most == 0 and held else [f"{crate}: none of its tests took memory"]
    print(
        f"{crate}: {len(tests)} tests, {count} of {held} allocations refused, {len(faults)} faults, "
        f"refusing all would take at most {sum(it.held * it.seconds for it in tests) / 60:.1f} minutes of the processor",
        flush=True,
    )
    for it in tests:
        if len(chosen[it.test]) < it.held:
            print(f"  {it.test}: {len(chosen[it.test])} of {it.held}", flush=True)
    return faults


def main() -> int:
    words = argparse.ArgumentParser(description="Refuses the allocations of the tests in turn.")
    growth.jobs_of(words)
    words.add_argument("--most", type=int, metavar="N", help="refuse N allocations of each test that has more")
    words.add_argument(
        "--all", dest="most", action="store_const", const=sys.maxsize, help="refuse each allocation of each test"
    )
    words.add_argument(
        "--count", dest="most", action="store_const", const=0, help="refuse none, and print how many there are"
    )
    words.add_argument("names", nargs="*", metavar="CRATE")
    given = words.parse_args()
    with tempfile.TemporaryDirectory() as folder, concurrent.futures.ThreadPoolExecutor(given.jobs) as pool:
        preloaded = preload.built("refuse_growth", folder)
        crates = given.names or list(programs.dependencies())
        faults = [fault for crate in crates for fault in check(pool, crate, preloaded, given.most)]
    return programs.concluded(faults, "refused growth:")


if __name__ == "__main__":
    sys.exit(main())
