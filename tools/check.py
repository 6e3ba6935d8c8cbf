#!/usr/bin/env python3
"""Runs the scripts that check the programs, side by side: those without the kit, and those of the gate.

    tools/check.py               `make check`: what needs no kit, over the released programs
    tools/check.py --unproved    the same, which ends with NOT PROVED and status 1 at best, as `make test` without the kit
    tools/check.py --built       the end of `make test`: the steps of `make scripts`, over the programs built here

Each ends with status 0 only where no step fails. RT_JOBS=N takes N processors.

Without the kit the steps are those of `make quick` and `make scripts`, read from the Makefile, and a minute of random
inputs. Those are left out that take what only the kit makes. THINNED says which try less than in the gate, so that all
end within ten minutes on two processors. The sums of the released programs are compared first.
"""
from __future__ import annotations

import argparse
import concurrent.futures
import os
import re
import subprocess
import sys
import time
from typing import NamedTuple

from lib import lanes, packages, programs

# The steps that take what only the kit makes.
LEFT_OUT = {
    "check_install": "it installs the programs built here; check_release installs the released ones",
    "check_growth": "it runs the tests of crates",
}
# Words by which a step tries less than in the gate, and what it tries then.
THINNED = {
    "check_docs": ("--bash", "commands of documents in bash and no other shell"),
    "check_program": ("--most 2000", "of each case at most 2,000 refused allocations"),
    "check_stream": ("--million 200000", "logs of 200,000 handles, not 1,000,000"),
    "check_io": ("--each 20", "one in twenty of the failing calls"),
    "check_companion": (
        "--ignore tests/test_fleet.py --ignore tests/test_doctor_random.py",
        "no tests of Dask's workers, nor of folders that are broken at random",
    ),
    "check_release": ("--unbuilt", "no comparison of the released programs with those that are proved"),
}
# The steps that spread over all processors by themselves, each by these words with their number.
SPREAD = {
    "check_growth": "--jobs",
    "check_companion": "-n",
    "check_program": "--jobs",
    "check_io": "--jobs",
    "fuzz": "--jobs",
}
FUZZ = "tools/fuzz/fuzz.py --cases 100"
# Of a step that failed so many last lines are printed again at the end, each cut to so many characters.
LAST, WIDE = 20, 400
# The steps that take longest begin first.
FIRST = ("check_deb", "check_docs", "check_limits", "check_stream", "check_completions")


class Ended(NamedTuple):
    """A step that has ended: its words, whether it failed, and what it printed."""

    words: list[str]
    failed: bool
    printed: str

    def failure(self) -> str:
        """A line that names it as failed, and the last lines that it printed."""
        lines = [f"failed: {name_of(self.words)}", *(f"  {it[:WIDE]}" for it in self.printed.splitlines()[-LAST:])]
        return "".join(f"{it}\n" for it in lines)


def name_of(words: list[str]) -> str:
    return os.path.splitext(os.path.basename(words[0]))[0]


def listed(target: str) -> list[list[str]]:
    """The steps of a target of the Makefile, each by its words."""
    recipe = re.search(rf"^{target}:.*\n((?:\t.*\n)+)", programs.text_of("Makefile"), re.M)
    if not recipe:
        raise programs.Missing(f"the Makefile has no target {target}, and tools/check.py names it")
    return [it.split() for it in recipe[1].splitlines()]


def without_the_kit() -> list[list[str]]:
    """The steps that do not take what only the kit makes, some of them thinned, and random inputs."""
    every = [*listed("quick"), *listed("scripts"), FUZZ.split()]
    if absent := sorted({*LEFT_OUT, *THINNED, *SPREAD, *FIRST} - set(map(name_of, every))):
        raise programs.Missing(f"the Makefile has no step {' '.join(absent)}, and tools/check.py names it")
    kept = [it for it in every if name_of(it) not in (*LEFT_OUT, "packages") and it[1:] != ["--names"]]
    return [[*it, *THINNED[name_of(it)][0].split()] if name_of(it) in THINNED else it for it in kept]


def dealt(every: list[list[str]], processors: int) -> tuple[list[list[str]], list[list[str]]]:
    """The steps that run side by side, and those that take all processors and run one after the other."""
    beside = [it for it in every if name_of(it) not in SPREAD]
    beside.sort(key=lambda it: FIRST.index(name_of(it)) if name_of(it) in FIRST else len(FIRST))
    return beside, [[*it, SPREAD[name_of(it)], str(processors)] for it in every if name_of(it) in SPREAD]


def ran(words: list[str]) -> Ended:
    """Runs a step, and prints what it printed once it has ended."""
    begun = time.monotonic()
    done = subprocess.run(
        words, cwd=programs.TOP, stdin=subprocess.DEVNULL, stdout=subprocess.PIPE, stderr=subprocess.STDOUT, text=True
    )
    seconds = time.monotonic() - begun
    print(f"$ {' '.join(words)}    # {seconds:.0f} seconds\n{done.stdout}", end="", flush=True)
    return Ended(words, done.returncode != 0, done.stdout)


def ran_all(every: list[list[str]]) -> tuple[list[Ended], str]:
    """Runs all steps. Side by side runs one more than there are processors, since steps wait for others at times.
    Returns those that failed, and a line that says how many there were and how long they took."""
    begun, processors = time.monotonic(), int(os.environ.get("RT_JOBS") or lanes.processors())
    beside, alone = dealt(every, processors)
    with concurrent.futures.ThreadPoolExecutor(processors + 1) as pool:
        done = [*pool.map(ran, beside), *map(ran, alone)]
    failed = [it for it in done if it.failed]
    return failed, f"{len(done)} steps, {len(failed)} failed, {(time.monotonic() - begun) / 60:.1f} minutes"


def check_released() -> bool:
    """Whether every step passes that needs no kit, over the released programs."""
    if why := programs.unfit():
        raise programs.Missing(why)
    os.environ.update({programs.variable(it): programs.released_program(it) for it in programs.PROGRAMS})
    other = "" if programs.made().get("sources") == programs.digest() else ", made of other sources than these"
    print(f"over the released programs, version {programs.released()}{other}", flush=True)
    failed, line = ran_all(without_the_kit())
    for title, lines in {
        "thinned": [f"{it}: {what}" for it, (_, what) in THINNED.items()],
        "left out": [f"{it}: {why}" for it, why in LEFT_OUT.items()],
    }.items():
        print("".join(f"{title}: {it}\n" for it in lines), end="")
    print("".join(it.failure() for it in failed) + f"check: {line}")
    return not failed


def check_built() -> bool:
    """Whether every script of the gate passes, over the programs that are built here."""
    failed, line = ran_all(listed("scripts"))
    print("".join(it.failure() for it in failed) + f"scripts: {line}")
    return not failed


def main() -> int:
    arguments = argparse.ArgumentParser(description="Runs the scripts that check the programs.")
    which = arguments.add_mutually_exclusive_group()
    which.add_argument("--unproved", action="store_true", help="say that nothing was proved, and end with 1")
    which.add_argument("--built", action="store_true", help="check the programs that are built here, by every script")
    given = arguments.parse_args()
    if given.unproved:
        print(f"{programs.NEED_KIT}; without it this is `make check`", flush=True)
    try:
        fine = check_built() if given.built else packages.are_there() and check_released()
    except programs.Missing as missing:
        print(missing, file=sys.stderr)
        fine = False
    if given.unproved:
        print("NOT PROVED: the proofs, the edits that must fail and the tests of crates need the kit")
    return 0 if fine and not given.unproved else 1


if __name__ == "__main__":
    programs.ended(main)
