#!/usr/bin/python3
"""Gives the built programs inputs that are changed at random, or written from fields that are drawn, and judges their
answers.

    tools/fuzz/fuzz.py [--cases N] [--jobs N] [--seed S] [--kinds KIND,..] [--program FILE] [--stream FILE]

Hypothesis (Debian's python3-hypothesis) draws the inputs by the seed, N of each kind, and makes one smaller at which
a judge finds a fault. A program runs on them again and again in one process, tools/fuzz/runner.c preloaded, with
words and files in memory.

Of every answer holds: two runs agree; the line on standard error is one of the program's own, and the status suits
it; the program gives back all its memory; time and memory are within a bound that is linear in the octets of the
input. The rest stands with each judge: of hsplan in tools/fuzz/judges.py, of hsplan-stream in stream_judges.py beside
it, where the answers to written logs are those of tools/lib/oracle.py, in price_judges.py, where the verdicts on
certificates by prices are those of tools/lib/price_verdicts.py, and in price_answer_judges.py, where the answers by
them are those of tools/lib/price_answers.py. The gate doesn't run this script.
"""

import argparse
import concurrent.futures
import os
import sys
import tempfile
import traceback
from itertools import repeat
from pathlib import Path
from typing import Any

sys.path.insert(0, str(Path(__file__).resolve().parents[1]))

from lib import growth, packages, programs

# The programs, each with the option that names its file.
PROGRAMS = {"hsplan": "--program", "hsplan-stream": "--stream"}


def kinds() -> dict[str, Any]:
    """All kinds of cases, by their names. Without Hypothesis none can be named."""
    import judges
    import price_answer_judges
    import price_judges
    import stream_judges

    return {**judges.KINDS, **stream_judges.KINDS, **price_judges.KINDS, **price_answer_judges.KINDS}


def judged(name: str, asked: argparse.Namespace, preloaded: str) -> tuple[int, str]:
    """How many runs a kind of cases took, and the fault that was found, if there is one."""
    from draws import WHERE
    from hypothesis import HealthCheck, given, seed, settings
    from runner import Runner

    kind, unhealthy = kinds()[name], list(HealthCheck)
    runners = {it: Runner(it, os.path.abspath(getattr(asked, it)), preloaded) for it in PROGRAMS}
    program = runners[kind.program]
    program.beside = runners

    @seed(f"{asked.seed} {name}")
    @settings(max_examples=asked.cases, deadline=None, database=None, suppress_health_check=unhealthy)
    @given(kind.drawn, WHERE)
    def case(drawn: Any, where: Any) -> None:
        kind.judge(program, drawn, where)

    fault = ""
    try:
        case()
    except Exception:
        fault = f"--seed {asked.seed}: {name}: {traceback.format_exc()}"
    for one in runners.values():
        one.end()
    return sum(one.runs for one in runners.values()), fault


def main() -> int:
    words = argparse.ArgumentParser(description="Gives the built programs inputs that are drawn, and judges answers.")
    growth.jobs_of(words)
    words.add_argument("--cases", type=int, default=1000, help="cases of each kind (1,000)")
    words.add_argument("--seed", type=int, default=1)
    words.add_argument("--kinds", default="", help="names with a comma between them")
    for name, option in PROGRAMS.items():
        words.add_argument(option, dest=name, metavar="FILE", default=programs.tested(name))
    given = words.parse_args()
    packages.install(packages.absent(["python3-hypothesis"]))
    from runner import built

    chosen = [name for name in kinds() if not given.kinds or name in given.kinds.split(",")]
    faults = 0
    with tempfile.TemporaryDirectory() as room, concurrent.futures.ProcessPoolExecutor(given.jobs) as pool:
        answers = pool.map(judged, chosen, repeat(given), repeat(built(room)))
        for name, (runs, fault) in zip(chosen, answers):
            faults += bool(fault)
            print(fault or f"{name}: {given.cases} cases, {runs} runs", flush=True)
    print(f"fuzz: {len(chosen)} kinds, {given.cases} cases each, {faults} faults")
    return 1 if faults or not chosen else 0


if __name__ == "__main__":
    sys.exit(main())
