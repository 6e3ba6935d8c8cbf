#!/usr/bin/env python3
"""Measures which lines and branches of the companion its tests reach, in every process that they start.

    tools/measure/cover_companion.py [--jobs J] [--data FILE] [PYTEST ARGUMENTS]..

Printed are the lines and branches that no test reaches, module by module, and their part. `--data FILE` keeps what was
measured, with the tests that reach each line; tools/fuzz/plant_companion.py reads it. This takes Debian's python3-coverage.
The gate doesn't run this script.
"""

import argparse
import contextlib
import os
import shutil
import sqlite3
import subprocess
import tempfile
from collections import defaultdict
import sys
from pathlib import Path

sys.path.insert(0, str(Path(__file__).resolve().parents[1]))

from lib import packages, programs


PYTHON = "/usr/bin/python3"
COMPANION = os.path.join(programs.TOP, "companion")
HOOK = os.path.join(programs.TOP, "tools", "measure", "covered")
LEAST = 95
CONFIGURATION = """[run]
branch = true
parallel = true
sigterm = true
data_file = {room}/reached
source_pkgs = hsp
context = ${{PYTEST_CURRENT_TEST-}}
disable_warnings = couldnt-parse, include-ignored, module-not-measured, no-data-collected, trace-changed
[paths]
hsp =
    {companion}/hsp
    */hsp
[report]
show_missing = true
skip_covered = true
exclude_lines =
    pragma: no cover
    raise AssertionError
"""


def covered(room: str, jobs: int, words: list[str]) -> int:
    path = os.pathsep.join(filter(None, [HOOK, os.environ.get("PYTHONPATH", "")]))
    own = programs.variables()
    environment = {
        **own,
        **os.environ,
        "PYTHONPATH": path,
        "PYTHONDONTWRITEBYTECODE": "1",
        "COVERAGE_PROCESS_START": os.path.join(room, "configuration"),
    }
    tests = [it for it in words if it.startswith("tests")]
    command = [PYTHON, "-m", "pytest", "-q", "-p", "no:cacheprovider", "-p", "sitecustomize", "-n", str(jobs)]
    command += ["-W", "ignore::pytest.PytestAssertRewriteWarning", *([] if tests else ["tests"])]
    return subprocess.run([*command, *words], cwd=COMPANION, env=environment).returncode


def reported(room: str, *words: str) -> int:
    whole = [PYTHON, "-m", "coverage", words[0], f"--rcfile={room}/configuration", *words[1:]]
    return subprocess.run(whole, cwd=COMPANION).returncode


def kept(room: str, path: str) -> None:
    seconds: defaultdict[str, float] = defaultdict(float)
    with open(os.path.join(room, "configuration.seconds"), encoding="utf-8") as file:
        for line in file:
            taken, _, test = line.rstrip("\n").partition(" ")
            seconds[test] += float(taken)
    shutil.copy(os.path.join(room, "reached"), path)
    with contextlib.closing(sqlite3.connect(path)) as data, data:
        data.execute("create table seconds (test text primary key, seconds real)")
        data.executemany("insert into seconds values (?, ?)", seconds.items())


def main() -> int:
    arguments = argparse.ArgumentParser(description="Measures what the companion's tests reach.")
    arguments.add_argument("--jobs", type=int, default=2)
    arguments.add_argument("--data", help="keeps what was measured in this file")
    chosen, words = arguments.parse_known_args()
    packages.install(packages.absent(["python3-coverage"]))
    with tempfile.TemporaryDirectory() as room:
        with open(os.path.join(room, "configuration"), "w", encoding="utf-8") as file:
            file.write(CONFIGURATION.format(room=room, companion=COMPANION))
        status = covered(room, chosen.jobs, words)
        reported(room, "combine", "--quiet")
        status |= reported(room, "report", f"--fail-under={LEAST}")
        if chosen.data:
            kept(room, chosen.data)
    return status


if __name__ == "__main__":
    programs.ended(main)
