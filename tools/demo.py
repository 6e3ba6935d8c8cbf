#!/usr/bin/env python3
"""Plans the service of examples/two-sites, has the printed plan judged, and shows what follows from it.

It runs the program built here where that is newer than its sources, and otherwise the released one.
"""
from __future__ import annotations

import os
import shutil
import subprocess
import sys
import tempfile

from lib import programs


EXAMPLE = os.path.join(programs.TOP, "examples", "two-sites")
INPUTS = "--settings settings.toml --demand demand.csv --costs costs.csv --capacity {}"
OWN = INPUTS.format("capacity.csv")
FREE = INPUTS.format("boundless.csv")
# What each command shows, its words, and the file that keeps what it prints.
STEPS = [
    ("which server each site asks for one handle", "locate --settings settings.toml 20.500.1234/film-5", None),
    ("what the record of a site holds", "site paris.site", None),
    ("a plan as if no server had a limit: all go to the nearest site", f"plan {FREE}", "nearest.txt"),
    ("a cheapest plan within the capacities", f"plan {OWN}", "plan.txt"),
    ("the loads that the nearest sites would have", f"report {FREE} --plan nearest.txt --kind load", None),
    ("the plan that was printed, judged by the checker", f"check {OWN} --plan plan.txt", None),
    ("the loads, and the most that room for one more query saves", f"report {OWN} --plan plan.txt --kind load", None),
    ("demand and cost of each region", f"report {OWN} --plan plan.txt --kind region", None),
]
END = """
Where to go on:
  your own files, now:            make try ARGS='plan --settings F --demand F --costs F --capacity F'
  the program for good:           make install PREFIX=$HOME/.local
  what it all means, by example:  docs/use/GUIDE.md"""


def shown(text: str) -> str:
    """A text with its middle left out, where it is long."""
    lines = text.splitlines(keepends=True)
    return "".join(lines[:9] + [f"... {len(lines) - 10} lines more\n"] + lines[-1:]) if len(lines) > 14 else text


def ran(program: str, folder: str) -> bool:
    """Runs each step over the files of the folder, and shows it. Returns whether all of them ended well and the
    checker said yes."""
    said = {}
    for meaning, words, kept in STEPS:
        ended = subprocess.run(
            [program, *words.split()], cwd=folder, stdout=subprocess.PIPE, stderr=subprocess.STDOUT, text=True
        )
        print(
            f"\n# {meaning}\n$ hsplan {words}{' > ' + kept if kept else ''}\n{shown(ended.stdout)}", end="", flush=True
        )
        if ended.returncode:
            return False
        said[words.split()[0]] = ended.stdout
        if kept:
            with open(os.path.join(folder, kept), "w", encoding="utf-8") as file:
                file.write(ended.stdout)
    return said["check"] == "yes\n"


def main() -> int:
    try:
        program = programs.chosen("hsplan")
    except programs.Missing as missing:
        print(missing, file=sys.stderr)
        return 1
    print(f"By {program.kind}.", flush=True)
    with tempfile.TemporaryDirectory() as room:
        folder = os.path.join(room, "two-sites")
        shutil.copytree(EXAMPLE, folder)
        accepted = ran(program.path, folder)
    if accepted:
        print(END)
    return 0 if accepted else 1


if __name__ == "__main__":
    programs.ended(main)
