#!/usr/bin/env python3
"""Runs hsplan without an installation: the program built here where it is newer than its sources, and otherwise
the released one.

    tools/try.py plan --settings F --demand F --costs F --capacity F
    make try ARGS='locate --option handle --servers 3 20.500.1234/film-5'

Files are named from the folder in which it is called. Standard input and the status are the program's. make cannot
pass a status on, so under `make try` a status other than 0 is printed on standard error, and make ends without an
error of its own.
"""
from __future__ import annotations

import subprocess
import sys

from lib import programs


def run(words: list[str]) -> int:
    """The status of the program, or 127 where no program can be run."""
    try:
        program = programs.chosen("hsplan")
    except programs.Missing as missing:
        print(missing, file=sys.stderr)
        return 127
    if program.is_other:
        print(f"note: this is {program.kind}", file=sys.stderr)
    return subprocess.run([program.path, *words]).returncode


def main() -> int:
    words = sys.argv[1:]
    from_make = words[:1] == ["--from-make"]
    words = words[1:] if from_make else words
    if not words:
        print(__doc__, file=sys.stderr)
        return 0 if from_make else 2
    status = run(words)
    if from_make and status == 127:
        return 1
    if from_make and status:
        print(f"status {status}", file=sys.stderr)
    return 0 if from_make else status


if __name__ == "__main__":
    programs.ended(main)
