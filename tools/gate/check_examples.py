#!/usr/bin/env python3
"""Runs the commands of each examples/NAME/transcript.txt with the built program, and compares what they print.

    tools/gate/check_examples.py [--program FILE] [NAME..]    compares, and fails where a command prints something else
    tools/gate/check_examples.py --record [NAME..]            writes what the commands print into the transcripts;
                                                         read it before you keep it
"""

import argparse
import glob
import os
import sys
from pathlib import Path

sys.path.insert(0, str(Path(__file__).resolve().parents[1]))

from lib import examples, programs, transcripts


def prepare(folder: str) -> None:
    """Writes the large example, which is not kept with the sources."""
    examples.write(os.path.join(folder, "examples", "twelve-sites", "out"), examples.twelve_sites())


def read_steps(path: str) -> list[transcripts.Step]:
    with open(path, encoding="utf-8") as file:
        return transcripts.steps_of(file.read().splitlines())


def paths_of(names: list[str]) -> list[str]:
    """The transcripts of the examples with these names, or of all examples where there is no name."""
    if names:
        return [os.path.join(programs.TOP, "examples", it, "transcript.txt") for it in names]
    return sorted(glob.glob(os.path.join(programs.TOP, "examples", "*", "transcript.txt")))


def record(path: str, steps: list[transcripts.Step], program: str) -> None:
    for step, got in zip(steps, transcripts.printed_by(steps, program, prepare)):
        step.wanted = ["not run"] if got is None else got
    with open(path, "w", encoding="utf-8") as file:
        file.write(transcripts.text_of(steps))


def main() -> int:
    arguments = argparse.ArgumentParser(description="Compares what the commands of the examples print.")
    arguments.add_argument(
        "--program", default=transcripts.PROGRAM, help="the program that is run, if not the built one"
    )
    arguments.add_argument("--record", action="store_true", help="write into the transcripts what is printed")
    arguments.add_argument("names", nargs="*", help="the examples, if not all")
    chosen = arguments.parse_args()
    if programs.is_absent(chosen.program):
        return 1
    found = [(path, read_steps(path)) for path in paths_of(chosen.names)]
    if chosen.record:
        for path, steps in found:
            record(path, steps, chosen.program)
    faults = [
        fault
        for path, steps in found
        for fault in transcripts.faults_of(os.path.relpath(path, programs.TOP), steps, chosen.program, prepare)
    ]
    count = sum(len(steps) for _, steps in found)
    return programs.concluded(faults, f"examples: {len(found)} transcripts, {count} commands,", bool(count))


if __name__ == "__main__":
    sys.exit(main())
