#!/usr/bin/env python3
"""Measures what the built program does with files of 67,108,864 octets, the most that it reads whole.

    tools/measure/large.py [--program FILE] [--files "NAME;.."] [--fillers "NAME;.."]

Each file that the program reads is made in turn of a beginning that the program accepts and of one thing again and
again: brackets, dots, quotes, commas, empty lines, keys, tables, digits, zero octets, or one handle. The script
prints a table in Markdown with the seconds, the memory, the status and what the program prints on standard error.
"""

import argparse
import itertools
import os
import shutil
import sys
import tempfile
from collections.abc import Callable, Iterable, Iterator
from pathlib import Path

sys.path.insert(0, str(Path(__file__).resolve().parents[1]))

from lib import memory, preload, programs


SIZE = 67_108_864

INPUTS = "--settings settings.toml --demand demand.csv --costs costs.csv --capacity capacity.csv"
PLANNED = INPUTS + " --plan plan.txt"

# The file that is large, how it begins, and the words of the command that reads it.
FILES = {
    "settings": ("settings.toml", b"", "plan " + INPUTS),
    "settings, in a value": ("settings.toml", b"a = ", "plan " + INPUTS),
    "settings, in a text": ("settings.toml", b"a = '", "plan " + INPUTS),
    "values": ("list.values", b"", "site --index 1 list.values"),
    "values, of so many": ("list.values", bytes.fromhex("00ffffff"), "site --index 1 list.values"),
    "record": ("one_server.site", b"", "site one_server.site"),
    "demand": ("demand.csv", b"region,handle,count\n", "plan " + INPUTS),
    "demand, in a handle": ("demand.csv", b"region,handle,count\nr1,10/", "plan " + INPUTS),
    "costs": ("costs.csv", b"region,site,cost\n", "plan " + INPUTS),
    "capacity": ("capacity.csv", b"site,server_id,capacity\n", "plan " + INPUTS),
    "plan": ("plan.txt", b"HSPLAN 1\nPLAN\ncost 17\n", "check " + PLANNED),
    "log": ("log.csv", b"region,handle\n", "dispatch " + PLANNED + " --log log.csv"),
    "log, in a handle": ("log.csv", b"region,handle\nr1,10/", "dispatch " + PLANNED + " --log log.csv"),
    "log, of bodies": ("log.csv", b"region,body\nr1,", "dispatch " + PLANNED + " --log log.csv"),
    "events": ("events.csv", b"front,region,handle\n", "dispatch " + PLANNED + " --log events.csv --fronts 2"),
}


def numbered(pattern: bytes) -> Iterator[bytes]:
    return (pattern % number for number in itertools.count())


FILLERS: dict[str, Callable[[], Iterable[bytes]]] = {
    "brackets": lambda: itertools.repeat(b"[" * 4096),
    "dots": lambda: itertools.repeat(b"a." * 2048),
    "quotes": lambda: itertools.repeat(b'"' * 4096),
    "commas": lambda: itertools.repeat(b"," * 4096),
    "empty lines": lambda: itertools.repeat(b"\n" * 4096),
    "keys": lambda: numbered(b"k%07d = 1\n"),
    "tables": lambda: numbered(b"[t%07d]\n"),
    "digits": lambda: itertools.repeat(b"1" * 4096),
    "one handle": lambda: itertools.repeat(b"r1,10/1\n" * 512),
    "zero octets": lambda: itertools.repeat(bytes(4096)),
}


def fill(path: str, begins: bytes, pieces: Iterable[bytes]) -> None:
    """Writes a file of SIZE octets: the beginning, and then the pieces."""
    left = SIZE - len(begins)
    with open(path, "wb") as file:
        file.write(begins)
        for piece in pieces:
            file.write(piece[:left])
            left -= len(piece)
            if left <= 0:
                break


def measure(program: str, room: str, preloaded: str, name: str, filler: str) -> str:
    path, begins, words = FILES[name]
    folder = os.path.join(room, "data")
    shutil.copytree(os.path.join(programs.TOP, "examples", "base"), folder)
    try:
        fill(os.path.join(folder, path), begins, FILLERS[filler]())
        taken = memory.measured(program, words, folder, preloaded)
    finally:
        shutil.rmtree(folder)
    held = "unknown" if taken.kilobytes is None else f"{taken.kilobytes / 1024:.0f} MB"
    return f"| {name} | {filler} | {taken.seconds:.2f} s | {held} | {taken.status} | {taken.said} |"


def main() -> int:
    words = argparse.ArgumentParser(description="Measures what the built program does with the largest files.")
    words.add_argument("--program", default=programs.tested("hsplan"))
    words.add_argument("--files", default=";".join(FILES), help="names with a semicolon between them")
    words.add_argument("--fillers", default=";".join(FILLERS), help="names with a semicolon between them")
    given = words.parse_args()
    program = os.path.abspath(given.program)
    if programs.is_absent(program):
        return 1
    print("| File | Filled with | Time | Memory | Status | Said |\n|---|---|---|---|---|---|")
    with tempfile.TemporaryDirectory() as room:
        preloaded = preload.built("report_memory", room)
        for name, filler in itertools.product(given.files.split(";"), given.fillers.split(";")):
            print(measure(program, room, preloaded, name, filler), flush=True)
    return 0


if __name__ == "__main__":
    sys.exit(main())
