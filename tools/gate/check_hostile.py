#!/usr/bin/env python3
"""Gives the built program files that are cut short or forged, one octet off a limit, or at the ends of their numbers.

    tools/gate/check_hostile.py [--program FILE] [--stream FILE]

The cases stand in checks/hostile, and in GROUPS those of texts that are cut at each octet and of the longest files and
logs. Then records and lists with forged counts are measured: on each the program may use at most 1 MB more memory than
on a record of 48 octets. Last, a pass over a log of handles of one hash may take at most three times as long as over
handles that are drawn, of the same lengths.
"""

import argparse
import os
import random
import shutil
import subprocess
import sys
import tempfile
from collections.abc import Mapping
from pathlib import Path
from typing import NamedTuple

sys.path.insert(0, str(Path(__file__).resolve().parents[1]))

from lib import cases, collisions, memory, oracle, preload, programs


MEGABYTE = 1024

INPUTS = oracle.INPUTS.encode()
PLAN = b"plan " + INPUTS
CHECK = b"check " + INPUTS + b" --plan plan.txt"
DISPATCH = b"dispatch " + INPUTS + b" --plan plan.txt --log log.csv"
SITE = b"site site"
VALUE = b"site --index 1 values"

# Files by their names: their octets, or how many zero octets they have.
Files = Mapping[str, bytes | int]


class Case(NamedTuple):
    """The files that differ from the example files, the words, and the wanted texts and status."""

    name: str
    files: Files
    words: bytes
    printed: bytes
    reported: bytes
    status: int


ONE_SERVER = bytes.fromhex(
    "0001 0200 0001 00 01 00000000 00000000 00000001 00000007 00000000000000000000000000000001 00000000 00000000"
)
FORGED = b"\xff" * 4


def example(name: str) -> bytes:
    with open(os.path.join(programs.TOP, "examples", "base", name), "rb") as file:
        return file.read()


def refused(name: str, files: Files, words: bytes, line: str) -> Case:
    return Case(name, files, words, b"", b"hsplan: " + line.encode() + b"\n", 1)


def cut_sites() -> list[Case]:
    """The first n octets of a record of two servers. The fault names the last field that begins at n or before."""
    fields = [0, 2, 4, 6, 7, 8, 12, 16, 20, 24, 40, 44, 48, 52, 68, 72]
    whole = example("two_servers.site")
    ends = {n: f"site: Truncated at {max(at for at in fields if at <= n)}" for n in range(76)}
    return [refused(f"site of {n} octets", {"site": whole[:n]}, SITE, line) for n, line in ends.items()]


FORGED_SITES = [
    ("filter", ONE_SERVER[:8] + FORGED, 12),
    ("attributes", ONE_SERVER[:12] + FORGED, 16),
    ("key", ONE_SERVER[:40] + FORGED + ONE_SERVER[44:], 44),
    ("interfaces", ONE_SERVER[:44] + FORGED, 48),
]


def cut_plans() -> list[Case]:
    whole, line = example("plan.txt"), "certificate: Ended"
    return [refused(f"plan of {n} octets", {"plan.txt": whole[:n]}, CHECK, line) for n in range(len(whole))]


def long_logs() -> list[Case]:
    """A log of as many rows as a log may have, and a log of one row more."""
    most = 10_000_000
    ends = {most: (b"assigned 0 spent 0 unknown 10000000\n", 0), most + 1: (b"hsplan: log: LogTooLong\n", 1)}
    return [
        Case(f"log of {n:,} rows", {"log.csv": b"region,handle\n" + b"a,b/\n" * n}, DISPATCH, b"unknown\n" * most, *end)
        for n, end in ends.items()
    ]


def large_files() -> list[Case]:
    """A file of the greatest size is read. A file of one octet more is not."""
    limit = 67_108_864
    failed = (b"", b"hsplan: read failed\n", 5)
    tables = [(name, PLAN) for name in ("settings.toml", "demand.csv", "costs.csv", "capacity.csv")]
    names = [("site", SITE), ("values", VALUE), *tables, ("plan.txt", CHECK)]
    at_limit = [
        ("site", SITE, "site: Trailing at 20"),
        ("values", VALUE, "values: Trailing at 4"),
        ("demand.csv", PLAN, "demand: Header"),
    ]
    return [Case(f"{name} of an octet too many", {name: limit + 1}, words, *failed) for name, words in names] + [
        refused(f"{name} of the limit", {name: limit}, words, line) for name, words, line in at_limit
    ]


def first_lines() -> list[Case]:
    """The words on standard input have at most 65,536 octets."""
    place = b"locate --option local --servers 2 10/3"
    usage = (b"", b"hsplan: Usage\n", 2)
    return [
        Case("a line of 65,536 octets", {}, place.ljust(65_536), b"1\n", b"", 0),
        Case("a line of 65,537 octets", {}, place.ljust(65_537), *usage),
        Case("65,536 octets and an end", {}, place.ljust(65_536) + b"\n", b"1\n", b"", 0),
        Case("words behind a line", {}, b"\n" + place, *usage),
    ]


GROUPS = [cut_sites, cut_plans, long_logs, large_files, first_lines]


def write(folder: str, name: str, text: bytes | int) -> None:
    """Writes a file with these octets or, for a number, with that many zero octets."""
    with open(os.path.join(folder, name), "wb") as file:
        if isinstance(text, int):
            file.truncate(text)
        else:
            file.write(text)


def folder_with(room: str, files: Files) -> str:
    folder = os.path.join(room, "data")
    shutil.rmtree(folder, ignore_errors=True)
    shutil.copytree(os.path.join(programs.TOP, "examples", "base"), folder)
    for name, text in files.items():
        write(folder, name, text)
    return folder


def shown(octets: bytes) -> bytes:
    return octets if len(octets) < 300 else octets[:300] + b".."


def fault_of(program: str, room: str, case: Case) -> list[str]:
    got = cases.run(program, [], case.words, folder_with(room, case.files))
    wanted = (case.printed, case.reported, case.status)
    texts = [f"{tuple(map(shown, it[:2]))} {it[2]}" for it in (wanted, got)]
    return [] if got == wanted else [f"{case.name}: wanted {texts[0]}, got {texts[1]}"]


def memory_on(program: str, room: str, preloaded: str, words: bytes, files: Files) -> int:
    """The most memory that the program uses, in kilobytes."""
    return memory.measured(program, words.decode(), folder_with(room, files), preloaded).kilobytes or sys.maxsize


def check_memory(program: str, room: str) -> list[str]:
    """The faults of the forged counts. The program may take no memory for what a forged count states."""
    preloaded = preload.built("report_memory", room)
    plain = memory_on(program, room, preloaded, SITE, {"site": ONE_SERVER})
    forged = [(name, SITE, {"site": octets}) for name, octets, _ in FORGED_SITES]
    forged.append(("values", VALUE, {"values": FORGED}))
    found = [(name, memory_on(program, room, preloaded, words, files)) for name, words, files in forged]
    print(
        f"memory in KB: {plain} on a record of 48 octets, on forged counts "
        + ", ".join(f"{name} {most}" for name, most in found)
    )
    return [
        f"forged {name}: {most} KB, and {plain} KB on a record of 48 octets"
        for name, most in found
        if most > plain + MEGABYTE
    ]


# ---- handles whose hashes are the same

MOST_TIMES, PASSES = 3, 3
# The most rows of a table of demand, the rows that hsplan-stream keeps of a log, and rows for one place of a table.
DEMAND_ROWS, SEEN_ROWS, PLACED_ROWS = 8_192, 65_536, 4_096
QUERIES = 300_000
TABLES = INPUTS.decode().split()
BY_PRICES = "--settings settings.toml --costs costs.csv --capacity capacity.csv".split()
ROOMY = b"site,server_id,capacity\n" + b"".join(
    b"%s,%d,1000000000\n" % server for server in [(b"E", 7), (b"E", 3), (b"W", 1), (b"W", 2), (b"W", 9)]
)


def log_of(handles: list[bytes], header: bytes, end: bytes = b"") -> bytes:
    return header + b"\n" + b"".join(b"r1," + handle + end + b"\n" for handle in handles)


def passes(program: str, stream: str, room: str, handles: list[bytes]) -> dict[str, list[str]]:
    """The words of each pass over these handles, and the files for them in the folder of a case."""
    rows = handles[:DEMAND_ROWS]
    files = {
        "capacity.csv": ROOMY,
        "demand.csv": log_of(rows, b"region,handle,count", b",100"),
        "log.csv": log_of(random.Random(1).choices(rows, k=QUERIES), b"region,handle"),
        "long.csv": log_of((handles * (QUERIES // len(handles) + 1))[:QUERIES], b"region,handle"),
    }
    folder = folder_with(room, files)
    by_plan, by_prices = [*TABLES, "--plan", "plan.txt"], [*BY_PRICES, "--log", "long.csv"]
    for name, words in [("plan.txt", [program, "plan", *TABLES]), ("prices.txt", [stream, "plan", *by_prices])]:
        with open(os.path.join(folder, name), "wb") as file:
            subprocess.run(words, cwd=folder, stdout=file, check=True)
    return {
        "check": [program, "check", *by_plan],
        "dispatch": [program, "dispatch", *by_plan, "--log", "log.csv"],
        "plan by prices": [stream, "plan", *by_prices],
        "answer by prices": [stream, "answer", *by_prices, "--prices", "prices.txt"],
    }


def seconds_of(program: str, stream: str, room: str, handles: list[bytes]) -> dict[str, float]:
    """The least processor seconds that each pass over these handles takes."""
    found: dict[str, float] = {}
    for name, words in passes(program, stream, room, handles).items():
        taken = []
        for _ in range(PASSES):
            before = memory.spent_below()
            subprocess.run(words, cwd=os.path.join(room, "data"), capture_output=True, check=True)
            taken.append(memory.spent_below() - before)
        found[name] = min(taken)
    return found


def check_collisions(program: str, stream: str, room: str) -> list[str]:
    """The faults of passes over handles of one hash, and over handles of one place in a table."""
    drawn = random.Random(1)
    faults: list[str] = []
    for what, handles in [
        ("one hash", collisions.of_one_hash(b"r1", SEEN_ROWS, drawn)),
        ("one place", collisions.of_one_place(PLACED_ROWS, room)),
    ]:
        usual = seconds_of(program, stream, room, collisions.random_handles(len(handles), drawn))
        made = seconds_of(program, stream, room, handles)
        said = [f"{name} {seconds:.2f} for {usual[name]:.2f}" for name, seconds in made.items()]
        print(f"seconds over {len(handles):,} handles of {what}, for those over others: {', '.join(said)}")
        slow = [it for it, (name, seconds) in zip(said, made.items()) if seconds > MOST_TIMES * usual[name]]
        faults += [f"handles of {what}: {it} seconds" for it in slow]
    return faults


def main() -> int:
    words = argparse.ArgumentParser(description="Gives the built program files that are cut short or forged.")
    words.add_argument("--program", default=programs.tested("hsplan"))
    words.add_argument("--stream", default=programs.tested("hsplan-stream"), metavar="FILE")
    given = words.parse_args()
    program, stream = os.path.abspath(given.program), os.path.abspath(given.stream)
    if programs.is_absent(program, stream):
        return 1
    with tempfile.TemporaryDirectory() as room:
        written = cases.cases_in("hostile")
        drawn = [case for group in GROUPS for case in group()]
        faults = cases.all_faults(program, room, "hostile") + check_memory(program, room)
        faults += [fault for case in drawn for fault in fault_of(program, room, case)]
        faults += check_collisions(program, stream, room)
    return programs.concluded(faults, f"cut and forged: {len(written) + len(drawn)} cases,")


if __name__ == "__main__":
    sys.exit(main())
