#!/usr/bin/env python3
"""Measures how many lines of an access log `hsp demand` counts in a second: by one process, and by one a processor.
GoAccess (Debian: goaccess), where it is installed, reads the logs of usual forms by turns with it.

    tools/measure/demand.py [--lines N] [--turns N] [--program FILE]

Logs are of each form, over a day. GoAccess counts requests and visitors, and no regions: on one thread, once with all
its panels, and once with the panel of requests only, which is nearest to what `hsp demand` counts. Each row has the
middle turn by the clock. All runs of `hsp demand` over a log have to write the same octets.
"""

import argparse
import hashlib
import os
import random
import shutil
import subprocess
import sys
import tempfile
import time
from collections.abc import Callable, Iterator
from pathlib import Path
from typing import NamedTuple

sys.path.insert(0, str(Path(__file__).resolve().parents[1]))

from lib import programs, transcripts


REGIONS = ("eu", "us", "asia")
HANDLES, CLIENTS = 20_000, 100_000
DAY = 86_400
SERVER = '{0} UDP:HDL "2026-11-26 {2}.123+0000" 1 1 3ms {1}\n'
PROXY = '{0} - - [26/Nov/2026:{2} +0000] "GET /{1}?noredirect HTTP/1.1" 302 - "-" "Mozilla/5.0 (X11; Linux)"\n'
FORMS = {
    "server": ("", SERVER),
    "proxy": ("", PROXY),
    "csv": ("time,client,handle\n", "2026-11-26T{2}Z,{0},{1}\n"),
    "json": ("", '{{"time":"2026-11-26T{2}Z","client":"{0}","handle":"{1}","status":302}}\n'),
}
FRESH = "server, a new handle in each line"
# How GoAccess reads a form.
GOACCESS = {
    "server": ['--log-format=%h %^ "%d %t.%^" %^ %^ %Lms %U', "--date-format=%Y-%m-%d", "--time-format=%H:%M:%S"],
    "proxy": ["--log-format=COMBINED"],
}
# The panels that GoAccess fills as it comes, beside that of requests.
PANELS = "VISITORS REQUESTS_STATIC NOT_FOUND HOSTS OS BROWSERS VISIT_TIMES VIRTUAL_HOSTS REFERRERS REFERRING_SITES"
PANELS += " KEYPHRASES STATUS_CODES REMOTE_USER CACHE_STATUS GEO_LOCATION MIME_TYPE TLS_TYPE"


class Run(NamedTuple):
    """What a run took: seconds by the clock and of the processors, megabytes of its largest process; the load before
    it, and the share of the processors that was stolen meanwhile."""

    clock: float
    processors: float
    megabytes: float
    load: float
    stolen: float


def put_networks(path: str) -> None:
    """A network of each 256 addresses, each of a region by its number."""
    with open(path, "w", encoding="utf-8") as file:
        file.write("network,region\n")
        file.writelines(f"10.{at >> 8}.{at & 255}.0/24,{REGIONS[at * 7 % 3]}\n" for at in range(1 << 16))


def queries(lines: int, handle: Callable[[random.Random], int]) -> Iterator[tuple[str, str, str]]:
    """Client, handle and time of each line, in the order of the times."""
    draw = random.Random(1)
    clients = [".".join(map(str, (10, *draw.randbytes(3)))) for _ in range(CLIENTS)]
    for at in range(lines):
        minutes, second = divmod(at * DAY // lines, 60)
        clock = f"{minutes // 60:02}:{minutes % 60:02}:{second:02}"
        yield draw.choice(clients), f"20.500.1234/item-{handle(draw)}", clock


def often(draw: random.Random) -> int:
    return min(int(draw.paretovariate(0.6)), HANDLES)


def fresh(draw: random.Random) -> int:
    return draw.randrange(10**9)


def jiffies() -> tuple[int, int]:
    """What all processors spent since the machine began, and what of it was stolen."""
    with open("/proc/stat", encoding="ascii") as file:
        spent = list(map(int, file.readline().split()[1:9]))
    return sum(spent), spent[7]


def ran(words: list[str], environment: dict[str, str]) -> Run:
    load, (all_before, stolen_before), begun = os.getloadavg()[0], jiffies(), time.perf_counter()
    process = subprocess.Popen(words, env=environment, stdout=subprocess.DEVNULL, stderr=subprocess.DEVNULL)
    _, status, spent = os.wait4(process.pid, 0)
    process.returncode = os.waitstatus_to_exitcode(status)
    clock = time.perf_counter() - begun
    if status:
        sys.exit(f"{' '.join(words)}: status {process.returncode}")
    all_after, stolen_after = jiffies()
    stolen = (stolen_after - stolen_before) / max(1, all_after - all_before)
    return Run(clock, spent.ru_utime + spent.ru_stime, spent.ru_maxrss / 1000, load, stolen)


def put_log(path: str, form: str, lines: int, handle: Callable[[random.Random], int]) -> None:
    head, line = FORMS[form]
    with open(path, "w", encoding="utf-8") as file:
        file.write(head)
        file.writelines(line.format(*own) for own in queries(lines, handle))


def ways(form: str, log: str, folder: str, is_usual: bool) -> dict[str, list[str]]:
    """The commands over a log by their names."""
    networks, out = os.path.join(folder, "networks.csv"), os.path.join(folder, "demand.csv")
    words = ["/usr/bin/python3", "-m", "hsp", "demand", log, "--regions", networks, "-o", out]
    found = {"hsp demand --jobs 1": [*words, "--jobs", "1"], "hsp demand": words}
    if is_usual and shutil.which("goaccess"):
        report = os.path.join(folder, "report.json")
        goaccess = ["goaccess", log, *GOACCESS[form], "-o", report, "--no-progress", "--no-global-config"]
        found["GoAccess, all panels"] = goaccess
        found["GoAccess, requests only"] = [*goaccess, *(f"--ignore-panel={it}" for it in PANELS.split())]
    return found


def measure(lines: int, turns: int, folder: str, environment: dict[str, str]) -> None:
    put_networks(os.path.join(folder, "networks.csv"))
    log, out = os.path.join(folder, "log"), os.path.join(folder, "demand.csv")
    heads = ("Log", "By", "Lines a second", "Seconds", "Of the processors", "MB", "Load", "Stolen")
    print(f"| {' | '.join(heads)} |\n{'|---' * len(heads)}|")
    for name, form, handle in [*((form, form, often) for form in FORMS), (FRESH, "server", fresh)]:
        put_log(log, form, lines, handle)
        commands = ways(form, log, folder, name in GOACCESS)
        runs: dict[str, list[Run]] = {way: [] for way in commands}
        sums = set()
        for _ in range(turns):
            for way, words in commands.items():
                runs[way].append(ran(words, environment))
                if words[0] != "goaccess":
                    sums.add(hashlib.sha256(Path(out).read_bytes()).hexdigest())
                    os.unlink(out)
        if len(sums) > 1:
            sys.exit(f"{name}: runs of hsp demand have written different octets")
        for way, own in runs.items():
            middle = sorted(own)[len(own) // 2]
            fields = [name, way, f"{lines / middle.clock:,.0f}", f"{middle.clock:.2f}", f"{middle.processors:.2f}"]
            fields += [f"{middle.megabytes:.0f}", f"{middle.load:.1f}", f"{middle.stolen:.0%}"]
            print(f"| {' | '.join(fields)} |", flush=True)


def main() -> int:
    arguments = argparse.ArgumentParser(description="Measures how fast access logs are counted.")
    arguments.add_argument("--lines", type=int, default=2_000_000)
    arguments.add_argument("--turns", type=int, default=3)
    arguments.add_argument(
        "--program", default=transcripts.PROGRAM, help="the hsplan that is run, if not the built one"
    )
    chosen = arguments.parse_args()
    stream = transcripts.stream_beside(chosen.program)
    if programs.is_absent(chosen.program, stream):
        return 1
    path = os.path.join(programs.TOP, "companion")
    environment = {**os.environ, "PYTHONPATH": path, "HSPLAN": chosen.program, "HSPLAN_STREAM": stream}
    with tempfile.TemporaryDirectory() as folder:
        environment["PYTHONPYCACHEPREFIX"] = os.path.join(folder, "compiled")
        environment.pop("PYTHONDONTWRITEBYTECODE", None)
        # So hsp is compiled before, as it is where it is installed.
        ran(["/usr/bin/python3", "-m", "hsp", "--version"], environment)
        measure(chosen.lines, chosen.turns, folder, environment)
    return 0


if __name__ == "__main__":
    programs.ended(main)
