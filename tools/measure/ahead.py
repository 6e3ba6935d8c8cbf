#!/usr/bin/env python3
"""Measures the commands of hsp that plan ahead, on examples/twelve-sites: grow, survive, day, and plan --near.

    tools/measure/ahead.py [--runs N]

The day has 24 hours: each row's count times a curve of its region's local time, times noise of a tenth. The plan in
force is that of the hour before. Each command runs N times, and the least times count: by the clock, and of all
processors. The script prints a table in Markdown, with the load of the machine.
"""

import argparse
import math
import os
import random
import resource
import shutil
import subprocess
import sys
import tempfile
import time
from pathlib import Path

sys.path.insert(0, str(Path(__file__).resolve().parents[1]))

from lib import examples, programs

SHARED = ("settings.toml", "costs.csv", "capacity.csv")
NOISE = 0.1


def curve(hour: int, degrees: float) -> float:
    """The part of the busiest hour's queries that come from a longitude: 1 at 15 o'clock, 0.35 in the night."""
    local = (hour + degrees / 15) % 24
    return 0.35 + 0.65 * (0.5 + 0.5 * math.cos((local - 15) / 24 * 2 * math.pi))


def write_hours(folder: str, draw: random.Random) -> None:
    """The demand of each hour. The service could serve a third more than its busiest one."""
    rows = examples.twelve_demand()
    for hour in range(24):
        parts = {region: 1.2 * curve(hour, place[1]) for region, place in examples.REGIONS.items()}
        counts = [
            (region, handle, round(count * parts[region] * draw.uniform(1 - NOISE, 1 + NOISE)))
            for region, handle, count in rows
        ]
        own = os.path.join(folder, f"h{hour:02}")
        os.mkdir(own)
        Path(own, "demand.csv").write_bytes(examples.table("region,handle,count", counts))


def spent(words: list[str], environment: dict[str, str]) -> tuple[float, float, str]:
    """The seconds of a run by the clock and of processors, and its last line but one."""
    before, begun = resource.getrusage(resource.RUSAGE_CHILDREN), time.monotonic()
    done = subprocess.run(words, env=environment, capture_output=True, text=True)
    seconds, after = time.monotonic() - begun, resource.getrusage(resource.RUSAGE_CHILDREN)
    if done.returncode not in (0, 3):
        raise SystemExit(done.stderr)
    gone = after.ru_utime + after.ru_stime - before.ru_utime - before.ru_stime
    return seconds, gone, done.stdout.splitlines()[-1]


def main() -> int:
    arguments = argparse.ArgumentParser(description="Measures the commands of hsp that plan ahead.")
    arguments.add_argument("--runs", type=int, default=5, metavar="N")
    runs = arguments.parse_args().runs
    if programs.is_absent(*map(programs.tested, programs.PROGRAMS)):
        return 1
    environment = {**os.environ, "PYTHONPATH": os.path.join(programs.TOP, "companion")}
    for name in programs.PROGRAMS:
        environment[name.upper().replace("-", "_")] = programs.tested(name)
    with tempfile.TemporaryDirectory() as folder:
        examples.write(folder, examples.twelve_sites())
        write_hours(folder, random.Random(1))
        now, before = os.path.join(folder, "h13"), os.path.join(folder, "h12")
        for name in SHARED:
            for own in (now, before):
                shutil.copy(os.path.join(folder, name), own)
        hsp = ["/usr/bin/python3", "-m", "hsp"]
        subprocess.run([*hsp, "plan", before], env=environment, capture_output=True, check=True)
        commands = {
            "plan": ["plan", now],
            "plan --near": ["plan", now, "--near", before],
            "plan --more": ["plan", now, "--more"],
            "grow": ["grow", folder],
            "survive": ["survive", folder],
            "day": ["day", folder],
            "day --near": ["day", folder, "--near"],
        }
        print(f"load {os.getloadavg()[0]:.1f} on {os.cpu_count()} processors, least of {runs} runs")
        print("\n| Command | By the clock | Of processors | Judged |\n|---|---|---|---|")
        for name, words in commands.items():
            found = [spent([*hsp, *words], environment) for _ in range(runs)]
            clock, gone = (min(own[at] for own in found) for at in (0, 1))
            judged = found[0][2].removeprefix("check yes to each of ").removesuffix(" plans and shortages")
            print(f"| `{name}` | {clock:.1f} s | {gone:.1f} s | {judged if judged.isdigit() else ''} |", flush=True)
    return 0


if __name__ == "__main__":
    programs.ended(main)
