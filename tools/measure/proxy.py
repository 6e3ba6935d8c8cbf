#!/usr/bin/env python3
"""Measures HAProxy over an exported plan.

    tools/measure/proxy.py ways [--seed N]         what servers get of an example's queries, by each way to put a plan
                                                   into force; lots are drawn as HAProxy draws them
    tools/measure/proxy.py answers [--seconds N]   how many answers HAProxy gives in a second, with one fixed answer and
                                                   with exported maps, by turns, asked by wrk
    tools/measure/proxy.py swap                    how long a map takes to be put in place of another one

Each prints a table in Markdown. Needs Debian's packages haproxy and wrk, and those of hsp.
"""

import argparse
import contextlib
import math
import os
import random
import re
import shutil
import socket
import subprocess
import sys
import tempfile
import time
from collections import Counter
from collections.abc import Callable, Iterator
from dataclasses import dataclass
from functools import partial
from pathlib import Path

TOP = Path(__file__).resolve().parents[2]
sys.path[:0] = [str(TOP / "tools"), str(TOP / "companion")]

from lib import examples, oracle, prices, programs

from hsp.base.programs import Programs
from hsp.intake.addresses import name_of
from hsp.plans.service import Row, Service, read_service
from hsp.proxy.config import PLAN
from hsp.proxy.kinds import LOTS, key_of, kinds_of, plan_lines, shares_of
from hsp.proxy.rest import rest_of, room_of
from hsp.proxy.runtime import Runtime

SPREAD = 0.3
STEPS = (12, 60)
EXAMPLES = ("two-sites", "twelve-sites")
# The commands that each measurement needs.
NEEDED: dict[str, list[str]] = {"ways": [], "answers": ["haproxy", "wrk"], "swap": ["haproxy"]}
# The loads of servers, by their names.
Loads = Counter[str]
Way = Callable[[list[Row]], Loads]


def example(name: str, room: str) -> str:
    folder = os.path.join(room, name)
    if name == "two-sites":
        shutil.copytree(TOP / "examples" / name, folder)
    else:
        examples.write(folder, examples.twelve_sites())
    return folder


def as_table(head: list[str], rows: list[list[str]]) -> None:
    for row in [head, ["---"] * len(head), *rows]:
        print(f"| {' | '.join(row)} |")


# ---- ways


@dataclass
class Scene:
    """A service, its kinds, and the responsible servers of its rows."""

    service: Service
    programs: Programs
    room: str

    def __post_init__(self) -> None:
        self.kinds = kinds_of(self.service)
        self.keys = {(row.region, row.handle): key_of(self.service, row) for row in self.service.rows}

    def server(self, row: Row, site: int) -> str:
        return name_of(self.service.server(site, row.handle))

    def cheapest(self, row: Row) -> str:
        names = {at: self.service.sites[at].name for at in self.service.sites_for(row.region)}
        return self.server(row, min(names, key=lambda at: self.service.costs[row.region, names[at]]))


def queries_of(rows: list[Row], draw: random.Random, spread: float, more: float = 1.0) -> list[Row]:
    """A row for each query, in random order. Each row's count is off by a factor, whose mean is `more`."""
    found: list[Row] = []
    for row in rows:
        found += [row] * round(row.count * more * math.exp(draw.gauss(-spread * spread / 2, spread)))
    draw.shuffle(found)
    return found


def by_lot(scene: Scene, lines: list[str], queries: list[Row], draw: random.Random) -> Loads:
    """What servers get by a map, as the configuration of HAProxy reads it."""
    drawn = {key: value.split("|") for key, value in (line.split(" ") for line in lines)}
    loads: Loads = Counter()
    for row in queries:
        words = drawn.get(scene.keys[row.region, row.handle])
        if not words:
            loads[scene.cheapest(row)] += 1
            continue
        lot = draw.randrange(LOTS) if len(words) > 1 else 0
        passed = [at for at in range(1, len(words), 2) if lot >= int(words[at])]
        loads[words[passed[-1] + 1 if passed else 0]] += 1
    return loads


def by_regions(scene: Scene, queries: list[Row], draw: random.Random) -> Loads:
    """What servers get where each region has weights of sites, the shares of the plan."""
    shares: dict[str, Counter[int]] = {}
    for use in scene.service.certificate.uses:
        shares.setdefault(scene.service.rows[use.row].region, Counter())[use.site] += use.queries
    loads: Loads = Counter()
    for row in queries:
        own = shares[row.region]
        loads[scene.server(row, draw.choices(list(own), list(own.values()))[0])] += 1
    return loads


def steered(scene: Scene, steps: int, draw: random.Random, queries: list[Row]) -> Loads:
    """What servers get where the rest of the period is planned so often, at even times."""
    loads: Loads = Counter()
    for step in range(steps):
        room = room_of(scene.service, loads, ())
        with contextlib.closing(Programs()) as its:
            lines = rest_of(scene.service, scene.kinds, 1 - step / steps, room, its).lines
        begin, end = (len(queries) * at // steps for at in (step, step + 1))
        loads += by_lot(scene, lines, queries[begin:end], draw)
    return loads


def answers(words: list[str], queries: list[Row]) -> list[list[str]]:
    """The words of what hsplan-stream answers these queries."""
    log = oracle.csv_of("region,handle", ((row.region, row.handle) for row in queries))
    command = [os.environ["HSPLAN_STREAM"], "answer", *words, "--log", "/dev/stdin"]
    said = subprocess.run(command, input=log, capture_output=True, check=True).stdout.decode()
    return [line.split() for line in said.splitlines()]


def by_prices(scene: Scene, queries: list[Row]) -> Loads:
    """What servers get by `answer --prices`. A query that is answered `full` gets none."""
    service, inputs = scene.service, scene.service.inputs
    identifiers = {it.name: tuple(own.id for own in it.servers) for it in service.sites}
    sites = tuple(oracle.Site(it.name, it.option, identifiers[it.name]) for it in service.sites)
    rows = [(row.region, row.handle, row.count) for row in service.rows]
    text = prices.of_plan(oracle.Service(sites, service.costs), rows, service.certificate.text.encode())
    path = os.path.join(scene.room, "plan.prices")
    Path(path).write_bytes(text)
    words = [*inputs.of_sites(), "--costs", inputs.costs, "--capacity", inputs.capacity, "--prices", path]
    found = answers(words, queries)
    return Counter(f"{it[1]}:{it[3]}" for it in found if it[0] in ("assigned", "diverted"))


def ways_of(scene: Scene, seed: int) -> dict[str, Way]:
    draw = random.Random(seed)
    exported = plan_lines(shares_of(scene.service))
    found: dict[str, Way] = {
        "each region its cheapest site": lambda queries: Counter(map(scene.cheapest, queries)),
        "weights by region, the plan's shares": lambda queries: by_regions(scene, queries, draw),
        "`hsp export haproxy`": lambda queries: by_lot(scene, exported, queries, draw),
    }
    for steps in STEPS:
        found[f"`hsp steer`, {steps} plans a period"] = partial(steered, scene, steps, draw)
    found["`answer --prices`"] = lambda queries: by_prices(scene, queries)
    return found


def told(service: Service, loads: Loads, asked: int) -> list[str]:
    """The fullest server, and the queries above capacities; and those without an answer."""
    rooms = {name_of(server): service.capacity(server) for server in service.servers}
    fullest = max(100 * loads[name] / room for name, room in rooms.items())
    above = sum(max(0, loads[name] - room) for name, room in rooms.items())
    full = f", {asked - loads.total():,} `full`" if loads.total() < asked else ""
    return [f"{fullest:.1f}%", f"{above:,}{full}"]


def measure_ways(seed: int) -> None:
    cases = [("as planned", 0.0, 1.0), (f"off by {SPREAD}", SPREAD, 1.0), ("off, and 5% more", SPREAD, 1.05)]
    with tempfile.TemporaryDirectory() as room, contextlib.closing(Programs()) as its:
        for name in EXAMPLES:
            scene = Scene(read_service(example(name, room), its, {}), its, room)
            draw = random.Random(seed)
            asked = [queries_of(scene.service.rows, draw, spread, more) for _, spread, more in cases]
            numbers = ", ".join(f"{len(own):,}" for own in asked)
            print(f"\n{name}: {numbers} queries\n")
            rows = []
            for way, loads in ways_of(scene, seed).items():
                rows.append([way, *(word for own in asked for word in told(scene.service, loads(own), len(own)))])
            as_table(["Way", *(f"{case}: {what}" for case, _, _ in cases for what in ("fullest", "above"))], rows)


# ---- answers


FIXED = """global
  maxconn 4000
  no strict-limits
  log stdout len 16384 format raw local0
defaults
  mode http
  log global
  option httplog
  timeout client 10s
  timeout connect 2s
  timeout server 10s
frontend fixed
  bind 127.0.0.1:{port}
  http-request redirect code 307 location http://192.0.2.11:8000%[pathq]
"""
ASKING = """local rows = {{}}
for line in io.lines("{path}") do
  local client, handle = line:match("([^ ]*) (.*)")
  rows[#rows + 1] = wrk.format("GET", "/api/handles/" .. handle, {{["X-Forwarded-For"] = client}})
end
local at = 0
request = function() at = at % #rows + 1; return rows[at] end
"""


def free_port() -> int:
    with socket.socket() as own:
        own.bind(("127.0.0.1", 0))
        return int(own.getsockname()[1])


@dataclass
class Running:
    """A HAProxy that runs, and its port."""

    name: str
    port: int
    process: "subprocess.Popen[bytes]"

    def seconds(self) -> float:
        words = Path(f"/proc/{self.process.pid}/stat").read_text().rpartition(")")[2].split()
        return (int(words[11]) + int(words[12])) / os.sysconf("SC_CLK_TCK")

    def memory(self) -> str:
        status = Path(f"/proc/{self.process.pid}/status").read_text()
        return f"{int(re.findall('VmRSS:[^0-9]*([0-9]+)', status)[0]) / 1024:.0f} MB"


@contextlib.contextmanager
def running(name: str, config: str, port: int) -> Iterator[Running]:
    process = subprocess.Popen(["haproxy", "-f", config], stdout=subprocess.DEVNULL, stderr=subprocess.DEVNULL)
    try:
        while socket.socket().connect_ex(("127.0.0.1", port)):
            if process.poll() is not None:
                sys.exit(f"haproxy -f {config} ends")
            time.sleep(0.05)
        yield Running(name, port, process)
    finally:
        process.terminate()
        process.wait()


def client_of(service: Service, region: str) -> str:
    return f"10.{service.regions.index(region)}.0.1"


def exported(service: Service, port: int) -> str:
    """The configuration of a service, whose regions are networks of 10.0.0.0/8."""
    folder, into = service.folder, os.path.join(service.folder, "proxy")
    networks = "".join(f"10.{at}.0.0/16,{region}\n" for at, region in enumerate(service.regions))
    Path(folder, "networks.csv").write_text(f"network,region\n{networks}")
    words = ["--into", into, "--regions", f"{folder}/networks.csv", "--listen", f"127.0.0.1:{port}"]
    words += ["--watch", f"127.0.0.1:{free_port()}", "--trusted", "127.0.0.0/8", "--socket", f"{folder}/s"]
    environment = {**os.environ, "PYTHONPATH": str(TOP / "companion")}
    command = [sys.executable, "-m", "hsp", "export", "haproxy", folder, *words]
    subprocess.run(command, env=environment, check=True, capture_output=True)
    return os.path.join(into, "haproxy.cfg")


def script_of(service: Service, room: str) -> str:
    """A script of wrk that asks for the demand in random order."""
    lines = [f"{client_of(service, row.region)} {row.handle}" for row in service.rows for _ in range(min(row.count, 9))]
    random.Random(1).shuffle(lines)
    path = os.path.join(room, f"{len(service.sites)}.txt")
    Path(path).write_text("\n".join(lines[:50_000]) + "\n")
    script = f"{path}.lua"
    Path(script).write_text(ASKING.format(path=path))
    return script


# Answers in a second, microseconds of HAProxy's processor time for each, and the latencies of half and of 99%.
Measured = tuple[float, float, str, str]


def asked_by_wrk(own: Running, script: str, seconds: int) -> Measured:
    before = own.seconds()
    words = ["wrk", "-t1", "-c32", f"-d{seconds}s", "--latency", "-s", script, f"http://127.0.0.1:{own.port}"]
    said = subprocess.run(words, capture_output=True, text=True, check=True).stdout
    number = int(re.findall(r"([0-9]+) requests in", said)[0])
    rate = float(re.findall(r"Requests/sec: *([0-9.]+)", said)[0])
    half, most = (re.findall(rf"{share}% +([0-9.a-z]+)", said)[0] for share in ("50", "99"))
    return rate, 1e6 * (own.seconds() - before) / number, half, most


def with_more_rows(service: Service) -> str:
    """A folder of the same service, whose rows are cut in two: no table holds so many."""
    folder = f"{service.folder}-log"
    shutil.copytree(service.folder, folder, ignore=shutil.ignore_patterns("s", "proxy"))
    halves = [(row, row.count // 2 + extra * (row.count % 2)) for row in service.rows for extra in (0, 1)]
    rows = ((row.region, row.handle, count) for row, count in halves)
    Path(folder, "demand.csv").write_bytes(oracle.csv_of("region,handle,count", rows))
    return folder


def measure_answers(seconds: int) -> None:
    rounds: dict[str, list[Measured]] = {}
    with tempfile.TemporaryDirectory() as room, contextlib.closing(Programs()) as its, contextlib.ExitStack() as stack:
        fixed = os.path.join(room, "fixed.cfg")
        port = free_port()
        Path(fixed).write_text(FIXED.format(port=port))
        asking: list[tuple[Running, str]] = []
        for name in EXAMPLES:
            service = read_service(example(name, room), its, {})
            script, port_of = script_of(service, room), free_port()
            if not asking:
                asking.append((stack.enter_context(running("one fixed answer", fixed, port)), script))
            config = exported(service, port_of)
            asking.append((stack.enter_context(running(f"the map of {name}", config, port_of)), script))
        as_log, port_of = with_more_rows(service), free_port()
        config = exported(read_service(as_log, its, {}), port_of)
        asking.append((stack.enter_context(running(f"the prices of {name}", config, port_of)), script))
        for _ in range(3):
            for haproxy, script in asking:
                rounds.setdefault(haproxy.name, []).append(asked_by_wrk(haproxy, script, seconds))
        rows = []
        for haproxy, _ in asking:
            own = rounds[haproxy.name]
            rates, costs = ([it[at] for it in own] for at in (0, 1))
            spans = [f"{min(rates):,.0f} to {max(rates):,.0f}", f"{min(costs):.1f} to {max(costs):.1f}"]
            rows.append([haproxy.name, *spans, own[-1][2], own[-1][3], haproxy.memory()])
    as_table(["HAProxy with", "answers a second", "microseconds each", "half", "99%", "memory"], rows)


# ---- swap


def measure_swap() -> None:
    with tempfile.TemporaryDirectory() as room, contextlib.closing(Programs()) as its:
        service = read_service(example("twelve-sites", room), its, {})
        own = plan_lines(shares_of(service))
        port = free_port()
        config = exported(service, port)
        rows = []
        for number in (100, len(own), 10_000, 100_000):
            lines = [own[at % len(own)].replace("|", f"|{at // len(own)}", 1) for at in range(number)]
            with running("swapped", config, port) as haproxy:
                runtime, took = Runtime(f"{service.folder}/s"), []
                for _ in range(5):
                    begin = time.perf_counter()
                    runtime.swap({PLAN: lines})
                    took.append(1000 * (time.perf_counter() - begin))
                rows.append([f"{number:,}", f"{min(took):,.0f} to {max(took):,.0f} ms", haproxy.memory()])
    as_table(["Entries", "Swapped in", "HAProxy's memory"], rows)


def main() -> int:
    words = argparse.ArgumentParser(description="Measures HAProxy over an exported plan.")
    words.add_argument("what", choices=["ways", "answers", "swap"])
    words.add_argument("--seed", type=int, default=1, help="of the order and of the factors")
    words.add_argument("--seconds", type=int, default=4, help="for which wrk asks, each time")
    given = words.parse_args()
    lacking = [name for name in NEEDED[given.what] if not shutil.which(name)]
    if lacking:
        print(
            f"proxy: {given.what} needs {' and '.join(lacking)}: apt-get install {' '.join(lacking)}", file=sys.stderr
        )
        return 1
    os.environ.update(programs.variables())
    if programs.is_absent(*programs.variables().values()):
        return 1
    if given.what == "ways":
        measure_ways(given.seed)
    elif given.what == "answers":
        measure_answers(given.seconds)
    else:
        measure_swap()
    return 0


if __name__ == "__main__":
    programs.ended(main)
