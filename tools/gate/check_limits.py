#!/usr/bin/env python3
"""Runs the built programs where everything stands at its limit at once: regions, sites, servers, hosts, rows, counts,
handles, names, identifiers and costs, logs, fronts and classes.

    tools/gate/check_limits.py [--program FILE] [--stream FILE] [--jobs N]

Every command runs over the service, with a plan that sends each row to all sites, and with a shortage of all rows. Then
files of each length from 0 to 8,193, and of 65,535 to 65,537 octets, are read whole. What the programs have to print
follows from how the service is made, and from the responsible servers by tools/lib/oracle.py.
"""

import argparse
import concurrent.futures
import itertools
import os
import subprocess
import sys
import tempfile
from dataclasses import dataclass
from typing import Iterable, Iterator
from pathlib import Path

sys.path.insert(0, str(Path(__file__).resolve().parents[1]))

from lib import oracle, programs


SITES, SERVERS, REGIONS, ROWS = 32, 32, 64, 8_192
COUNT, COST, CAPACITY, LIMIT = 1_000_000, 1_000_000, 1_000_000_000, 10**12
EACH = COUNT // SITES
FRONTS, MILLION = 64, 1_000_000
CLASSES, PRICE, SUM = 1_048_576, 10**12, 10**16
# The servers of a short service can take 1,024 queries less than all rows ask for.
LITTLE = ROWS * COUNT // (SITES * SERVERS) - 1

INPUTS = oracle.INPUTS.split()
PLAN = INPUTS + ["--plan", "plan.txt"]
SHORT = INPUTS[:-1] + ["little.csv"]
LOG = ["dispatch"] + PLAN + ["--log"]


def name_of(kind: str, number: int) -> str:
    """A name of 64 octets."""
    return f"{kind}{number:02}".ljust(64, "-")


def identifier(site: int, place: int) -> int:
    return 2**32 - 1 - (site * SERVERS + place)


def handle_of(row: int) -> str:
    """The handle of a row: short for the last row, and otherwise of 4,096 octets."""
    return "10/x" if row == ROWS - 1 else f"20.{row}/é{row}".ljust(4_095, "aZ!"[row % 3])


def place_of(option: int, handle: str) -> int:
    """The place of the responsible server among those of a site, by the hash option."""
    return oracle.hash_of(option, handle) % SERVERS


def record_of(site: int) -> str:
    """The record of a site, in hexadecimal digits: its hash option, and servers, each with an address of its own."""
    servers = "".join(f"{identifier(site, at):08x}{site * SERVERS + at:032x}{0:016x}" for at in range(SERVERS))
    return f"0001020000010 0{site % 3:02x}0000000000000000{SERVERS:08x}".replace(" ", "") + servers


def lines(texts: Iterable[str]) -> bytes:
    return "".join(text + "\n" for text in texts).encode()


def each_server() -> Iterator[tuple[int, int]]:
    return ((site, place) for site in range(SITES) for place in range(SERVERS))


def capacities(capacity: int) -> bytes:
    rows = (f"{name_of('s', site)},{identifier(site, place)},{capacity}" for site, place in each_server())
    return lines(["site,server_id,capacity", *rows])


def plan_text() -> bytes:
    """A best plan: costs are the same everywhere, each row goes to all sites, and no server is full."""
    uses = (f"use {row} {site} {EACH}" for row in range(ROWS) for site in range(SITES))
    rows = (f"row {row} {COST}" for row in range(ROWS))
    servers = (f"server {number} 0" for number in range(SITES * SERVERS))
    hosts = (f"host {number} 0" for number in range(SITES * SERVERS))
    return lines(["HSPLAN 2", "PLAN", f"cost {ROWS * COUNT * COST}", *uses, *rows, *servers, *hosts, "END"])


def shortage_text() -> bytes:
    rows = (f"row {row}" for row in range(ROWS))
    taken = SITES * SERVERS * LITTLE
    return lines(["HSPLAN 1", "SHORTAGE", f"demand {ROWS * COUNT}", f"capacity {taken}", *rows, "END"])


def by_prices(cost: int, price: int, classes: Iterable[str]) -> bytes:
    """A certificate by prices, in which all servers and hosts have the same price."""
    servers = (f"server {number} {price}" for number in range(SITES * SERVERS))
    hosts = (f"host {number} {price}" for number in range(SITES * SERVERS))
    return lines(["HSPLAN PRICES 1", "PLAN", f"cost {cost}", *servers, *hosts, *classes, "END"])


def prices_text() -> bytes:
    """The best plan by prices: each row pays the same at all sites, so that all rows are in classes."""
    sent: dict[tuple[str, tuple[int, ...]], int] = {}
    for row in range(ROWS):
        places = [place_of(option, handle_of(row)) for option in range(3)]
        key = name_of("r", row % REGIONS), tuple(site * SERVERS + places[site % 3] for site in range(SITES))
        sent[key] = sent.get(key, 0) + EACH
    classes = (f"class {of[0]} " + " ".join(f"{server} {sent[of]}" for server in of[1]) for of in sorted(sent))
    return by_prices(ROWS * COUNT * COST, 0, classes)


def many_classes(number: int) -> bytes:
    """A certificate of so many classes, which no row is of, with the greatest price and the greatest cost."""
    pairs = itertools.product("abc", itertools.combinations(range(SITES * SERVERS), 2))
    classes = (f"class {region} {first} 0 {second} 0" for region, (first, second) in itertools.islice(pairs, number))
    return by_prices(SUM, PRICE, classes)


def short_prices() -> bytes:
    servers = (f"server {number}" for number in range(SITES * SERVERS))
    sums = [f"demand {ROWS * COUNT}", f"capacity {SITES * SERVERS * LITTLE}"]
    return lines(["HSPLAN PRICES 1", "SHORT", *servers, *sums, "END"])


def files() -> dict[str, bytes]:
    sites = [f'[[site]]\nname = "{name_of("s", at)}"\nrecord = "{record_of(at)}"' for at in range(SITES)]
    hosts = [f'[[host]]\naddress = "{at:032x}"\nlimit = {LIMIT}' for at in range(SITES * SERVERS)]
    demand = (f"{name_of('r', row % REGIONS)},{handle_of(row)},{COUNT}" for row in range(ROWS))
    costs = (f"{name_of('r', it)},{name_of('s', site)},{COST}" for it in range(REGIONS) for site in range(SITES))
    return {
        "settings.toml": lines(sites + hosts),
        "demand.csv": lines(["region,handle,count", *demand]),
        "costs.csv": lines(["region,site,cost", *costs]),
        "capacity.csv": capacities(CAPACITY),
        "little.csv": capacities(LITTLE),
        "plan.txt": plan_text(),
        "shortage.txt": shortage_text(),
        "plan.prices": prices_text(),
        "short.prices": short_prices(),
        "classes.prices": many_classes(CLASSES),
        "more.prices": many_classes(CLASSES + 1),
    }


# ---- what is printed


def loads() -> bytes:
    load = {server: 0 for server in each_server()}
    for row in range(ROWS):
        handle = handle_of(row)
        places = [place_of(option, handle) for option in range(3)]
        for site in range(SITES):
            load[site, places[site % 3]] += EACH
    bound = ROWS * COUNT * COST
    body = (
        f"{at:5} {identifier(site, at):10} {load[site, at]:10} {CAPACITY:10} {0:13} {name_of('s', site)}"
        for site, at in each_server()
    )
    head = "place     server       load   capacity         price site"
    return lines([head, *body, f"bound {bound} - 0 = {bound}"])


def regions() -> bytes:
    demand = ROWS // REGIONS * COUNT
    body = (f"{demand:10} {demand * COST:16} {name_of('r', it)}" for it in range(REGIONS))
    total = ROWS * COUNT
    return lines(["    demand             cost region", *body, f"total {total} {total * COST}"])


def shortages() -> bytes:
    demand, taken = ROWS * COUNT, SITES * SERVERS * LITTLE
    rows = (f"{row:4} {COUNT:7} {name_of('r', row % REGIONS)}" for row in range(ROWS))
    servers = (f"{at:5} {identifier(site, at):10} {LITTLE:10} {name_of('s', site)}" for site, at in each_server())
    head = f"short {demand} - {taken} = {demand - taken}"
    return lines([head, " row   count region", *rows, "place     server   capacity site", *servers])


def assigned(row: int, fronts: int = 1, front: int = 0) -> Iterator[str]:
    """The answers to a row until it is spent, by a front's share of the plan."""
    handle = handle_of(row)
    for site in range(SITES):
        place = place_of(site % 3, handle)
        share = EACH // fronts + (1 if front < EACH % fronts else 0)
        yield from [f"assigned {name_of('s', site)} {place} {identifier(site, place)}"] * share


@dataclass
class Log:
    rows: list[str]
    answers: list[str]


def entries() -> Log:
    """A row of each region, then the last row until it is spent, and as many entries that are spent or unknown."""
    first = [f"{name_of('r', row)},{handle_of(row)}" for row in range(REGIONS)]
    answers = [next(assigned(row)) for row in range(REGIONS)]
    last = f"{name_of('r', (ROWS - 1) % REGIONS)},{handle_of(ROWS - 1)}"
    return Log(
        first + [last] * 2 * MILLION + ["r,10/y"] * MILLION,
        answers + list(assigned(ROWS - 1)) + ["spent"] * MILLION + ["unknown"] * MILLION,
    )


def events() -> Log:
    """The last row at each front until it is spent there, then as many events of each other kind."""
    last = f"{name_of('r', (ROWS - 1) % REGIONS)},{handle_of(ROWS - 1)}"
    log = Log([], [])
    for front in range(FRONTS):
        given = list(assigned(ROWS - 1, FRONTS, front))
        spent = MILLION // FRONTS
        log.rows += [f"{front},{last}"] * (len(given) + spent)
        log.answers += given + ["spent"] * spent
    log.rows += ["63,r,10/y"] * MILLION + [f"4294967295,{last}"] * MILLION
    log.answers += ["unknown"] * MILLION + ["nofront"] * MILLION
    return log


# ---- the cases


@dataclass
class Case:
    """The words of a command, and what it has to print on both streams, with its status. An output of a beginning and
    an end may have anything between."""

    words: list[str]
    printed: bytes
    reported: str = ""
    status: int = 0
    end: bytes = b""


def log_cases(folder: str, log: Log, header: str, bad: str, more: list[str]) -> Iterator[Case]:
    """A log to its end, and the same with a bad row behind it. Only a dispatcher's sums are printed, and no fronts'."""
    counts = [sum(1 for it in log.answers if it.startswith(kind)) for kind in ("assigned", "spent", "unknown")]
    sums = "" if more else "assigned {} spent {} unknown {}\n".format(*counts)
    printed, fault = lines(log.answers), f"hsplan: log: BadHandle row {len(log.rows)}\n"
    for name, rows, reported, status in [("good.csv", log.rows, sums, 0), ("bad.csv", log.rows + [bad], fault, 1)]:
        with open(os.path.join(folder, name), "wb") as file:
            file.write(lines([header, *rows]))
        yield Case(LOG + [name] + more, printed, reported, status)


def stream_cases(folder: str) -> Iterator[Case]:
    by = ["--settings", "settings.toml", "--costs", "costs.csv", "--log", "demand.csv", "--capacity"]
    check, report = ["check", *by], ["report", *by]
    plan, short = ["capacity.csv", "--prices", "plan.prices"], ["little.csv", "--prices", "short.prices"]
    yield Case([*check, *plan], b"yes\n")
    yield Case([*check, *short], b"yes\n")
    yield Case([*check, "capacity.csv", "--prices", "classes.prices"], b"no 3 NotLeast\n", status=3)
    yield Case([*report, *plan, "--kind", "load"], loads())
    yield Case([*report, *plan, "--kind", "region"], regions())
    yield Case([*report, *short, "--kind", "load"], b"", "hsplan-stream: WrongKind\n", 3)
    line = 3 + 2 * SITES * SERVERS + CLASSES + 1
    fault = f"hsplan-stream: certificate: BadLine line {line}\n"
    yield Case([*check, "capacity.csv", "--prices", "more.prices"], b"", fault, 1)


def cases(folder: str) -> Iterator[Case]:
    cost = f"HSPLAN 2\nPLAN\ncost {ROWS * COUNT * COST}\n".encode()
    yield Case(["plan"] + INPUTS, cost, end=b"END\n")
    yield Case(["plan"] + SHORT, b"HSPLAN 1\nSHORTAGE\n", status=3, end=b"END\n")
    yield Case(["check"] + PLAN, b"yes\n")
    yield Case(["check"] + SHORT + ["--plan", "shortage.txt"], b"yes\n")
    report = ["report"] + PLAN + ["--kind"]
    yield Case(report + ["load"], loads())
    yield Case(report + ["region"], regions())
    yield Case(["report"] + SHORT + ["--plan", "shortage.txt", "--kind", "shortage"], shortages())
    handle = handle_of(0)
    places = [f"{name_of('s', site)} {place_of(site % 3, handle)}" for site in range(SITES)]
    located = [f"{it} {identifier(site, int(it.split()[1]))}" for site, it in enumerate(places)]
    yield Case(["locate", "--settings", "settings.toml", handle], lines(located))
    yield from log_cases(folder, entries(), "region,handle", "r,10", [])
    yield from log_cases(folder, events(), "front,region,handle", "0,r,10", ["--fronts", str(FRONTS)])


def run(program: str, words: list[str], folder: str) -> tuple[bytes, str, int]:
    ended = subprocess.run([program] + words, cwd=folder, stdin=subprocess.DEVNULL, capture_output=True, check=False)
    return ended.stdout, ended.stderr.decode(), ended.returncode


def shown(octets: bytes) -> bytes:
    return octets if len(octets) < 300 else octets[:150] + b".." + octets[-150:]


def fault_of(program: str, folder: str, case: Case) -> list[str]:
    """The fault of a case, if it has one. What `plan` printed is checked too."""
    printed, reported, status = run(program, case.words, folder)
    is_right = printed.startswith(case.printed) and printed.endswith(case.end) if case.end else printed == case.printed
    name = " ".join(it if len(it) < 100 else it[:20] + ".." for it in case.words)
    if not is_right or (reported, status) != (case.reported, case.status):
        wanted = (shown(case.printed), case.reported, case.status)
        return [f"{name}: wanted {wanted}, got {(shown(printed), reported, status)}"]
    if case.words[0] != "plan":
        return []
    with open(os.path.join(folder, "printed.txt"), "wb") as file:
        file.write(printed)
    verdict = run(program, ["check"] + case.words[1:] + ["--plan", "printed.txt"], folder)
    return [] if verdict == (b"yes\n", "", 0) else [f"{name}: check of what it printed: {verdict}"]


# ---- lengths of files

# Where the fields of a record of zero octets begin (RFC 3652, section 3.2.2 and RFC 3651, section 3.2.2).
FIELDS = [0, 2, 4, 6, 7, 8, 12, 16]


def length_fault(program: str, folder: str, length: int) -> list[str]:
    """The fault of `site` for a file of so many zero octets. Twenty of them are the record of a site without
    servers."""
    name = f"zeros{length}"
    with open(os.path.join(folder, name), "wb") as file:
        file.truncate(length)
    got = run(program, ["site", name], folder)
    os.remove(os.path.join(folder, name))
    cut = f"Truncated at {max(at for at in FIELDS if at <= length)}"
    reported = f"hsplan: site: {cut if length < 20 else 'Trailing at 20'}\n"
    is_right = got[1:] == ("", 0) if length == 20 else got == (b"", reported, 1)
    return [] if is_right else [f"site of {length} zero octets: {got}"]


def main() -> int:
    words = argparse.ArgumentParser(description="Runs the built program where everything stands at its limit at once.")
    words.add_argument("--program", default=programs.tested("hsplan"))
    words.add_argument("--stream", default=programs.tested("hsplan-stream"), metavar="FILE")
    words.add_argument("--jobs", type=int, default=len(os.sched_getaffinity(0)))
    given = words.parse_args()
    program, stream = os.path.abspath(given.program), os.path.abspath(given.stream)
    if programs.is_absent(program, stream):
        return 1
    lengths = [*range(8_194), 65_535, 65_536, 65_537]
    with tempfile.TemporaryDirectory() as folder, concurrent.futures.ThreadPoolExecutor(given.jobs) as pool:
        for name, text in files().items():
            with open(os.path.join(folder, name), "wb") as file:
                file.write(text)
        found = [fault_of(program, folder, case) for case in cases(folder)]
        found += [fault_of(stream, folder, case) for case in stream_cases(folder)]
        found_in_lengths = list(pool.map(lambda it: length_fault(program, folder, it), lengths))
    faults = [fault for it in found + found_in_lengths for fault in it]
    return programs.concluded(faults, f"limits: {len(found)} runs at the limits, {len(lengths)} lengths of files,")


if __name__ == "__main__":
    sys.exit(main())
