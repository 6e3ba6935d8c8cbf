#!/usr/bin/env python3
"""Runs the built program hsplan-stream, beside hsplan, over logs.

    tools/gate/check_stream.py [--program FILE] [--hsplan FILE] [--million N]

What has to be printed is computed by tools/lib/oracle.py. The worked cases stand in checks/hsplan-stream, and
tools/gate/check_program.py runs them. Each `check_` function says what is tried here.
"""

import argparse
import csv
import errno
import io
import os
import random
import re
import subprocess
import sys
import tempfile
from pathlib import Path

sys.path.insert(0, str(Path(__file__).resolve().parents[1]))

from lib import cases, examples, failing, preload, programs, talks
from lib import oracle, price_answers, price_cases, price_verdicts, prices
from lib.price_verdicts import Bounds


FILES = "--settings settings.toml --costs costs.csv"
INPUTS = oracle.INPUTS
PLAN = f"plan {FILES} --capacity capacity.csv --log /dev/stdin"
BY_PRICES = f"{FILES} --capacity capacity.csv --log /dev/stdin --prices plan.prices"
CHECK = f"check {BY_PRICES}"
ANSWER = f"answer {BY_PRICES}"
KINDS_OF_REPORTS = ("load", "region")
REPORTS = [f"report {BY_PRICES} --kind {kind}" for kind in KINDS_OF_REPORTS]
LIMIT_KB = 64 * 1024
HELP_BEGINS = "hsplan-stream: places, plans, answers, checks and reports of logs\n"

COMMANDS = ("places", "plan", "answer", "check", "report", "interfaces", "faults")

Ended = tuple[bytes, bytes, int]


class Programs:
    def __init__(self, stream: str, hsplan: str, folder: str) -> None:
        self.stream, self.hsplan, self.folder = stream, hsplan, folder

    def run(self, words: str, given: bytes = b"", **more: str) -> Ended:
        """Runs hsplan-stream with words and standard input. Returns what it printed, and its status."""
        return cases.run(self.stream, words.encode().split(), given, self.folder, **more)

    def by_hsplan(self, words: str) -> bytes:
        """What hsplan prints of the table of demand."""
        command, *more = words.encode().split()
        return cases.run(self.hsplan, [command, *INPUTS.encode().split(), *more], b"", self.folder)[0]

    def plan(self) -> bytes:
        """The text of a plan by hsplan, also kept as plan.txt."""
        text = self.by_hsplan("plan")
        self.put("plan.txt", text)
        return text

    def report(self, kind: str) -> bytes:
        """What hsplan reports by plan.txt."""
        return self.by_hsplan(f"report --plan plan.txt --kind {kind}")

    def plan_by_prices(self, table: bytes) -> None:
        """Keeps a plan of the table of demand as plan.txt, and its certificate by prices as plan.prices."""
        rows = list(csv.reader(io.StringIO(table.decode())))[1:]
        counted = [(region, handle, int(count)) for region, handle, count in rows]
        self.put("plan.prices", prices.of_plan(oracle.THREE, counted, self.plan()))

    def put(self, name: str, octets: bytes) -> None:
        oracle.put_files(self.folder, {name: octets})


def fault(what: str, got: object, wanted: object) -> list[str]:
    shown = (str(it)[:600] for it in (wanted, got))
    return [] if got == wanted else ["{}: wanted {}, got {}".format(what, *shown)]


# ---- words

PLACES = "places --settings settings.toml --log /dev/stdin"


def check_help(it: Programs) -> list[str]:
    """The help is the same however it is asked for, and names the options that the manual page names."""
    found = []
    for words in ("--help", "places --help"):
        out, line, status = it.run(words)
        found += fault(words, (out.decode().startswith(HELP_BEGINS), line, status), (True, b"", 0))
        found += fault(f"the options of {words}", options_in_help(out.decode()), options_in_manual())
    return found


def options_in_help(text: str) -> dict[str, list[list[str]]]:
    """The options of each form of each command, in their order, in the lines of the help that begin with the program's
    name, and in the lines below these that don't explain."""
    found: dict[str, list[list[str]]] = {}
    for part in text.split("\n\n")[1:]:
        usage = re.split(r"^    [a-z]", part, maxsplit=1, flags=re.M)[0]
        if usage.startswith("hsplan-stream ") and usage.split()[1] in COMMANDS:
            found.setdefault(usage.split()[1], []).append(re.findall(r"--([a-z]+)", usage))
    return found


def options_in_manual() -> dict[str, list[list[str]]]:
    """The same in the synopsis of the manual page."""
    page = programs.text_of("docs", "use", "hsplan-stream.1").replace("\\-", "-")
    parts = page.split(".SH SYNOPSIS\n")[1].split(".SH DESCRIPTION\n")[0].split(".SY hsplan-stream\n.B ")[1:]
    return {
        command: [re.findall(r"--([a-z]+)", part) for part in parts if part.split()[0] == command]
        for command in COMMANDS
    }


# ---- random logs


def check_places(it: Programs, draw: random.Random) -> list[str]:
    """The places of the handles of a random log, with regions and without."""
    rows = [entry for entry in oracle.entries(draw, 500) if "\r" not in entry[1]]
    wanted = oracle.csv_of(
        "handle,site,place,server_id", (line for _, handle in rows for line in oracle.THREE.places(handle))
    )
    found = fault("places", it.run(PLACES, oracle.csv_of("region,handle", rows)), (wanted, b"", 0))
    return found + fault(
        "places of handles", it.run(PLACES, oracle.csv_of("handle", ([it] for _, it in rows))), (wanted, b"", 0)
    )


def check_prices(it: Programs, draw: random.Random) -> list[str]:
    """Verdicts on certificates by prices of random logs: of a plan or a shortage of their kinds, and with a number
    changed."""
    found, seen = [], set()
    for capacity in (1_000, 120, 100, 90, 80, 40):
        rows = [(*entry, draw.choice((0, 3, 40))) for entry in oracle.entries(draw, 60, 12)]
        table, log = oracle.THREE.table(rows), oracle.csv_of("region,handle,count", rows)
        oracle.put_files(it.folder, oracle.THREE.files(table, capacity))
        plan = it.plan()
        is_short = plan.splitlines()[1] == b"SHORTAGE"
        found += check_plan(it, log, plan, is_short)
        if is_short:
            right = prices.of_shortage(oracle.THREE, table, plan)
            changes = [("demand ", "no 9 DemandSum"), ("capacity ", "no 10 CapacitySum")]
        else:
            right = prices.of_plan(oracle.THREE, table, plan)
            changes = [("cost ", "no 7 Cost"), ("class ", "no 5 ClassSum")]
        tried = [(right, "yes")] + [(with_one_more(right, word), wanted) for word, wanted in changes]
        for text, wanted in tried:
            if wanted == "yes" or text != right:
                it.put("plan.prices", text)
                verdict = (f"{wanted}\n".encode(), b"", 0 if wanted == "yes" else 3)
                found += fault(f"{wanted} of {capacity}", it.run(CHECK, log), verdict)
                reports = verdict if wanted != "yes" else (b"", b"hsplan-stream: WrongKind\n", 3) if is_short else None
                found += check_reports(it, capacity, log, reports)
                seen.add(wanted)
    return found + fault("verdicts", len(seen), 5)


def check_plan(it: Programs, log: bytes, plan: bytes, is_short: bool) -> list[str]:
    """What `plan` prints of a log, to which `check` says yes: a certificate at the cost of the plan of its kinds, or of a
    shortage."""
    text, line, status = it.run(PLAN, log)
    it.put("plan.prices", text)
    found = fault("status of a plan", (line, status), (b"", 3 if is_short else 0))
    found += fault("check of a plan", it.run(CHECK, log), (b"yes\n", b"", 0))
    costs = [prices.numbers_of(own, "cost") for own in (text, plan)]
    return found if is_short else found + fault("cost of a plan", *costs)


def drawn_service(draw: random.Random) -> oracle.Service:
    """A service of few kinds, in which a region has costs at some sites."""
    sizes = [draw.randint(1, 4) for _ in range(draw.randint(2, 5))]
    sites = tuple(oracle.Site(f"s{at}", draw.randrange(3), tuple(range(1, size + 1))) for at, size in enumerate(sizes))
    costs = {(region, site.name): draw.randint(0, 20) for region in oracle.REGIONS for site in draw.sample(sites, 2)}
    more = {(region, site.name): 21 for region in oracle.REGIONS for site in sites if draw.random() < 0.3}
    return oracle.Service(sites, {**more, **costs}, hosts=draw.choice((0, 0, 2)))


def bounds_of(service: oracle.Service, rows: list[oracle.Row], draw: random.Random) -> tuple[list[int], list[int]]:
    """Capacities and limits that are near what servers and hosts get where each row goes to one of its sites."""
    firsts = [sum(len(own.servers) for own in service.sites[:at]) for at in range(len(service.sites))]
    loads = [0] * len(prices.hosts_of(service))
    for region, handle, count in rows:
        site = draw.choice(service.sites_of(region))
        loads[firsts[site] + service.sites[site].place(handle)] += count
    hosts = price_verdicts.on_hosts(service, loads)
    factor = draw.choice((1.3, 1.05, 1.01, 0.97))
    return [int(load * factor) + 1 for load in loads], [int(load * factor) + 1 for load in hosts]


def put_service(it: Programs, service: oracle.Service, rows: list[oracle.Row], draw: random.Random) -> Bounds:
    """Writes the files of the service, with capacities and limits that are near what the rows ask for."""
    oracle.put_files(it.folder, service.files())
    return put_bounds(it, service, Bounds(*bounds_of(service, rows, draw)))


def put_bounds(it: Programs, service: oracle.Service, bounds: Bounds) -> Bounds:
    """Writes the settings and the capacities of a service with these bounds."""
    it.put("settings.toml", service.settings(bounds.limits))
    servers = ((site.name, own) for site in service.sites for own in site.servers)
    capacities = ((*server, capacity) for server, capacity in zip(servers, bounds.capacities))
    it.put("capacity.csv", oracle.csv_of("site,server_id,capacity", capacities))
    return bounds


def check_many_rows(it: Programs, draw: random.Random, services: int = 8) -> list[str]:
    """Plans of logs of more rows than a table has, of services of few kinds: each is right, and of the kind and the cost
    of the plan of the kinds' table."""
    found, seen = [], set()
    for number in range(services):
        service = drawn_service(draw)
        handles = ((draw.choice(oracle.REGIONS), f"10.{draw.randrange(7)}/{number}.{at}") for at in range(12_000))
        rows = [(*entry, min(int(1 / (1 - draw.random())), 500)) for entry in handles]
        put_service(it, service, rows, draw)
        it.put("demand.csv", oracle.csv_of("region,handle,count", service.table(rows)))
        plan = it.plan()
        is_short = plan.splitlines()[1] == b"SHORTAGE"
        found += check_plan(it, oracle.csv_of("region,handle,count", rows), plan, is_short)
        seen.add(is_short)
    return found + fault("plans and shortages of many rows", len(seen), 2)


def check_whole_table(it: Programs, draw: random.Random) -> list[str]:
    """The plan of a log whose rows are the 100,000 kinds of a service, judged by tools/lib/price_verdicts.py."""
    sites = tuple(oracle.Site(f"s{option}", option, tuple(range(size))) for option, size in enumerate((20, 25, 10)))
    regions = [f"region-{at}" for at in range(20)]
    service = oracle.Service(sites, {(region, site.name): draw.randint(0, 50) for region in regions for site in sites})
    handles: dict[tuple[int, ...], str] = {}
    while len(handles) < 5000:
        handle = f"10.{draw.randrange(1_000_000)}/{draw.randrange(1_000_000)}"
        handles.setdefault(tuple(site.place(handle) for site in sites), handle)
    rows = [(region, handle, draw.randint(1, 9)) for region in regions for handle in handles.values()]
    draw.shuffle(rows)
    bounds, log = put_service(it, service, rows, draw), oracle.csv_of("region,handle,count", rows)
    text, line, status = it.run(PLAN, log)
    it.put("plan.prices", text)
    found = fault("plan of a whole table", (line, status in (0, 3)), (b"", True))
    found += fault("check of a whole table", it.run(CHECK, log), (b"yes\n", b"", 0))
    claim = price_verdicts.read(text)
    said = claim if isinstance(claim, str) else price_verdicts.verdict(service, bounds, rows, claim)
    return found + fault("verdict on a whole table", said, "yes")


def check_ties(it: Programs) -> list[str]:
    """Plans of rows that cost the same at each of 32 sites: a class for almost each of them, or a text too large."""
    sites = tuple(oracle.Site(f"s{at}", at % 3, tuple(range(16 + at))) for at in range(32))
    oracle.put_files(it.folder, oracle.Service(sites, {("eu", site.name): 5 for site in sites}).files())
    found = []
    for many, wanted in ((20_000, (b"", 0)), (450_000, (b"hsplan-stream: plan: TooLarge\n", 1))):
        log = oracle.csv_of("region,handle,count", (("eu", f"10.{at}/{at}", 1) for at in range(many)))
        text, *said = it.run(PLAN, log)
        found += fault(f"plan of {many} ties", tuple(said), wanted)
        it.put("plan.prices", text)
        if text:
            found += fault(f"check of {many} ties", it.run(CHECK, log), (b"yes\n", b"", 0))
    return found


def check_progress(it: Programs) -> list[str]:
    """A plan of many rows at a terminal shows how far it is, in a line that is taken away in the end; elsewhere it
    prints nothing on standard error."""
    oracle.put_files(it.folder, oracle.THREE.files())
    it.put("many.csv", b"".join(oracle.many_rows(70_000)))
    words = PLAN.replace("/dev/stdin", "many.csv")
    plain = it.run(words)
    shown = subprocess.run(
        ["script", "-qec", f"{it.stream} {words} > shown.prices", "/dev/null"],
        cwd=it.folder,
        stdin=subprocess.DEVNULL,
        stdout=subprocess.PIPE,
        check=False,
    ).stdout
    with open(os.path.join(it.folder, "shown.prices"), "rb") as file:
        found = fault("a plan at a terminal", file.read(), plain[0])
    line = re.fullmatch(rb"(\rhsplan-stream: \d+ [a-z ]+\x1b\[K)+\r\x1b\[K", shown)
    return found + fault("progress elsewhere", plain[1], b"") + fault("progress at a terminal", bool(line), True)


def check_price_answers(it: Programs, draw: random.Random) -> list[str]:
    """Answers by certificates by prices to logs of three times the plan, by each front. No server gets more of all
    fronts together than its capacity, and no host more than its limit."""
    found = []
    for limits, fronts in (((), 1), ((), 3), ((110, 90), 1), ((110, 90), 2)):
        service = oracle.THREE._replace(hosts=len(limits))
        capacities = [draw.randrange(40, 80) for _ in range(9)]
        table = service.table((*entry, draw.choice((0, 3, 8))) for entry in oracle.entries(draw, 60, 12))
        oracle.put_files(it.folder, service.files(table))
        bounds = put_bounds(it, service, Bounds(capacities, list(limits)))
        text = prices.of_plan(service, table, it.plan())
        it.put("plan.prices", text)
        plan = price_answers.read_plan(service, bounds, text)
        asked = [row[:2] for row in table for _ in range(3 * row[2])] + [("mars", "10/1"), ("eu", "10.3/new")]
        draw.shuffle(asked)
        given: list[str] = []
        for front in range(fronts):
            words = f"{ANSWER} --fronts {fronts} --front {front}"
            own = price_answers.Front(plan, fronts, front)
            log = [row for row in asked[front::fronts] if "\r" not in row[1]]
            wanted = [own.answer(*row) for row in log]
            printed = "".join(f"{line}\n" for line in wanted).encode()
            ended = (printed, price_answers.sums_of(wanted).encode(), 0)
            found += fault(words, it.run(words, oracle.csv_of("region,handle", log)), ended)
            given += it.run(words, oracle.csv_of("region,handle", log))[0].decode().splitlines()
        found += above(service, bounds, given)
    return found


def above(service: oracle.Service, bounds: Bounds, answers: list[str]) -> list[str]:
    """The servers and hosts to which answers send more than they take."""
    sent = [answer.split()[1:3] for answer in answers if answer.startswith(("assigned ", "diverted "))]
    servers = [[site.name, str(place)] for site in service.sites for place in range(len(site.servers))]
    loads = [sent.count(server) for server in servers]
    hosts = price_verdicts.on_hosts(service, loads)
    found = [f"{at} takes {load}" for at, (load, most) in enumerate(zip(loads, bounds.capacities)) if load > most]
    found += [f"host {at} takes {load}" for at, (load, most) in enumerate(zip(hosts, bounds.limits)) if load > most]
    return found + fault("some rows were sent", bool(sent), True)


def check_reports(it: Programs, capacity: int, log: bytes, wanted: Ended | None) -> list[str]:
    """The reports by a certificate, which print what is wanted; without it what hsplan reports of the kinds."""
    found = []
    for words, kind in zip(REPORTS, KINDS_OF_REPORTS):
        own = wanted or (it.report(kind), b"", 0)
        found += fault(f"report of {kind} of {capacity}", it.run(words, log), own)
    return found


def with_one_more(text: bytes, word: str) -> bytes:
    """A certificate whose first line of a word ends with a number that is greater by 1; the same without one."""
    line = re.compile(rf"^({word}.*?)(\d+)$".encode(), re.M)
    return line.sub(lambda it: it[1] + b"%d" % (int(it[2]) + 1), text, count=1)


def check_twelve(it: Programs) -> list[str]:
    """The plan of examples/twelve-sites costs the same as a table and by prices."""
    with tempfile.TemporaryDirectory() as folder:
        examples.write(folder, examples.twelve_sites())
        here = Programs(it.stream, it.hsplan, folder)
        text, _, status = here.run(PLAN.replace("/dev/stdin", "demand.csv"))
        costs = [own.splitlines()[2] for own in (here.plan(), text)]
    return fault("twelve sites as a table and by prices", (status, costs), (0, [b"cost 17838403"] * 2))


# ---- a co-process


def check_talk(it: Programs, rows: int = 2_000) -> list[str]:
    """Each row of a co-process is answered within a second, before the next one is written."""
    asked = (b"eu,10.1/h%d" % (number % 50) if number % 5 else b"eu" for number in range(rows))
    try:
        talk = talks.talk([it.stream, *ANSWER.split()], it.folder, asked)
    except SystemExit as stopped:
        return [str(stopped)]
    print(talk.line())
    slowest, (rest, reported, status) = max(talk.seconds), talk.ended
    found = [] if slowest < 1 else [f"a row of the co-process took {slowest:.1f} seconds"]
    return found + fault("the end of the co-process", (rest, reported.startswith(b"assigned "), status), (b"", True, 0))


# ---- a million handles


def measured(words: list[str], folder: str, given: str, out: str) -> tuple[int, int, float]:
    """Runs a program over files. Returns its status, its greatest memory in kB, and its seconds of a processor."""
    with open(given, "rb") as log, open(out, "wb") as printed:
        running = subprocess.Popen(words, cwd=folder, stdin=log, stdout=printed, stderr=subprocess.DEVNULL)
        _, status, used = os.wait4(running.pid, 0)
    running.returncode = status
    return os.waitstatus_to_exitcode(status), used.ru_maxrss, used.ru_utime + used.ru_stime


def table_in(log: str) -> bytes:
    """The table of the kinds of a log whose rows are for one query each."""
    with open(log, encoding="utf-8") as lines:
        next(lines)
        rows = (line.rstrip("\n").split(",") for line in lines)
        return oracle.csv_of("region,handle,count", oracle.THREE.table((region, handle, 1) for region, handle in rows))


def check_million(it: Programs, number: int) -> list[str]:
    """A log of so many handles: its plan, check, answers and reports of that, each within 64 MB."""
    found: list[str] = []
    with tempfile.TemporaryDirectory() as folder:
        log, answers, verdict = (os.path.join(folder, it) for it in ("log.csv", "answers", "verdict"))
        oracle.put_files(folder, oracle.THREE.files())
        with open(log, "wb") as file:
            file.writelines(oracle.many_rows(number))
        runs = {}
        for name, words, out in (
            ("plan", PLAN, os.path.join(folder, "plan.prices")),
            ("check", CHECK, verdict),
            ("answer", ANSWER, answers),
        ):
            runs[name] = measured([it.stream, *words.split()], folder, log, out)
            found += fault(f"{name} of a million handles", (runs[name][0], runs[name][1] < LIMIT_KB), (0, True))
        with open(answers, "rb") as lines:
            every = sum(line.startswith(b"assigned ") for line in lines)
        found += fault("every row is assigned", every, number)
        shown = [
            measured([it.stream, *asked.split()], folder, log, f"{verdict}.{at}") for at, asked in enumerate(REPORTS)
        ]
        # The memory of a run counts that of this process before it, and this takes much.
        here = Programs(it.stream, it.hsplan, folder)
        here.put("demand.csv", table_in(log))
        here.plan()
        for at, (ended, kind) in enumerate(zip(shown, KINDS_OF_REPORTS)):
            found += fault(f"report of {kind} of a million handles", (ended[0], ended[1] < LIMIT_KB), (0, True))
            with open(f"{verdict}.{at}", "rb") as file:
                found += fault(f"report of {kind} of a million handles", file.read(), here.report(kind))
    speeds = ", ".join(f"{name} {number / taken:,.0f}" for name, (_, _, taken) in runs.items())
    most = max(kilobytes for _, kilobytes, _ in runs.values())
    print(f"{number:,} handles: {speeds} rows a second of a processor, {most:,} kB at most")
    return found


def check_many_arcs(it: Programs, rows: int = 100_000) -> list[str]:
    """The memory of a plan of rows that are all new, at 32 sites with 1,024 servers that are three quarters full. Rows
    that kept all their arcs would take several times as much."""
    service = price_cases.service_of(price_cases.Case(32, 1024, 32, 32, 64, 1000, 0))
    regions = sorted({region for region, _ in service.costs})
    with tempfile.TemporaryDirectory() as folder:
        oracle.put_files(folder, service.files(capacity=rows // 1024 * 4 // 3))
        log, plan = (os.path.join(folder, name) for name in ("log.csv", "plan.prices"))
        with open(log, "w", encoding="utf-8") as lines:
            lines.write("region,handle\n")
            lines.writelines(f"{regions[at % len(regions)]},20.500.{at % 1000}/object-{at}\n" for at in range(rows))
        status, memory, _ = measured([it.stream, *PLAN.split()], folder, log, plan)
    print(f"{rows:,} rows of 32 sites: planned in {memory:,} kB")
    return fault("plan of many arcs", (status, memory < LIMIT_KB), (0, True))


# ---- failing calls

FAILING = [
    ("places --settings settings.toml --log log.csv", b""),
    (PLAN.replace("/dev/stdin", "log.csv"), b""),
    (CHECK.replace("/dev/stdin", "log.csv"), b""),
    (ANSWER.replace("/dev/stdin", "log.csv"), b""),
    (REPORTS[0].replace("/dev/stdin", "demand.csv"), b""),
    (REPORTS[1].replace("/dev/stdin", "demand.csv"), b""),
    ("faults --demand log.csv", b""),
    ("faults --log log.csv", b""),
    ("--help", b""),
]
READ_FAILED = b"hsplan-stream: read failed\n"
# The status of a run in which a call of this name fails, and the lines that may report it.
ENDS = {
    "open": (5, [READ_FAILED]),
    "read": (5, [READ_FAILED, b"hsplan-stream: log: ReadFailed\n"]),
    "write": (5, [b"hsplan-stream: write failed\n", b"hsplan-stream: log: WriteFailed\n"]),
}


def is_cut(got: Ended, ordinary: Ended, name: str) -> bool:
    """Whether a run ended as it would without the failure of a call of this name, or, after a beginning of its output,
    with the status and the line of the failure. Of a line that can't be written, a beginning is printed."""
    printed, line, ended = got
    status, lines = ENDS[name]
    is_reported = line in lines or (name == "write" and ordinary[1].startswith(line))
    return got == ordinary or (ended == status and ordinary[0].startswith(printed) and is_reported)


def check_failing(it: Programs, room: str) -> tuple[list[str], int]:
    """The faults of runs in which each open, read and write fails in turn."""
    preloaded, found, tried = preload.built("fail_io", room), [], 0
    for words, given in FAILING:
        ordinary, reported = it.run(words, given), os.path.join(room, "reported")
        it.run(words, given, LD_PRELOAD=preloaded, REPORT_IO=reported)
        with open(reported, encoding="utf-8") as lines:
            calls = failing.calls_of(lines)
        for call in calls:
            for kind in (errno.EIO, errno.ENOSPC) if call.name in ("open", "read", "write") else ():
                got = it.run(words, given, LD_PRELOAD=preloaded, FAIL_IO=f"{call.name} {call.number} {kind}")
                fine = got != ordinary and is_cut(got, ordinary, call.name)
                found += [] if fine else [f"{words}: {call.name} {call.number} of {call.path} fails: {got}"]
                tried += 1
            if call.name == "read":
                got = it.run(words, given, LD_PRELOAD=preloaded, FAIL_IO=f"read {call.number} {errno.EINTR}")
                found += [] if is_cut(got, ordinary, "read") else [f"{words}: read {call.number} is interrupted: {got}"]
                tried += 1
    return found, tried


def check_all(it: Programs, million: int, room: str) -> list[str]:
    draw = random.Random(49)
    # The memory of a run counts that of this process before it, so this comes while it is small.
    found = check_many_arcs(it) + check_million(it, million)
    oracle.put_cases(it.folder)
    with open(os.path.join(it.folder, "demand.csv"), "rb") as file:
        it.plan_by_prices(file.read())
    found += check_help(it) + check_places(it, draw) + check_talk(it)
    faults, tried = check_failing(it, room)
    found += faults + ([] if tried else ["failing calls: nothing was tried"])
    print(f"failing calls: {tried} runs")
    found += check_prices(it, draw) + check_price_answers(it, draw)
    found += check_many_rows(it, draw) + check_whole_table(it, draw) + check_ties(it)
    return found + check_progress(it) + check_twelve(it)


def main() -> int:
    arguments = argparse.ArgumentParser(description="Runs the built program hsplan-stream over logs.")
    arguments.add_argument("--program", default=programs.tested("hsplan-stream"))
    arguments.add_argument("--hsplan", default=programs.tested("hsplan"))
    arguments.add_argument("--million", type=int, default=1_000_000, metavar="N", help="handles of the long log")
    given = arguments.parse_args()
    if programs.is_absent(given.program, given.hsplan):
        return 1
    with tempfile.TemporaryDirectory() as room:
        folder = os.path.join(room, "service")
        os.mkdir(folder)
        it = Programs(os.path.abspath(given.program), os.path.abspath(given.hsplan), folder)
        faults = check_all(it, given.million, room)
    return programs.concluded(faults, "stream:")


if __name__ == "__main__":
    sys.exit(main())
