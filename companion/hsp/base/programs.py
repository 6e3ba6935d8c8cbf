"""Calls hsplan and hsplan-stream, and reads what they print. No rule of theirs is written here a second time."""

from __future__ import annotations

import contextlib
import csv
import functools
import io
import itertools
import os
import shutil
import subprocess
import sys
import tempfile
from collections.abc import Iterable, Iterator
from dataclasses import dataclass, replace
from typing import NamedTuple

from hsp.base.held import Held
from hsp.base.grammar import GREATEST_CAPACITY, HEADERS, LOG_HEADERS
from hsp.base.signals import uncut

# A capacity that no demand within hsplan's limits can fill.
BOUNDLESS = GREATEST_CAPACITY


class Refused(Exception):
    """hsplan refused its inputs, with this status and this line."""

    def __init__(self, status: int, line: str) -> None:
        super().__init__(line)
        self.status = status
        self.line = line


class Missing(Exception):
    """A file or a program isn't there; one line or several say which."""

    def __init__(self, *lines: str) -> None:
        super().__init__("; ".join(lines))
        self.lines = lines


def program(name: str) -> str:
    """The path of a program: that of the environment's HSPLAN or HSPLAN_STREAM, or the one in PATH or beside hsp."""
    beside = os.path.dirname(os.path.realpath(sys.argv[0]))
    key = name.upper().replace("-", "_")
    found = os.environ.get(key) or shutil.which(name) or shutil.which(name, path=beside)
    if not found:
        raise Missing(f"{name} isn't in PATH, nor beside hsp. Install it, or set {key} to its file.")
    return found


class Printed(NamedTuple):
    """What a run printed, and its status."""

    status: int
    out: str
    line: str


def run(name: str, *words: str) -> Printed:
    """Runs a program without standard input."""
    done = subprocess.run([program(name), *words], stdin=subprocess.DEVNULL, capture_output=True)
    return Printed(
        done.returncode, done.stdout.decode("utf-8", "replace"), done.stderr.decode("utf-8", "replace").strip()
    )


def asked(name: str, *words: str) -> str:
    """What a run prints that may not be refused."""
    printed = run(name, *words)
    if printed.status:
        raise Refused(printed.status, printed.line.removeprefix(f"{name}: ") or printed.out.strip())
    return printed.out


@dataclass(frozen=True)
class Inputs:
    """The files of a plan, by their paths. A demand that no table holds is a log, and is planned by prices."""

    settings: str
    demand: str
    costs: str
    capacity: str
    values: str | None = None
    is_log: bool = False

    @property
    def program(self) -> str:
        """The program that plans and judges these files."""
        return "hsplan-stream" if self.is_log else "hsplan"

    @property
    def plan_option(self) -> str:
        """The option behind which a certificate of these files stands."""
        return "--prices" if self.is_log else "--plan"

    def files(self) -> list[str]:
        return [self.settings, *([self.values] if self.values else []), self.demand, self.costs, self.capacity]

    def of_sites(self) -> list[str]:
        """The options that say which sites there are."""
        return ["--settings", self.settings, *(["--values", self.values] if self.values else [])]

    def words(self) -> list[str]:
        tables = ["--costs", self.costs, "--capacity", self.capacity]
        own = [*tables, "--log", self.demand] if self.is_log else ["--demand", self.demand, *tables]
        return self.of_sites() + own

    def priced(self, plan: str) -> list[str]:
        """The options by which any handle is answered by a certificate by prices."""
        return [*self.of_sites(), "--costs", self.costs, "--capacity", self.capacity, "--prices", plan]

    def but(self, **changed: str) -> Inputs:
        """The same with other files in some places."""
        return replace(self, **changed)


class Use(NamedTuple):
    """So many queries of a row that a plan sends to a site."""

    row: int
    site: int
    queries: int


class Certificate:
    """The text of a plan or of a shortage. Its sums are read at once, its lines when they are asked for."""

    def __init__(self, text: str) -> None:
        self.text = text
        head = text[:200].split("\n")
        self.head = head[0]
        said = dict(line.split(" ") for line in head[2:4] if line.count(" ") == 1)
        self.is_plan = head[1] == "PLAN"
        self.cost, self.demand, self.capacity = (int(said.get(word, 0)) for word in ("cost", "demand", "capacity"))

    def _columns(self, word: str, width: int) -> list[list[int]]:
        """The numbers in the lines of a word, column by column. These lines stand together."""
        first, last = self.text.find(f"\n{word} "), self.text.rfind(f"\n{word} ")
        parts = self.text[first : self.text.index("\n", last + 1)].split() if first >= 0 else []
        return [list(map(int, parts[at :: width + 1])) for at in range(1, width + 1)]

    @property
    def use_columns(self) -> tuple[list[int], list[int], list[int]]:
        """The rows, the sites and the queries of all uses, in their order. It takes a third of the time of `uses`."""
        rows, sites, numbers = self._columns("use", 3)
        return rows, sites, numbers

    @functools.cached_property
    def uses(self) -> list[Use]:
        return list(map(Use, *self.use_columns))

    def prices(self, of: str) -> list[int]:
        """The prices of the rows, the servers or the hosts of a plan: `row`, `server` or `host`."""
        return self._columns(of, 2)[1]

    @property
    def rows(self) -> list[int]:
        """The numbers of the rows of a shortage."""
        return self._columns("row", 1)[0]


class Class(NamedTuple):
    """So many queries of the rows of a region that pay least at the same servers go to each of these."""

    region: str
    amounts: dict[int, int]


class Prices(Certificate):
    """The text of a plan or of a shortage by prices. It names servers, and no row."""

    def __init__(self, text: str) -> None:
        super().__init__(text)
        end = dict(line.split(" ") for line in text[-200:].split("\n") if line.count(" ") == 1)
        if not self.is_plan:
            self.demand, self.capacity = (int(end.get(word, 0)) for word in ("demand", "capacity"))

    @property
    def classes(self) -> list[Class]:
        lines = (line.split() for line in self.text.splitlines() if line.startswith("class "))
        return [
            Class(region, {int(at): int(number) for at, number in zip(own[::2], own[1::2])})
            for _, region, *own in lines
        ]

    @property
    def servers(self) -> list[int]:
        """The numbers of the servers of a shortage."""
        return self._columns("server", 1)[0]


class Interface(NamedTuple):
    """A service interface of the server at a place of a site: what is served, by which protocol, at which port.

    The address has 32 hexadecimal digits.
    """

    site: str
    place: int
    server: int
    address: str
    service: int
    protocol: int
    port: int


class Load(NamedTuple):
    """What a server takes by a plan, what it can take, and its price."""

    load: int
    capacity: int
    price: int


class Bound(NamedTuple):
    """The sum of the rows' prices, less that of the full servers and hosts, and the cost of the plan."""

    rows: int
    full: int
    cost: int


def table_text(header: str, rows: Iterable[Iterable[object]]) -> str:
    """A table as comma-separated values."""
    out = io.StringIO()
    csv.writer(out, lineterminator="\n").writerows(rows)
    return f"{header}\n{out.getvalue()}"


@contextlib.contextmanager
def _temporary(folder: str) -> Iterator[None]:
    """Names the folder of temporary files where one can't be written."""
    try:
        yield
    except OSError as fault:
        remedy = "set TMPDIR to another folder for temporary files"
        raise OSError(fault.errno, f"{fault.strerror}; {remedy}", folder) from None


class Programs:
    """hsplan and hsplan-stream with the questions that are asked, and a folder for the files that are made on the way."""

    def __init__(self) -> None:
        with _temporary("TMPDIR"), uncut():
            self._folder = tempfile.TemporaryDirectory(prefix="hsp-")
        self._numbers = itertools.count(1)
        self._held = Held()
        # The shorter logs that were made of logs, by the paths of settings and log.
        self.shorter: dict[tuple[str, str], str] = {}

    def close(self) -> None:
        """Takes away the files that were made on the way."""
        self._folder.cleanup()

    def hold(self, files: Iterable[str]) -> None:
        """Notes files as they are now, before they are read."""
        self._held.add(files)

    def insist_held(self) -> None:
        """Refuses to go on where a file was changed since it was noted: what was planned is of none of its texts."""
        changed = self._held.changed()
        if changed:
            raise Missing(f"{changed}: it was changed while this command read it; run the command again")

    def put(self, text: str | bytes, suffix: str = ".txt") -> str:
        """Writes a file, and returns its path."""
        path = os.path.join(self._folder.name, f"{os.getpid()}-{next(self._numbers)}{suffix}")
        self.add(path, [text if isinstance(text, bytes) else text.encode()])
        return path

    def add(self, path: str, pieces: Iterable[bytes]) -> None:
        """Writes on at the end of a file of this folder."""
        with _temporary(self._folder.name), open(path, "ab") as file:
            file.writelines(pieces)

    def put_table(self, header: str, rows: Iterable[Iterable[object]]) -> str:
        return self.put(table_text(header, rows), ".csv")

    def plan(self, inputs: Inputs) -> tuple[Certificate, str]:
        """The certificate of a plan or of a shortage, and the path of its file."""
        name = inputs.program
        printed = run(name, "plan", *inputs.words())
        if printed.status not in (0, 3):
            raise Refused(printed.status, printed.line.removeprefix(f"{name}: "))
        if not printed.out.startswith("HSPLAN "):
            raise Missing(f"{program(name)} printed no plan: is it {name}?")
        certificate = Prices if inputs.is_log else Certificate
        return certificate(printed.out), self.put(printed.out)

    def verdict(self, inputs: Inputs, plan: str) -> str:
        """What the checker says of a certificate: `yes`, or `no` and why."""
        words = [*inputs.words(), inputs.plan_option, plan]
        return run(inputs.program, "check", *words).out.strip()

    def insist(self, inputs: Inputs, plan: str) -> None:
        """Refuses to go on by a certificate to which the checker doesn't say yes."""
        verdict = self.verdict(inputs, plan)
        if verdict != "yes":
            self.insist_held()
            name = inputs.program
            raise Missing(f"{name} check says {verdict} to {name}'s own plan: please report this with your files")

    def judged(self, inputs: Inputs) -> tuple[Certificate, str]:
        """A plan or a shortage to which the checker says yes, and its file."""
        certificate, path = self.plan(inputs)
        self.insist(inputs, path)
        return certificate, path

    def _report(self, inputs: Inputs, plan: str, report: str) -> list[str]:
        words = [*inputs.words(), inputs.plan_option, plan]
        try:
            return asked(inputs.program, "report", *words, "--kind", report).splitlines()
        except Refused:
            self.insist_held()
            raise

    def loads(self, inputs: Inputs, plan: str) -> tuple[list[Load], Bound]:
        """The load of each server, in the order of the settings, and the sums that show the cost."""
        *lines, bound = self._report(inputs, plan, "load")[1:]
        loads = [Load(int(load), int(room), int(price)) for _, _, load, room, price, _ in map(str.split, lines)]
        return loads, Bound(*map(int, bound.split()[1::2]))

    def regions(self, inputs: Inputs, plan: str) -> dict[str, tuple[int, int]]:
        """The demand and the cost of each region."""
        lines = (line.split() for line in self._report(inputs, plan, "region")[1:-1])
        return {name: (int(demand), int(cost)) for demand, cost, name in lines}

    def reached(self, inputs: Inputs, plan: str) -> set[tuple[str, int]]:
        """The servers that the rows of a shortage may use, by site and identifier."""
        lines = [line.split() for line in self._report(inputs, plan, "shortage")]
        first = next(at for at, line in enumerate(lines) if line[:1] == ["place"])
        return {(line[3], int(line[1])) for line in lines[first + 1 :]}

    def site(self, octets: bytes) -> str:
        """The fields of a site's record."""
        path = self.put(octets, ".site")
        try:
            return asked("hsplan", "site", path)
        finally:
            os.unlink(path)

    def site_of_value(self, values: str, index: int) -> str:
        """The fields of the record that a value list has at an index."""
        return asked("hsplan", "site", "--index", str(index), values)

    def interfaces(self, inputs: Inputs) -> list[Interface]:
        """The service interfaces of all servers, site by site and place by place."""
        printed = asked("hsplan-stream", "interfaces", *inputs.of_sites())
        rows = list(csv.reader(io.StringIO(printed, newline="")))[1:]
        return [
            Interface(site, int(place), int(server), address, *map(int, numbers))
            for site, place, server, address, *numbers in rows
        ]

    def places(self, inputs: Inputs, handles: Iterable[str]) -> dict[tuple[str, str], int]:
        """The place of the responsible server of each handle at each site, by handle and site."""
        log = self.put_table("handle", ([name] for name in handles))
        printed = asked("hsplan-stream", "places", *inputs.of_sites(), "--log", log)
        rows = list(csv.reader(io.StringIO(printed, newline="")))[1:]
        return {(handle, site): int(place) for handle, site, place, _ in rows}

    def places_by_site(self, inputs: Inputs, handles: list[bytes], sites: int) -> dict[bytes, tuple[bytes, ...]]:
        """The places of the responsible servers of each handle at all sites, in their order. Handles are as they stand
        in a log."""
        log = self.put(b"handle\n" + b"".join(b"%b\n" % handle for handle in handles), ".csv")
        words = [program("hsplan-stream"), "places", *inputs.of_sites(), "--log", log]
        done = subprocess.run(words, stdin=subprocess.DEVNULL, capture_output=True)
        os.unlink(log)
        lines = done.stdout.split(b"\n")[1:-1]
        if done.returncode or len(lines) != len(handles) * sites:
            line = done.stderr.decode("utf-8", "replace").strip().removeprefix("hsplan-stream: ")
            raise Refused(done.returncode or 1, line or "places of other handles")
        places = zip(*([line.rsplit(b",", 2)[1] for line in lines[at::sites]] for at in range(sites)))
        return dict(zip(handles, places))

    def where(self, inputs: Inputs, plan: str, region: str, handle: str) -> str:
        """What a query is answered by a certificate: the line of `hsplan dispatch`, or of `hsplan-stream answer`."""
        log = self.put_table(LOG_HEADERS["dispatch"][0], [[region, handle]])
        words = ["answer", *inputs.priced(plan)] if inputs.is_log else ["dispatch", *inputs.words(), "--plan", plan]
        return asked(inputs.program, *words, "--log", log).rstrip("\n")

    def fault_of_log(self, log: str) -> str:
        """The first fault of a log in which any sites and costs could be; nothing where it has none."""
        inputs, path = self._bare
        inputs = replace(inputs, demand=log, is_log=True)
        printed = run(inputs.program, "check", *inputs.words(), inputs.plan_option, path)
        return printed.line.removeprefix(f"{inputs.program}: ") if printed.status not in (0, 3) else ""

    def without_sites(self, demand: bytes = b"") -> Inputs:
        """The inputs of a service that has no site and no cost, with the rows of a demand."""
        costs, capacity = (self.put_table(HEADERS[role], []) for role in ("costs", "capacity"))
        table = demand or f"{HEADERS['demand']}\n".encode()
        return Inputs(self.put(b"", ".toml"), self.put(table, ".csv"), costs, capacity)

    @functools.cached_property
    def _bare(self) -> tuple[Inputs, str]:
        """A service without sites, and its plan by prices."""
        return self.without_sites(), self.put("HSPLAN PRICES 1\nPLAN\ncost 0\nEND\n")

    def answers_without_sites(self, log: bytes, rows: int) -> list[str]:
        """What each of so many rows of a log is answered where there is no site: `refused` and why, or `unknown`."""
        inputs, plan = self._bare
        path = self.put(log, ".csv")
        answers = asked("hsplan-stream", "answer", *inputs.priced(plan), "--log", path).splitlines()
        os.unlink(path)
        if len(answers) != rows:
            raise Missing(f"hsplan-stream answered {len(answers)} of {rows} rows: please report this with your log")
        return answers
