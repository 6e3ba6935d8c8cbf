"""A service: the files of a folder, and what hsplan says they hold."""

import csv
import difflib
import functools
import io
import ipaddress
import os
import re
import tomllib
from collections import Counter
from collections.abc import Iterable
from dataclasses import dataclass, field
from fractions import Fraction
from typing import Any

from hsp.base.bounds import whole
from hsp.base.numbers import percent_exactly, some
from hsp.base.paths import path_in
from hsp.base.programs import Certificate, Inputs, Missing, Programs, Refused, table_text
from hsp.base.text import escaped
from hsp.base.unfit import Unfit
from hsp.plans.counted import Counted, counted_in, is_log
from hsp.plans.titles import insist_counted, titles_of

# The conventional names of the files.
NAMES = {"settings": "settings.toml", "demand": "demand.csv", "costs": "costs.csv", "capacity": "capacity.csv"}
VALUES = "sites.values"
# The folders of hours: `h09` of a day, `mon-h09` of a week.
OF_DAY = re.compile(r"h([01][0-9]|2[0-3])")
OF_WEEK = re.compile(r"(mon|tue|wed|thu|fri|sat|sun)-h([01][0-9]|2[0-3])")
TITLE_KEYS = ("title", "cost", "time")
# Names of warnings that are meant.
ACCEPT = "accept"


@dataclass(frozen=True)
class Server:
    """A server of a site. Its number counts the servers of all sites, in the order of the settings."""

    number: int
    site: str
    id: int
    address: str

    @property
    def label(self) -> str:
        return f"{self.site} {self.id}"

    @property
    def said(self) -> dict[str, Any]:
        """It as JSON names it."""
        return {"site": self.site, "server_id": self.id}


@dataclass(frozen=True)
class Site:
    """A site with its servers, by their places."""

    name: str
    option: int
    servers: list[Server]


@dataclass(frozen=True)
class Row:
    """How many queries for a handle come from a region."""

    region: str
    handle: str
    count: int


def asked_by(rows: Iterable[Row]) -> Counter[str]:
    counts: Counter[str] = Counter()
    for row in rows:
        counts[row.region] += row.count
    return counts


@dataclass(frozen=True)
class Titles:
    """What the service and its units of cost and time are called, and the warnings that are meant."""

    title: str
    cost: str = ""
    time: str = ""
    accept: tuple[str, ...] = ()


@dataclass(frozen=True)
class Service:
    """All that is read from a folder, and its certificate.

    Of a demand that no table holds, only the sums are read: it has no rows here, and its plan is one by prices.
    """

    folder: str
    titles: Titles
    inputs: Inputs
    settings: dict[str, Any]
    sites: list[Site]
    rows: list[Row]
    costs: dict[tuple[str, str], int]
    capacities: dict[tuple[str, int], int]
    certificate: Certificate
    plan_file: str
    places: dict[tuple[str, str], int] = field(repr=False)
    log: Counted | None = None
    # Which part of each capacity and limit is kept back, and the inputs and capacities without that.
    reserve: Fraction = Fraction(0)
    given: Inputs | None = None
    given_capacities: dict[tuple[str, int], int] = field(default_factory=dict)
    # No site is used that costs a region more; of any cost where it is none. Then `given` has all costs.
    within: int | None = None

    @property
    def unit(self) -> str:
        """The unit of costs behind a blank, where there is one."""
        return f" {self.titles.cost}" if self.titles.cost else ""

    @property
    def own_inputs(self) -> Inputs:
        """The inputs as they were given, with what is kept back and with costs that are too high."""
        return self.given or self.inputs

    @property
    def kept_back(self) -> str:
        is_small = Fraction(1, 10_000) <= self.reserve < Fraction(1, 100)  # 0.15 is seldom meant as 0.15%
        beside = f" (not {percent_exactly(100 * self.reserve)})" if is_small else ""
        return f"{percent_exactly(self.reserve)}{beside} of each capacity kept back" if self.reserve else ""

    @property
    def limits(self) -> list[str]:
        """What is kept back, and what a query may cost, in words."""
        within = [] if self.within is None else [f"no query costs more than {self.within:,}{self.unit}"]
        return [*([self.kept_back] if self.reserve else []), *within]

    @property
    def rows_are(self) -> str:
        """What a row stands for: a handle of a table, or one of a log."""
        return "log" if self.log else "handles"

    @property
    def is_empty(self) -> bool:
        return not self.rows and not self.log

    @property
    def rows_words(self) -> str:
        """How many handles there are; of a log, how many rows."""
        return some(self.log.rows, "row") if self.log else some(self.handles, "handle")

    @property
    def servers(self) -> list[Server]:
        return [server for site in self.sites for server in site.servers]

    @functools.cached_property
    def row_heads(self) -> list[str]:
        """The rows as a table has them, up to their counts. Most tables that are planned differ only in these."""
        text = table_text("", ((row.region, row.handle, "") for row in self.rows))
        return text.split("\n")[1:-1]

    @functools.cached_property
    def by_region(self) -> dict[str, int]:
        """How many queries there are of each region, in the order of their rows."""
        return self.log.regions if self.log else asked_by(self.rows)

    @property
    def regions(self) -> list[str]:
        return list(self.by_region)

    @property
    def handles(self) -> int:
        return len({row.handle for row in self.rows})

    @property
    def asked(self) -> int:
        return sum(self.by_region.values())

    def capacity(self, server: Server) -> int:
        return self.capacities[server.site, server.id]

    def server(self, site: int, handle: str) -> Server:
        """The server that is responsible for a handle at a site."""
        at = self.sites[site]
        return at.servers[self.places[handle, at.name]]

    def sites_for(self, region: str) -> list[int]:
        return [at for at, site in enumerate(self.sites) if (region, site.name) in self.costs]

    def kind(self, row: Row) -> tuple[tuple[str, int], ...]:
        """The server that a row has at each site that its region may use: its kind, which other rows may share."""
        servers = (self.server(at, row.handle) for at in self.sites_for(row.region))
        return tuple((server.site, server.id) for server in servers)


def _absent(folder: str, paths: list[str]) -> list[str]:
    """Which files are not there, each with a near name where there is one."""
    if len(paths) == len(NAMES):
        return [f"{folder}: none of {', '.join(NAMES.values())} is here"]
    lines = []
    for path in paths:
        near = difflib.get_close_matches(os.path.basename(path), os.listdir(os.path.dirname(path) or "."), 1, 0.6)
        why = "is a folder, not a file" if os.path.isdir(path) else "no such file"
        lines.append(f"{path}: {why}" + (f"; did you mean {near[0]}?" if near and why == "no such file" else ""))
    return lines


def inputs_in(folder: str, given: dict[str, str | None]) -> Inputs:
    """The files of a folder by their conventional names, or those that were given instead."""
    files = {role: given.get(role) or path_in(folder, name) for role, name in NAMES.items()}
    absent = [path for path in files.values() if not os.path.exists(path) or os.path.isdir(path)]
    if absent:
        raise Missing(*_absent(folder, absent))
    values = given.get("values")
    beside = path_in(folder, VALUES)
    if not values and os.path.isfile(beside):
        values = beside
    insist_counted(files["demand"])
    return Inputs(**files, values=values, is_log=is_log(files["demand"]))


def newer_than(files: Iterable[str | None], plan: str) -> list[str]:
    """The names of the files that changed after a plan was written."""
    there = [path for path in files if path and os.path.isfile(path) and os.path.isfile(plan)]
    return [os.path.basename(path) for path in there if os.stat(path).st_mtime > os.stat(plan).st_mtime]


def table(path: str) -> list[list[str]]:
    """The records of a table below its header. An empty line is none."""
    text = whole(path).decode("utf-8-sig")
    if '"' not in text:  # empty lines are no rows, and there may be millions of them
        text = re.sub(r"[\r\n]{2,}", "\n", text)
    return [row for row in csv.reader(io.StringIO(text, newline="")) if row][1:]


def settings_in(path: str) -> dict[str, Any]:
    """Settings that hsplan takes."""
    octets = whole(path).removeprefix(b"\xef\xbb\xbf")
    if b'"""' not in octets and b"'''" not in octets:  # nor are comments settings
        octets = b"\n".join(line[0] for line in re.finditer(rb"(?m)^[ \t]*[^#\s][^\r\n]*", octets))
    return tomllib.loads(octets.decode())


def dotted(address: str) -> str:
    """An address of 32 hexadecimal digits, as people write it."""
    octets = bytes.fromhex(address)
    if octets[:12] == bytes(12):
        return str(ipaddress.IPv4Address(octets[12:]))
    return str(ipaddress.IPv6Address(octets))


def is_of_hour(demand: str) -> bool:
    """Whether a demand is that of an hour. It has the rows of all hours, so a count of 0 is meant."""
    name = os.path.basename(os.path.dirname(os.path.abspath(demand)))
    return bool(OF_DAY.fullmatch(name) or OF_WEEK.fullmatch(name))


def titles_in(folder: str, title: str | None, cost: str | None) -> Titles:
    """The words of `hsp.toml`; a title and a unit of cost that were given come first, the folder's name last."""
    said = titles_of(folder)
    names = [part for part in os.path.abspath(folder).split(os.sep) if part not in ("out", "")]
    plain: dict[str, str] = {key: str(said[key]) for key in TITLE_KEYS if key in said}
    fallback = names[-1] if names else folder
    own_title = title if title else plain.get("title", fallback)
    own_cost = cost if cost else plain.get("cost", "")
    accept = said.get(ACCEPT, [])
    meant = tuple(map(str, accept)) if isinstance(accept, list) else (str(accept),)
    return Titles(escaped(own_title), escaped(own_cost), escaped(plain.get("time", "")), meant)


def site_of(name: str, fields: str, first: int) -> Site:
    """A site by the fields of its record, whose servers are numbered from `first` on."""
    option = 0
    servers: list[Server] = []
    for line in fields.splitlines():
        word, *rest = line.split()
        if word == "option":
            option = int(rest[0])
        elif word == "server":
            servers.append(Server(first + len(servers), name, int(rest[1]), rest[2]))
    return Site(name, option, servers)


def sites_of(programs: Programs, inputs: Inputs, settings: dict[str, Any]) -> list[Site]:
    """The sites of the settings. hsplan reads their records."""
    sites: list[Site] = []
    first = 0
    for site in settings.get("site", []):
        if "record" in site:
            fields = programs.site(bytes.fromhex(site["record"]))
        else:
            fields = programs.site_of_value(inputs.values or "", site["index"])
        sites.append(site_of(site["name"], fields, first))
        first += len(sites[-1].servers)
    return sites


def read_service(
    folder: str, programs: Programs, given: dict[str, str | None], title: str | None = None, cost: str | None = None
) -> Service:
    """Reads a folder. hsplan plans it first, so any fault of the files is hsplan's."""
    return service_of(folder, programs, inputs_in(folder, given), titles_in(folder, title, cost))


def _in_one_line(path: str, rows: list[Row]) -> None:
    """Refuses a handle with a line end: hsplan takes it, and a row of hsplan-stream, which has its servers, can't."""
    for number, row in enumerate(rows, 1):
        if "\n" in row.handle or "\r" in row.handle:
            raise Unfit(
                f"{path}: row {number} has a line end in its handle '{escaped(row.handle)}'; hsplan plans it, hsp shows "
                "no such plan: take the row out"
            )


def service_of(folder: str, programs: Programs, inputs: Inputs, titles: Titles) -> Service:
    """Reads files, as `read_service` does."""
    certificate, plan_file = programs.plan(inputs)
    settings = settings_in(inputs.settings)
    rows: list[Row] = []
    if not inputs.is_log:
        rows = [Row(region, handle, int(count)) for region, handle, count in table(inputs.demand)]
        _in_one_line(inputs.demand, rows)
    return Service(
        folder,
        titles,
        inputs,
        settings,
        sites_of(programs, inputs, settings),
        rows,
        {(region, site): int(cost) for region, site, cost in table(inputs.costs)},
        {(site, int(server)): int(room) for site, server, room in table(inputs.capacity)},
        certificate,
        plan_file,
        {} if inputs.is_log else programs.places(inputs, dict.fromkeys(row.handle for row in rows)),
        counted_in(inputs.demand) if inputs.is_log else None,
    )
