"""The command `hsp capacity`."""

import os
import re
from collections import defaultdict
from collections.abc import Iterable, Sequence
from dataclasses import dataclass, field
from typing import Any, cast

import click

from hsp.base.files import locked, refuse_clashes
from hsp.base.grammar import GREATEST_CAPACITY, HEADERS
from hsp.base.numbers import PERIODS, duration, listed, signed
from hsp.base.options import PERCENTILE
from hsp.base.paths import path_in, shell_word
from hsp.base.programs import Programs, table_text
from hsp.base.text import say
from hsp.base.unfit import Unfit
from hsp.intake.bring import FOLDER
from hsp.measures.ends import SITE, Ends, Unknown, words_of
from hsp.measures.folder import Bare, folder_of, rows_in
from hsp.measures.knee import knee
from hsp.measures.load_tests import LoadTest, of_report, of_vegeta
from hsp.measures.sources import DURATION, Reading, head_of, is_json, json_of, pattern_of
from hsp.measures.timed import digits
from hsp.plans.service import Server
from hsp.plans.titles import MOST_SECONDS, SECONDS, TITLES, seconds_of

ANY = "*"
TARGET = re.compile(r"(\*|[A-Za-z0-9_.-]+)(?:[,:](\*|[0-9]{1,10}))?")
NUMBER = re.compile(r"[0-9]{1,12}(?:\.[0-9]{1,9})?")
# Parts that are so close are the same: a report has them in percent.
CLOSE = 1e-9
# A target and a number or a file that is given for it. Without a target the file has its own.
Said = tuple[str, str]
Seconds = dict[int, list[float]]


class SaidOf(click.ParamType):
    """`SITE=N`, `SITE,ID=N`, the same with a file, or a file."""

    name = "source"

    def convert(self, value: Any, param: click.Parameter | None, context: click.Context | None) -> Said:
        if isinstance(value, tuple):
            return cast(Said, value)
        if not value:
            self.fail("'' is no path", param, context)
        target, _, rest = value.partition("=")
        return (target, rest) if rest and TARGET.fullmatch(target) and not os.path.lexists(value) else ("", value)


@dataclass
class Found:
    """What servers take in the time of the demand, which is so long: before, and by what is said or measured."""

    bare: Bare
    seconds: int | None
    before: dict[Server, int]
    rates: dict[Server, tuple[float, str]] = field(default_factory=dict)
    # Why a server that was measured has no rate.
    whys: dict[Server, str] = field(default_factory=dict)

    @property
    def servers(self) -> list[Server]:
        return [server for site in self.bare.sites for server in site.servers]

    def meant(self, target: str, place: str) -> list[Server]:
        """The servers that `SITE`, `SITE,*`, `SITE,ID` or `*` means."""
        match = TARGET.fullmatch(target)
        site, own = (match[1], match[2] or ANY) if match else ("", "")
        servers = [it for it in self.servers if site in (ANY, it.site)]
        found = [it for it in servers if own in (ANY, str(it.id))]
        if not found:
            known = f"sites are {listed([it.name for it in self.bare.sites], 9)}"
            has = f"{site} has {listed([str(it.id) for it in servers], 9)}" if servers else known
            raise click.BadParameter(f"no server {target!r}; {has}", param_hint=place)
        return found

    def add(self, server: Server, number: float, seconds: int, why: str) -> None:
        """Notes a rate in so many seconds, or in the time of the demand, where no other one came before."""
        if seconds and not self.seconds:
            remedy = f"give --seconds N, or count the logs by hsp demand LOG.. --into {shell_word(self.bare.folder)}"
            raise Unfit(f"how long is the time that {self.bare.path('demand')} counts? {remedy}")
        self.rates.setdefault(server, (number * (self.seconds or 0) / seconds if seconds else number, why))

    def after(self, server: Server) -> int:
        """What a server takes, rounded down. Where nothing is said, it is what it had, or 0."""
        rate, _ = self.rates.get(server, (self.before.get(server, 0), ""))
        return int(min(rate + 1e-9, 1e15))

    def text(self) -> str:
        """The table as hsplan reads it."""
        large = [it.label for it in self.servers if self.after(it) > GREATEST_CAPACITY]
        if large:
            raise Unfit(f"{listed(large)}: more than a table holds")
        return table_text(HEADERS["capacity"], ((it.site, it.id, self.after(it)) for it in self.servers))

    def lines(self) -> list[str]:
        """Before and after, and what stands behind it."""
        wide = max(len(it.label) for it in self.servers)
        lines = [f"queries that a server takes{f' in {duration(self.seconds)}' if self.seconds else ''}"]
        lines.append(f"  {'':<{wide}}  {'before':>13}  {'after':>13}  {'change':>13}")
        for it in self.servers:
            before, after = self.before.get(it), self.after(it)
            old, change = "-" if before is None else f"{before:,}", signed(after - (before or 0)) or "-"
            as_it_was = "nothing is said" if before is None else "as before"
            why = self.rates[it][1] if it in self.rates else self.whys.get(it, as_it_was)
            lines.append(f"  {it.label:<{wide}}  {old:>13}  {after:>13,}  {change:>13}  {why}")
        zero = [it.label for it in self.servers if not self.after(it)]
        return [*lines, *([f"zero  {listed(zero, 9)}: no query goes there"] if zero else [])]


def tested(path: str) -> LoadTest | None:
    """The load test that a file reports; none where it is something else."""
    head = head_of(path)
    if is_json(head):
        return of_vegeta(path, json_of(path)) if b'"latencies"' in head else None
    return of_report(path, head)


def is_table(path: str) -> bool:
    """Whether a file is a table of targets with their numbers."""
    if not os.path.isfile(path):
        return False
    with open(path, "rb") as file:
        return file.read(64).removeprefix(b"\xef\xbb\xbf").startswith(HEADERS["capacity"].encode())


def of_numbers(found: Found, numbers: Iterable[Said], seconds: int, place: str) -> None:
    """Takes numbers. A server by its identifier comes before all of its site, and a site before all."""

    def rank(said: Said) -> tuple[bool, bool]:
        target = said[0]
        return target.startswith(ANY), target.endswith(ANY) or not re.search("[,:]", target)

    for target, text in sorted(numbers, key=rank):
        if not NUMBER.fullmatch(text.strip()):
            raise click.BadParameter(f"{text!r} is no number such as 1500 or 12.5", param_hint=place)
        for server in found.meant(target, place):
            found.add(server, float(text), seconds, f"said by {target}")


def of_tests(found: Found, tests: Sequence[tuple[Said, LoadTest]], below: float | None, share: float) -> None:
    """Takes the highest rate of all tests of a target at which a share of answers stayed below a time."""
    if tests and below is None:
        raise click.UsageError("a load test needs --below MS, the time below which answers have to stay")
    for (target, path), test in sorted(tests, key=lambda own: -own[1].rate):
        if not target:
            raise click.BadParameter(f"{path} names no server: write SITE,ID={path}", param_hint="SOURCE")
        kept = test.within(below or 0.0)
        at = f"below {below:g} ms at {digits(test.rate)} a second, {path}"
        for server in found.meant(target, path):
            if kept < share - CLOSE:
                found.whys.setdefault(server, f"only {100 * kept:.4g}% are known to be {at}")
            else:
                found.add(server, test.rate, 1, f"{100 * share:g}% {at}")


def seconds_in(logs: Iterable[Said], found: Found, ends: Ends, reading: Reading) -> dict[Server, Seconds]:
    """The times in each second of logs by their servers. Without a target a log names its servers."""
    seconds: dict[Server, Seconds] = defaultdict(dict)
    for target, path in logs:
        own = found.meant(target, path) if target else []
        if len(own) > 1:
            raise Unfit(f"{path}: a log is of one server, and {target} has {len(own)}: write SITE,ID=FILE")
        for timed in reading.times(path):
            try:
                servers = own or ends.servers(timed.server)
                if len(servers) > 1:
                    site = servers[0].site
                    raise Unknown(f"{site} has several servers, and the line names none; write {site},ID=FILE")
                if timed.second is None:
                    raise Unknown("no moment in the line")
            except Unknown as why:
                reading.pass_over(str(why), path, timed)
            else:
                seconds[servers[0]].setdefault(timed.second, []).append(timed.milliseconds)
    return seconds


def of_logs(found: Found, seconds: dict[Server, Seconds]) -> None:
    """Takes the rates above which the times in logs rose."""
    for server, own in seconds.items():
        knees = knee(own)
        if isinstance(knees, str):
            found.whys.setdefault(server, knees)
        else:
            sure = f"95% from {knees.low:,.0f} to {knees.high:,.0f}, explains {100 * knees.explains:.0f}%"
            rises = f"times rise above {knees.rate:,.0f} a second ({sure})"
            found.add(server, knees.rate, 1, f"{rises}, from {knees.level:,.3g} ms")


def fill(found: Found, said: Sequence[Said], given: dict[str, Any], ends: Ends, reading: Reading) -> None:
    """Takes what is said, and what the files have: first numbers, then tables, load tests and logs."""
    period = PERIODS.get(given["per"], 0)
    of_numbers(found, [it for it in said if is_number(it)], period, "SOURCE")
    files = [it for it in said if not is_number(it)]
    for target, path in files:
        if not os.path.lexists(path):
            raise Unfit(f"{path}: no such file, and no number such as 1500 or 12.5")
        if not target and is_table(path):
            rows = [(f"{site},{own}", number) for site, own, number in rows_in(path, HEADERS["capacity"])]
            of_numbers(found, rows, period, path)
    rest = [it for it in files if it[0] or not is_table(it[1])]
    tests = {it: test for it in rest if os.path.isfile(it[1]) and (test := tested(it[1]))}
    of_tests(found, list(tests.items()), given["below"], float(given["share"]))
    of_logs(found, seconds_in([it for it in rest if it not in tests], found, ends, reading))


def is_number(said: Said) -> bool:
    return bool(said[0] and NUMBER.fullmatch(said[1]) and not os.path.exists(said[1]))


@click.command()
@click.argument("said", metavar="SOURCE..", nargs=-1, required=True, type=SaidOf())
@click.option("--into", metavar="DIR", type=FOLDER, required=True, help="the folder whose capacity.csv is written")
@click.option("--per", type=click.Choice(list(PERIODS)), help="the time that numbers are of; by default the demand's")
@click.option("--seconds", type=click.IntRange(1, MOST_SECONDS), metavar="N", help="the length of the demand's time")
@click.option(
    "--below", type=click.FloatRange(0, min_open=True), metavar="MS", help="of load tests: an acceptable time"
)
@click.option("--share", metavar="P", type=PERCENTILE, default="99", show_default=True, help="so many % stay below it")
@SITE
@click.option("--regex", metavar="PATTERN", help="of other lines: (?P<server>..), (?P<seconds>..), (?P<time>..)")
@DURATION
def capacity(said: tuple[Said, ...], into: str, **given: Any) -> None:
    """Writes what servers take: by numbers, load tests or logs.

    A SOURCE is SITE=N or SITE,ID=N, a table site,server_id,capacity with * for all servers, what wrk or h2load
    printed or vegeta reported in JSON, as SITE,ID=FILE, or an access log with response times: the rate above which
    these rose. Rates are turned into the time that the demand counts, which hsp.toml notes. Capacities are printed
    as they were before and are after.
    """
    bare = folder_of(into, Programs())
    inputs = [path for it in said if not is_number(it) for path in it[1:]]
    refuse_clashes(inputs, [bare.path("capacity"), path_in(into, TITLES)])
    ends = Ends(bare.sites, words_of(given["words"], [site.name for site in bare.sites]), None)
    reading = Reading(pattern_of(given["regex"]), given["duration"] or "")
    with locked([into]):
        before = {(site, own): room for site, own, room in bare.rows("capacity")}
        servers = [server for site in bare.sites for server in site.servers]
        known = {it: before[it.site, str(it.id)] for it in servers if (it.site, str(it.id)) in before}
        found = Found(bare, given["seconds"] or seconds_of(into), known)
        fill(found, said, given, ends, reading)
        last = bare.write("capacity", found.text(), {SECONDS: given["seconds"]} if given["seconds"] else {})
    say(*found.lines(), *reading.lines(), last)
