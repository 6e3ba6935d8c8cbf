"""The commands that bring a service in: `new`, `sites` and `demand`."""

import contextlib
import os
import re
import sys
from collections.abc import Callable, Sequence
from dataclasses import replace
from typing import Any, NamedTuple, TypeVar

import click

from hsp.base.bounds import whole
from hsp.base.files import Outputs, create, locked, refuse_clashes, replace_all, together
from hsp.base.grammar import GREATEST_CAPACITY, LOG_HEAD
from hsp.base.numbers import listed, some
from hsp.base.options import ANY_FILE, PERCENTILE, PathName, apart, idle
from hsp.base.options import given as words_given
from hsp.base.paths import path_in, shell_word
from hsp.base.programs import Programs
from hsp.base.text import give, is_utf8, say, show_progress
from hsp.base.unfit import Unfit
from hsp.intake import skeleton
from hsp.intake.joining import (
    Changed,
    block,
    capacity_rows,
    joined,
    limit,
    lines_of,
    moved_lines,
    planned,
    read_back,
    remove,
    update,
)
from hsp.intake.hours import CYCLES, Chosen, Cycle, asked_by_hour, busiest_hour, chosen_of, refuse_pipes
from hsp.intake.forms import NAMES as FORMS
from hsp.intake.forms import Form, within
from hsp.intake.hour_tally import HourTally, folders_of, in_folders, tables_in, write_hours
from hsp.intake.lasting import clock_lines, lasting, twice_lines
from hsp.intake.progress import Gauge, Progress
from hsp.intake.queries import Judge, Reading
from hsp.intake.regions import is_table, regions_in
from hsp.intake.side_by_side import MOST_JOBS, parts_of
from hsp.intake.sitefiles import Files, Found
from hsp.intake.tally import Demand, Tally
from hsp.intake.usual import usual_of
from hsp.intake.times import FIRST, HOUR, LAST, Span, iso_seconds
from hsp.plans.titles import SECONDS, TITLES, noted_time, seconds_of, uncounted
from hsp.plans.service import NAMES, VALUES

FOLDER = PathName(exists=True, file_okay=False)
Command = TypeVar("Command", bound=Callable[..., Any])


@click.command()
@click.argument("folder", metavar="DIR", type=PathName(file_okay=False))
@click.option("--example", is_flag=True, help="a small service that plans at once")
def new(folder: str, example: bool) -> None:
    """Writes the files of a new service, which say what goes into them.

    No file is overwritten.
    """
    paths = create(folder, skeleton.example() if example else skeleton.empty())
    say(f"{folder} has {listed([os.path.basename(path) for path in paths], 9)}")
    next_one = "hsp plan" if example else "hsp sites FILE.. --into"
    say(f"next: {next_one} {shell_word(folder)}")


def once(_: click.Context, __: click.Parameter, paths: tuple[str, ...]) -> tuple[str, ...]:
    """The paths, of which one at most is standard input."""
    if paths.count("-") > 1:
        raise click.BadParameter("- stands twice, and standard input is read once")
    return paths


def octets_of(path: str) -> bytes:
    """The octets of a file, or of standard input where it is `-`."""
    if re.match("https?://", path):
        raise Unfit(f"{path}: hsp opens no connection. Fetch it first: curl -o answer.json {shell_word(path)}")
    return whole(path)


def gathered(paths: tuple[str, ...], names: tuple[str, ...], files: Files) -> list[Found]:
    """The sites of all files under the given names. A record that came before is left out."""
    found: list[Found] = []
    for path in paths:
        for site in files.read(path, octets_of(path)):
            twin = next((other for other in found if other.octets == site.octets), None)
            if twin:
                files.left.append(f"{path}: the record of {twin.name} once more")
            else:
                found.append(site)
    if any(not is_utf8(given) for given in names):
        raise Unfit("a name isn't text")
    if len(names) > len(found):
        raise Unfit(f"{some(len(names), 'name')} for {some(len(found), 'site')}")
    named = [replace(site, name=name) for site, name in zip(found, names)] + found[len(names) :]
    if len({site.name for site in named}) < len(named):
        raise Unfit("two sites have the same name; give each its own --name")
    return named


def change_sites(paths: tuple[str, ...], into: str, given: dict[str, Any]) -> None:
    """Changes and removes sites, and gives machines limits. What that does is said before it is written."""
    programs = Programs()
    files = Files(programs)
    found = gathered(paths, given["names"], files)
    with locked([into]):
        changed = Changed(into, programs, given["capacity"])
        update(changed, found)
        remove(changed, given["remove"])
        limit(changed, given["host"])
        notes = files.taken + [f"left out: {left}" for left in files.left]
        costs = f"plan  {planned(changed, False)} before, {planned(changed, True)} after"
        say(*changed.lines, *moved_lines(changed), costs, *notes)
        if given["no_save"]:
            say("nothing is written")
            return
        replace_all(changed.texts)
    say(f"{listed(sorted(changed.texts))} {'is' if len(changed.texts) == 1 else 'are'} written")


@click.command()
@click.argument("paths", metavar="[FILE]..", nargs=-1, type=ANY_FILE, callback=once)
@click.option("--into", metavar="DIR", type=FOLDER, help="the folder that they are added to")
@click.option("--name", "names", metavar="NAME", multiple=True, help="of the first site, the second, and so on")
@click.option(
    "--capacity", default=0, show_default=True, type=click.IntRange(0, GREATEST_CAPACITY), help="of each server"
)
@click.option("--update", "is_update", is_flag=True, help="give sites that are there the records of the files")
@click.option("--remove", metavar="SITE", multiple=True, help="take a site away")
@click.option("--host", metavar="ADDRESS=N", multiple=True, help="what the servers at an address take together")
@click.option("--no-save", is_flag=True, help="only say what a change does")
def sites(paths: tuple[str, ...], into: str | None, is_update: bool, **given: Any) -> None:
    """Turns site information into the settings of a service.

    A FILE is a handle proxy's answer in JSON, a server's siteinfo.json or siteinfo.bin, a record in hexadecimal
    digits or base64, or a value list; - is standard input. Without --into the blocks are printed, and no file is
    written. With --update, --remove or --host it is said first which share of the handles gets another server, and
    what the plan costs before and after.
    """
    is_change = is_update or given["remove"] or given["host"]
    if is_change and not into or given["no_save"] and not is_change:
        raise click.UsageError(
            "--update, --remove, --host and --no-save are of changes in a folder: give --into DIR too"
        )
    if not paths and (is_update or not is_change):
        raise click.UsageError("Missing argument '[FILE]..'")
    if paths and is_change and not is_update:
        raise click.UsageError("files with --remove or --host need --update")
    if into:
        refuse_clashes(paths, [path_in(into, NAMES[role]) for role in ("settings", "capacity")])
    if is_change and into:
        change_sites(paths, into, given)
    else:
        add_sites(paths, into, given["names"], given["capacity"])


def add_sites(paths: tuple[str, ...], into: str | None, names: tuple[str, ...], capacity: int) -> None:
    """Adds sites to a folder, or prints their blocks."""
    programs = Programs()
    files = Files(programs)
    found = gathered(paths, names, files)
    notes = files.taken + [f"left out: {left}" for left in files.left]
    if into is None:
        read_back("".join(map(block, found)).encode(), 0, found, programs)
        for other in found:
            rows = "".join(f"# {site},{server},{room}\n" for site, server, room in capacity_rows(other, capacity))
            give(f"{block(other)}# its rows of capacity.csv:\n{rows}")
        say(*notes, err=True)
        return
    with locked([into]):
        result = joined(into, found, capacity, programs)
        if result.added:
            replace_all(result.contents)
    notes += [f"left out: {known.file}: its record is in the settings already" for known in result.known]
    say(*(line for added in result.added for line in lines_of(added)), *notes)
    if not result.added:
        say("nothing is added")
        return
    servers = sum(len(added.site().servers) for added in result.added)
    room = f"with the capacity {capacity:,}" + ("" if capacity else ": put in what each takes")
    where = " and ".join(result.contents)
    say(f"{some(len(result.added), 'site')} added to {where}; {some(servers, 'server')} {room}")


def form_of(given: dict[str, Any]) -> Form:
    if given["format"] in ("server", "proxy", "httplog"):
        refuse_fields(given["format"])
    refuse_time(given["by"])
    pattern = None
    if given["regex"]:
        try:
            pattern = re.compile(os.fsencode(given["regex"]))
        except re.error as error:
            raise click.BadParameter(str(error), param_hint="--regex") from None
        groups = pattern.groupindex
        if "client" not in groups or ("handle" in groups) == ("path" in groups):
            wanted = "it needs the groups (?P<client>..), and either (?P<handle>..) or (?P<path>..)"
            raise click.BadParameter(wanted, param_hint="--regex")
    prefixes = frozenset(os.fsencode(prefix.rstrip("/").upper()) for prefix in given["prefix"])
    names = given["client"], given["handle"], given["path"] or ""
    return Form(given["format"], *names, pattern, prefixes, given["time"])


def refuse_time(by: object) -> None:
    """Refuses the name of the field with the time where no time is looked at."""
    is_by_hours = isinstance(by, By) and by.cycle is not None
    if "--time" in words_given() and not is_by_hours and not TIMES & words_given():
        raise click.UsageError("--time does nothing: neither --from nor --to nor hours are asked for")


def refuse_fields(form: str) -> None:
    """Refuses the names of fields for logs of a form that has none."""
    for option in sorted(FIELDS & words_given()):
        raise click.UsageError(f"{option} does nothing with --format {form}: its lines have no names of fields")


class Moment(click.ParamType):
    """A time in ISO 8601, in seconds since 1970. Without an offset it is UTC."""

    name = "time"

    def convert(self, value: Any, param: click.Parameter | None, context: click.Context | None) -> int:
        try:
            return iso_seconds(value)
        except ValueError:
            self.fail(f"'{value}' is no time such as 2026-11-26T10:00 or 2026-11-26T10:00+01:00", param, context)


def span_of(given: dict[str, Any]) -> Span:
    first, last = given["first"], given["last"]
    span = Span(FIRST if first is None else first, LAST if last is None else last)
    if span.first >= span.last:
        raise click.BadParameter("it isn't after --from", param_hint="--to")
    return span


def without_costs(tally: Tally, into: str | None) -> list[str]:
    """Says which regions have no cost yet in the folder's table of costs, where it has one."""
    costs = path_in(into, NAMES["costs"]) if into else ""
    lacking = tally.without_costs(costs) if os.path.isfile(costs) else []
    return [f"{costs} has no cost yet of {listed(lacking)}"] if lacking else []


def say_twice(paths: Sequence[str]) -> None:
    for line in twice_lines(paths):
        say(f"hsp: {line}", err=True)


def counted(logs: tuple[str, ...], reading: Reading, tally: Tally, into: Any) -> None:
    """Counts the queries of all logs. Writes them into a file, too, where one is given."""
    if into:
        into.write(LOG_HEAD)
    with contextlib.closing(parts_of(logs, reading, into is not None)) as parts:
        for part in parts:
            tally.count(part.counts)
            if into:
                into.write(b"".join(part.kept))
    if sys.stderr.isatty():
        show_progress("")
    some_in(logs, reading, tally.asked > 0)


def by_time(logs: tuple[str, ...], reading: Reading, given: dict[str, Any]) -> tuple[list[str], int]:
    """Has only the lines of the wanted time counted. Returns which hour that is, and how many seconds of it the logs
    have, where it was found here."""
    span, lines, seconds = span_of(given), list[str](), 0
    if given["busiest_hour"]:
        refuse_pipes(logs, "--busiest-hour")
        found, first = busiest_hour(logs, reading, span)
        some_in(logs, first, found is not None)
        assert found
        reading.lines, reading.octets = first.lines, first.octets
        span, lines, seconds = found
    reading.tag = None if span.is_all else within(span)
    return lines, seconds


def by_hours(logs: tuple[str, ...], reading: Reading, given: dict[str, Any], cycle: Cycle) -> Chosen:
    """Has each hour of a cycle counted on the day with most queries in it, or on all of them where a part or the mean
    of these is wanted. Returns which hours these are."""
    span = span_of(given)
    refuse_pipes(logs, f"--by {cycle.word}")
    asked, zones, zone, first = asked_by_hour(logs, reading, span)
    some_in(logs, first, bool(asked))
    found = chosen_of(cycle, asked, zones, zone)
    if given["percentile"] or given["mean"]:
        found = usual_of(found, asked, given["percentile"])
    reading.lines, reading.octets, reading.tag = first.lines, first.octets, found.tag(span)
    return found


def some_in(logs: tuple[str, ...], reading: Reading, is_some: bool) -> None:
    """Refuses logs that have no query."""
    if not is_some:
        none = "it has no line" if len(logs) == 1 else "they have no line"
        first = (reading.skipped.lines() + ["", none])[1].strip()
        raise Unfit(f"no query is in {listed(logs)}: {first}")


def summary(logs: tuple[str, ...], reading: Reading, tally: Tally, of_any_prefix: bool) -> list[str]:
    """What was counted, what was passed over and why, and which prefixes are rare where any of them counts."""
    handles = f" for {some(tally.handles, 'handle')}" if tally.handles is not None else ""
    regions = some(len(tally.regions), "region")
    asked = some(tally.asked, "query", "queries")
    lines = some(tally.asked + reading.skipped.sum, "line")
    first = f"{some(len(logs), 'log')}, {lines}: {asked} of {regions}{handles}"
    return [first, *reading.skipped.lines(), *(tally.prefixes.lines() if of_any_prefix else [])]


def rows_lines(output: str | None, own: Demand) -> list[str]:
    """How many rows the demand has, and whether it is a log."""
    lines = [f"{output or 'the demand'} has {some(own.rows, 'row')}"]
    if own.why_log:
        lines.append(f"no table holds it, as {own.why_log}: it is a log, and is planned by prices")
    return lines


def hours_lines(found: Chosen, folders: list[str], output: str | None, own: Demand) -> list[str]:
    """The same of the demands of all hours, and which of them the folder itself has."""
    first, *lines = rows_lines(f"each {NAMES['demand']} of {folders[0]} to {folders[-1]}", own)
    return [first, f"{output} has the rows of {found.cycle.names[found.busiest]} that aren't 0", *lines]


def folder_of(into: str | None, output: str | None) -> str | None:
    """The folder whose own demand is written."""
    is_own = into and output and os.path.realpath(path_in(into, NAMES["demand"])) == os.path.realpath(output)
    return into if is_own else None


def of_folder(folder: str | None) -> dict[str, bytes]:
    """The hsp.toml of a folder without a table of the demand before it."""
    return uncounted(folder) if folder else {}


def stale_lines(folder: str | None, seconds: int) -> list[str]:
    """Names a length of time that hsp.toml has of another demand, where that of this one isn't known."""
    noted = seconds_of(folder) if folder and not seconds else None
    if not folder or noted is None:
        return []
    remedy = "write how long the time of this one is"
    return [f"{path_in(folder, TITLES)} has {SECONDS} = {noted} of another demand: {remedy}"]


def give_demand(own: Demand) -> None:
    for piece in own.pieces():
        give(piece)


def write_demand(own: Demand, output: str, folder: str | None, files: Outputs, seconds: int = 0) -> None:
    """Writes a demand, and the hsp.toml of the folder whose own it is: without what that says of another one, and with
    how long this one counts."""
    file = files.open(output)
    for piece in own.pieces():
        file.write(piece)
    texts = of_folder(folder)
    if folder and seconds:
        texts |= noted_time(folder, seconds, texts)
    for path, octets in texts.items():
        files.open(path).write(octets)


class By(NamedTuple):
    """The field of a MaxMind database, and the hours that have a table each, where these are wanted."""

    field: str
    cycle: Cycle | None


def by_of(_: click.Context, __: click.Parameter, words: tuple[str, ...]) -> By:
    """The last field and the last cycle of hours among some words."""
    fields = [word for word in words if word not in CYCLES]
    cycles = [CYCLES[word] for word in words if word in CYCLES]
    return By(fields[-1] if fields else BY_FIELD, cycles[-1] if cycles else None)


BY_FIELD = "continent.code"
# Options of several commands that count logs.
REGIONS = click.option(
    "--regions", metavar="FILE", type=ANY_FILE, required=True, help="a table network,region, or a MaxMind database"
)
INTO = click.option("--into", metavar="DIR", type=FOLDER, help="the folder whose demand.csv is written")
OUTPUT = click.option("-o", "--output", metavar="FILE", type=ANY_FILE, help="the demand, in place of DIR/demand.csv")
ONE_A_PROCESSOR = "processes side by side; by default one a processor"
JOBS = click.option("--jobs", type=click.IntRange(1, MOST_JOBS), metavar="N", help=ONE_A_PROCESSOR)
OF_DATABASE = click.option("--by", metavar="FIELD", default=BY_FIELD, show_default=True, help="of a MaxMind database")
BY_HOURS = click.option(
    "--by",
    metavar="FIELD",
    multiple=True,
    default=[BY_FIELD],
    show_default=True,
    callback=by_of,
    help="of a MaxMind database; or hour or weekday-hour: a demand of each",
)
# The options that name fields of JSON and of tables.
FIELDS = {"--client", "--handle", "--path", "--time"}
# The options by which the times of lines are looked at.
TIMES = {"--from", "--to", "--busiest-hour"}
FORM_OPTIONS = [
    click.option(
        "--format", type=click.Choice(["auto", *FORMS]), default="auto", show_default=True, help="of the logs"
    ),
    click.option(
        "--regex", metavar="PATTERN", help="lines of another form: (?P<client>..) and (?P<handle>..) or (?P<path>..)"
    ),
    click.option(
        "--client", metavar="NAME", default="client", show_default=True, help="the field with the client's address"
    ),
    click.option("--handle", metavar="NAME", default="handle", show_default=True, help="the field with the handle"),
    click.option("--path", metavar="NAME", help="the field with the path of a request, in place of a handle"),
    click.option(
        "--from", "first", metavar="TIME", type=Moment(), help="count from this time on, as 2026-11-26T10:00+01:00"
    ),
    click.option("--to", "last", metavar="TIME", type=Moment(), help="count what is before this time"),
    click.option("--busiest-hour", is_flag=True, help="count only the hour with most queries"),
    click.option("--time", metavar="NAME", default="time", show_default=True, help="the field with the time"),
    click.option("--prefix", metavar="PREFIX", multiple=True, help="count only handles of this prefix"),
    click.option("--elsewhere", metavar="REGION", help="of clients that have no region"),
]


def with_forms(command: Command, by: Callable[[Any], Any] = OF_DATABASE) -> Command:
    """Adds the options that say how logs are read."""
    command = apart("--handle", "--path", "a line has either a handle or a path")(command)
    for word in sorted({"--format", *FIELDS}):
        command = idle(word, "--regex", why="its groups say what a line has")(command)
    for option in reversed([*FORM_OPTIONS, by]):
        command = option(command)
    return command


def with_hours(command: Command) -> Command:
    """Adds the same options, of which one may name hours."""
    return with_forms(command, BY_HOURS)


def refuse_own(logs: Sequence[str], regions: str, into: str | None, outputs: Sequence[str]) -> None:
    """Refuses outputs that are inputs, or one another, or in the place of another file of DIR."""
    others = [name for role, name in NAMES.items() if role != "demand"] + [VALUES, TITLES]
    beside = [path_in(into, name) for name in others] if into else []
    refuse_clashes([*logs, regions, *beside], outputs)


def output_of(given: dict[str, Any], into: str | None) -> str | None:
    """The file of the demand, where one is named."""
    return given["output"] or (path_in(into, NAMES["demand"]) if into else None)


def refuse_field(regions: str, field: str, instead: str) -> None:
    """Refuses the field of a database where regions are those of a table: it would count for nothing."""
    if field != BY_FIELD and is_table(regions):
        why = f"'{field}' is no field of {regions}, which is a table and no MaxMind database; {instead}"
        raise click.BadParameter(why, param_hint="--by")


def reading_of(logs: tuple[str, ...], regions: str, given: dict[str, Any], programs: Programs) -> Reading:
    """How the logs are read, and shown to be at a terminal."""
    refuse_field(regions, given["by"].field, "for a table of each hour write hour or weekday-hour")
    seek = regions_in(regions, given["by"].field, given["elsewhere"], programs)
    jobs = given["jobs"] or min(MOST_JOBS, len(os.sched_getaffinity(0)))
    reading = Reading(form_of(given), seek, Judge(programs), jobs=jobs)
    if sys.stderr.isatty():
        is_twice = given["busiest_hour"] or given["by"].cycle
        reading.progress = Progress(Gauge(logs, 2 if is_twice else 1)).show
    return reading


def refuse_cycle(cycle: Cycle | None, kept: str | None, given: dict[str, Any]) -> None:
    """Refuses what is only of one demand beside one of each hour, and what is only of these without them."""
    if not cycle and (given["percentile"] or given["mean"]):
        raise click.UsageError("--percentile and --mean are of hours that come again: give --by hour or weekday-hour")
    if cycle and (kept or given["busiest_hour"]):
        raise click.UsageError(f"--log and --busiest-hour are of one demand, and --by {cycle.word} makes many")


@click.command()
@click.argument(
    "logs", metavar="LOG..", nargs=-1, required=True, type=PathName(dir_okay=False, allow_dash=True), callback=once
)
@REGIONS
@INTO
@OUTPUT
@click.option("--log", "kept", metavar="FILE", type=ANY_FILE, help="also the queries, as a log for hsplan dispatch")
@JOBS
@click.option(
    "--percentile", metavar="P", type=PERCENTILE, help="of --by: what so many % of the days or weeks stay below"
)
@click.option("--mean", is_flag=True, help="of --by: the mean of the days or weeks")
@with_hours
@apart("--percentile", "--mean", "an hour has one demand")
def demand(logs: tuple[str, ...], regions: str, into: str | None, kept: str | None, **given: Any) -> None:
    """Counts the queries of access logs by region and handle.

    A LOG may be packed by gzip, bzip2 or xz; - is standard input. Its form is that of a handle server (server), of an
    HTTP proxy (proxy), JSON lines (json) or a table (csv). Without --into and -o the demand is printed.

    With --by hour or --by weekday-hour each hour has a demand, as DIR/h09/demand.csv or DIR/mon-h09/demand.csv. It has
    the counts of the day with most queries in this hour. With --percentile P each region asks for what P % of its days,
    or weeks, stay below, and with --mean for their mean; its rows share that as they did. All have the same rows, with 0
    where nothing came. Hours are those of one clock: that of the first time in the logs. DIR/demand.csv has the
    busiest hour.
    """
    programs, by = Programs(), given["by"]
    refuse_cycle(by.cycle, kept, given)
    output, folders = output_of(given, into), folders_of(into, by.cycle)
    own_folder = folder_of(into, output)
    refuse_own(logs, regions, into, [own for own in (output, kept, *tables_in(folders)) if own])
    refuse_clashes([path_in(into, NAMES["demand"])] if into else [], [kept] if kept else [])
    reading = reading_of(logs, regions, given, programs)
    of_folder(own_folder)  # what can't be written is refused before logs are read, which takes long
    say_twice(logs)
    found = by_hours(logs, reading, given, by.cycle) if by.cycle else None
    lines, seconds = (found.lines(), HOUR) if found else by_time(logs, reading, given)
    tally = HourTally(programs, found) if found else Tally(programs)
    with in_folders(folders), together() as files:
        counted(logs, reading, tally, files.open(kept) if kept else None)
        own, lacking = tally.demand(), without_costs(tally, into)
        if not seconds and (lasts := lasting(reading.times, span_of(given))):
            lines, seconds = [lasts.line()], lasts.seconds
        if isinstance(tally, HourTally):
            write_hours(tally, folders, files)
        if output:
            write_demand(own, output, own_folder, files, seconds)
        else:
            give_demand(own)
    lines += [*clock_lines(reading.times), *summary(logs, reading, tally, not given["prefix"])]
    lines += hours_lines(found, folders, output, own) if found else rows_lines(output, own)
    lines += stale_lines(own_folder, seconds)
    say(*lines, *lacking, err=output is None)
