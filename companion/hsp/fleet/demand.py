"""`hsp fleet demand`: a part for each log. Their tables are added up here, one after the other."""

import os
import re
from dataclasses import astuple, dataclass
from typing import Any

import click

from hsp.base.bounds import whole
from hsp.base.files import locked, together
from hsp.base.options import ANY_FILE
from hsp.base.programs import Programs
from hsp.base.text import say
from hsp.base.unfit import Unfit
from hsp.fleet import kit
from hsp.fleet.engine import Engine, Reply
from hsp.fleet.parts import fields_of_form
from hsp.fleet.progress import shown
from hsp.fleet.session import Targets, place_of, session, with_cluster
from hsp.fleet.tables import counts_in, skipped_of
from hsp.intake.bring import (
    INTO,
    OUTPUT,
    REGIONS,
    form_of,
    give_demand,
    folder_of,
    of_folder,
    output_of,
    refuse_field,
    refuse_own,
    rows_lines,
    say_twice,
    some_in,
    span_of,
    summary,
    with_forms,
    without_costs,
    write_demand,
    stale_lines,
)
from hsp.intake.queries import Judge, Reading
from hsp.intake.regions import regions_in
from hsp.intake.tally import Tally
from hsp.intake.times import Span

AT_HOST = re.compile(r"@([^=/]+)=(.+)", re.DOTALL)


@dataclass(frozen=True)
class Log:
    """A log, at a host where one is named, and the file beside it for its queries where they are kept."""

    path: str
    host: str | None
    kept: list[str]


def log_of(text: str, suffix: str | None) -> Log:
    """`PATH` or `@HOST=PATH`."""
    match = AT_HOST.fullmatch(text)
    path, host = (match[2], match[1]) if match else (text, None)
    return Log(path, host, [os.path.abspath(path + suffix)] if suffix else [])


def counted(engine: Engine, logs: list[Log], asked: Reply, tally: Tally) -> list[Reply]:
    """Adds up the tables of all logs in their order, one at a time. Returns what else their parts say."""
    parts = []
    for log in logs:
        host = engine.host(log.host) if log.host else None
        request = {**asked, "what": "count", "log": log.path, "targets": log.kept}
        parts.append(engine.submit(request, host=host))
    heads = [engine.head(part) for part in parts]
    found = engine.outcomes(heads, shown(engine, "log", len(heads), lambda reply: int(reply.get("asked", 0))))
    for part in parts:
        tally.count(counts_in(engine.outcomes([part])[0]["table"]))
    return found


def _checked(logs: list[Log], regions: str, into: str | None, output: str | None) -> None:
    """Refuses a run that would read what it writes, or write a file twice."""
    if any(log.path == "-" for log in logs):
        raise Unfit("standard input isn't a log that workers can read")
    kept = [(log.host, path) for log in logs for path in log.kept]
    if len(set(kept)) < len(kept):
        raise Unfit("a log is given twice, and its queries have one file")
    away = {(log.host, os.path.abspath(log.path)) for log in logs if log.host}
    for host, path in kept:
        if (host, path) in away:
            raise Unfit(f"{path}: it would be read and written")
    own = [log for log in logs if not log.host]
    outputs = [*([output] if output else []), *(path for log in own for path in log.kept)]
    refuse_own([log.path for log in own], regions, into, outputs)


def _span(given: dict[str, Any]) -> Span:
    """The span of time. Each part reads its log once."""
    if given["busiest_hour"]:
        remedy = "find the hour by hsp demand, and give --from and --to"
        raise click.UsageError(f"--busiest-hour reads logs twice: {remedy}")
    return span_of(given)


@click.command()
@click.argument("logs", metavar="LOG..", nargs=-1, required=True, type=ANY_FILE)
@REGIONS
@INTO
@OUTPUT
@click.option("--keep", metavar="SUFFIX", help="also the queries of each LOG, in LOG with this suffix")
@with_forms
@with_cluster
def demand(logs: tuple[str, ...], regions: str, into: str | None, keep: str | None, **given: Any) -> None:
    """Counts the queries of logs by region and handle, in parallel.

    It runs on many processors or machines. A LOG is the path of a file that every worker can read, or @HOST=PATH where
    only the workers of one host can. The demand is that of hsp demand over all logs in their order.
    """
    programs = Programs()
    place, output = place_of(given), output_of(given, into)
    named = [log_of(log, keep) for log in logs]
    _checked(named, regions, into, output)
    span, form = _span(given), form_of(given)
    refuse_field(regions, given["by"], "hours are counted by hsp demand --by")
    seek = regions_in(regions, given["by"], given["elsewhere"], programs)
    reading, tally = Reading(form, seek, Judge(programs)), Tally(programs)
    say_twice([log.path for log in named if not log.host])
    own_folder = folder_of(into, output)
    of_folder(own_folder)  # what can't be written is refused before logs are read, which takes long
    asked = {"form": fields_of_form(form), "by": given["by"], "elsewhere": given["elsewhere"], "span": astuple(span)}
    files = {"networks": whole(regions), **kit.programs(), "hsp.zip": kit.companion()}
    targets: Targets = [(log.kept, log.host) for log in named]
    with session(place, targets) as engine:
        engine.ship(files, given["installed"])
        heads = counted(engine, named, asked, tally)
        reading.skipped = skipped_of(head["skipped"] for head in heads)
        some_in(logs, reading, tally.asked > 0)
        found, lacking = tally.demand(), without_costs(tally, into)
        hosts = [engine.host(log.host) if log.host else None for log in named]
        engine.is_publishing = True
        with locked(os.path.dirname(os.path.realpath(path)) for path in [output] if path):
            if output:
                with together() as outputs:
                    write_demand(found, output, own_folder, outputs)
            engine.publish([(log.kept, head, host) for log, head, host in zip(named, heads, hosts) if log.kept])
    if not output:
        give_demand(found)
    rows = [*rows_lines(output, found), *stale_lines(own_folder, 0)]
    say(*summary(logs, reading, tally, not given["prefix"]), *rows, *lacking, err=output is None)
