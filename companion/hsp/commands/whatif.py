"""The command `hsp whatif`."""

from types import SimpleNamespace
from typing import Any

import click

from hsp.base.files import refuse_clashes
from hsp.base.options import given as options_given
from hsp.base.options import idle, needs
from hsp.base.programs import Programs
from hsp.base.text import give, say
from hsp.commands.shared import OUTPUT, progress, write
from hsp.doctor.service_folder import read_in, sound, with_files
from hsp.plans.charts import drawn
from hsp.plans.whatif import Changes, full_servers, server_named, sizes, standard
from hsp.plans.whatif import csv_of as cases_csv
from hsp.plans.whatif import lines as case_lines

# The options of changes, beside those for other files; and those that are only of the sizes of one server.
OWN = ("server", "lose", "cost", "times", "low", "high", "points", "unit")
IDLE = {"--from", "--to", "--points", "--step"}


@click.command()
@with_files
@click.option(
    "--server", multiple=True, metavar="SITE:ID[=N]", help="the cost by the size of this server; or its size"
)
@click.option("--lose", multiple=True, metavar="SITE", help="without this site")
@click.option("--cost", multiple=True, metavar="REGION:SITE=N", help="another cost, or a first one")
@click.option("--times", multiple=True, metavar="NAME=F", help="the demand of a region, or of a handle, times F")
@click.option("--from", "low", type=click.IntRange(0), metavar="N", help="the least size; half of the present one")
@click.option(
    "--to", "high", type=click.IntRange(0), metavar="N", help="the greatest size; half more than the present one"
)
@click.option("--points", default=9, show_default=True, type=click.IntRange(2, 100), help="how many sizes")
@click.option(
    "--step", default=10.0, show_default=True, type=click.FloatRange(0.1, 1000), help="more room, in percent"
)
@click.option("--unit", help="of costs, such as ms")
@click.option("--csv", "as_csv", is_flag=True, help="for other programs")
@click.option("--chart", metavar="FILE", type=OUTPUT, help="a picture of the costs, SVG")
@needs("--from", "--server")
@needs("--to", "--server")
@needs("--points", "--server")
@idle("--step", "--server", why="it is of more room at each full server")
def whatif(folder: str, step: float, as_csv: bool, chart: str | None, **given: Any) -> None:
    """Plans again with one thing changed, or several together.

    By default: more room at each full server, each site lost, and 10% more demand. --server with =N, --lose, --cost and
    --times may be repeated, and all of them are applied together in one plan.
    """
    words = SimpleNamespace(**{key: given.pop(key) for key in OWN})
    refuse_clashes(read_in(folder, given), [chart] if chart else [])
    sized, named = [it for it in words.server if "=" not in it], [it for it in words.server if "=" in it]
    together = [named, words.lose, words.cost, words.times]
    if len(sized) + any(together) > 1 or any(together) and IDLE & options_given():
        raise click.UsageError("changes together are numbers: give each server as SITE:ID=N, and no other sizes")
    programs = Programs()
    service = sound(folder, programs, given, cost=words.unit)
    if any(together):
        cases = [Changes(service, programs).together(*together)]
    elif sized:
        own = server_named(service, sized[0])
        room, low, high = service.capacity(own), words.low, words.high
        ends = (room // 2 if low is None else low, room * 3 // 2 if high is None else high)
        cases = sizes(Changes(service, programs, progress(words.points)), own, min(ends), max(ends), words.points)
    else:
        number = len(full_servers(service)) + len(service.sites) + 1
        cases = standard(Changes(service, programs, progress(number)), step)
    programs.insist_held()
    if as_csv:
        give(cases_csv(cases))
    else:
        say(*case_lines(service, cases, step))
    if chart:
        write(chart, drawn(service, cases, step))
