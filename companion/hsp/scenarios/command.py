"""The commands `hsp grow` and `hsp survive`."""

import os
import sys
import time
from typing import Any

import click

from hsp.base.ends import SHORTAGE
from hsp.base.numbers import queries_of, some
from hsp.base.options import PathName, apart, idle
from hsp.base.paths import path_in, shell_word
from hsp.base.programs import Missing
from hsp.base.text import give, say
from hsp.base.unfit import Unfit
from hsp.doctor.service_folder import sound, with_files
from hsp.plans.joined import joined
from hsp.plans.service import Service
from hsp.plans.terminal import head
from hsp.scenarios import grow_lines, survive_lines
from hsp.scenarios.fallbacks import FOLDER, Fallbacks, csv_of
from hsp.scenarios.growth import Growing, at_least, grown
from hsp.scenarios.in_force import PLAN, files_beside, in_force
from hsp.scenarios.judged import SAID, Judged, Progress, lanes, say_how_long, side_by_side, yes_line
from hsp.scenarios.losses import after, losses_of, survived
from hsp.scenarios.nearest import Portions, TooMany, homes_of
from hsp.scenarios.purchase import Purchases, solver
from hsp.scenarios.reserve import RESERVE, reserved

# The growths of which the least purchase is shown.
PERCENTS = (10, 20, 50)
# The options of `hsp survive` beside those for other files.
WORDS = ("reserve", "near", "buy", "into", "no_save", "unit", "every", "as_csv")
# Above so many losses, it is said beforehand how long they take.
MANY = 200
# About so many plans each growth and each purchase takes.
PLANS_EACH = 3


def asking(folder: str, programs: Judged, given: dict[str, str | None], unit: str | None) -> Service:
    """A service with sites, to which somebody asks something."""
    service = sound(folder, programs, given, cost=unit)
    if not service.sites:
        raise Unfit(f"{service.inputs.settings}: no site, so nobody can answer")
    if not service.asked:
        raise Unfit(f"{service.inputs.demand}: nothing is asked for")
    return service


def _beforehand(service: Service, programs: Judged, read: float, regions: int, purchases: int) -> None:
    """Says what is done over a log that takes long, and about how long: by the seconds in which it was read and
    planned, and then by those of a plan of its kinds."""
    number = PLANS_EACH * (1 + regions + purchases)
    if not service.log or number * read / lanes() <= SAID:
        return
    of = f"all demand, {some(regions, 'region')} and {some(purchases, 'purchase')}"
    rows = f"{service.rows_words} are joined where they have the same servers, about {max(1, round(read)):,} seconds"
    say(f"hsp: {rows}; then some {number:,} plans are made, of {of}", err=True)
    inputs, begun = joined(service, programs), time.monotonic()
    programs.put_away(programs.plan(inputs)[1])
    say_how_long(number, time.monotonic() - begun, "plans")


@click.command()
@with_files
@click.option(
    "--percent",
    "percents",
    multiple=True,
    type=click.IntRange(1, 100_000),
    default=PERCENTS,
    show_default=True,
    metavar="P",
    help="show the least purchase for P % more",
)
@click.option("--unit", help="of costs, such as ms")
@click.option("--json", "as_json", is_flag=True, help="the same for other programs")
def grow(folder: str, percents: tuple[int, ...], unit: str | None, as_json: bool, **given: str | None) -> None:
    """Shows how far the demand can grow before something is short.

    All demand together, and each region by itself. Up to the first number a plan serves every demand of no greater
    counts. From the second on the named rows ask for more than their servers take. Between them rounding decides.
    """
    programs, begun = Judged(), time.monotonic()
    service = asking(folder, programs, given, unit)
    regions = len(service.regions)
    _beforehand(service, programs, time.monotonic() - begun, regions, len(set(percents)))
    done = Progress(1 + regions + len(percents))
    growths = grown(service, programs, done)
    own = Growing(service, programs)
    tasks = [lambda percent=percent: own.purchase(percent) for percent in sorted(set(percents))]
    purchases = at_least(side_by_side(tasks, done))
    programs.insist_held()
    if as_json:
        give(grow_lines.json_of(service, growths, purchases))
        return
    say(head(service))
    say(*grow_lines.lines(service, growths, purchases))
    say(yes_line(programs))


def _near(words: str | None, service: Service, programs: Judged) -> tuple[Portions | None, str]:
    """The portions by which fallbacks are near a plan in force, and what they are near to; or why they aren't."""
    if service.log:
        return None, "the rows of a log have no portions, so fallbacks are plain plans"
    path = words or path_in(service.folder, PLAN)
    programs.hold(files_beside(words or path))
    try:
        held = in_force(path, service, programs)
        homes, name = held.homes, held.path
    except (Missing, Unfit):
        if words:
            raise
        homes, name = homes_of(service, service.certificate), "the plan that hsp plan makes"
        name += f", as {path} is no plan of these files" if os.path.lexists(path) else ""
    try:
        return Portions(service, homes, programs), f"near {name}"
    except TooMany as fault:
        return None, f"{fault}, more than tables hold, so fallbacks are plain plans"


def _short(service: Service) -> None:
    """Ends where not even all servers together serve the demand."""
    lack = service.certificate.demand - service.certificate.capacity
    say(head(service))
    say(f"short by {queries_of(lack)} with nothing lost: hsp plan {shell_word(service.folder)}")
    sys.exit(SHORTAGE)


def _first(service: Service, programs: Judged, portions: Portions | None) -> None:
    """Says how long many losses take, by the time of one."""
    losses = losses_of(service)
    if len(losses) > MANY:
        begun = time.monotonic()
        after(service, losses[len(losses) // 2], programs, portions)
        say_how_long(len(losses), time.monotonic() - begun, "losses")


@click.command()
@with_files
@RESERVE
@click.option("--near", metavar="OLD", type=PathName(), help="a certificate or its folder, in place of DIR/plan.txt")
@click.option("--buy", is_flag=True, help="one purchase of room that serves every loss; needs python3-scipy")
@click.option("--into", metavar="FOLDER", type=PathName(file_okay=False), help="in place of DIR/fallback")
@click.option("--no-save", is_flag=True, help="keep no fallback plan")
@click.option("--unit", help="of costs, such as ms")
@click.option("--all", "every", is_flag=True, help="all losses, and all servers of a purchase")
@click.option("--csv", "as_csv", is_flag=True, help="all losses, for other programs")
@apart("--into", "--no-save", "no fallback plan is kept")
@idle("--buy", "--csv", why="the table has losses only")
@idle("--all", "--csv", why="the table has all losses")
def survive(folder: str, **given: Any) -> None:
    """Plans for each site, server and machine that may be lost.

    Each loss that leaves a plan has a fallback in DIR/fallback: a cheapest plan that moves the fewest queries. Status
    3 means that some loss leaves a shortage.
    """
    own = {key: given.pop(key) for key in WORDS}
    programs = Judged()
    if own["buy"]:
        solver()
    service = reserved(asking(folder, programs, given, own["unit"]), own["reserve"], programs)
    if not service.certificate.is_plan:
        programs.insist_held()
        _short(service)
    portions, near = _near(own["near"], service, programs)
    kept = Fallbacks(own["into"] or path_in(folder, FOLDER), service, programs)
    if not own["no_save"]:
        kept.refuse([loss.folder for loss in losses_of(service)])
    _first(service, programs, portions)
    found = survived(service, programs, portions, Progress(len(losses_of(service))))
    bought = []
    if own["buy"]:
        bought = list(survive_lines.purchase_lines(service, Purchases(service, programs).search(), own["every"]))
    programs.insist_held()
    number = 0 if own["no_save"] else kept.keep(found)
    if own["as_csv"]:
        give(csv_of(service, found, None if own["no_save"] else kept))
    else:
        say(head(service))
        say(*survive_lines.lines(service, found, own["every"]), *bought)
        if not own["no_save"]:
            say(f"kept  {some(number, 'fallback plan')} in {kept.folder}, {near}")
        say(yes_line(programs))
    sys.exit(SHORTAGE if any(it.cost is None for it in found) else 0)
