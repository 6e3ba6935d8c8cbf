"""The command `hsp day`: a plan for each hour, and the fewest blocks of hours that one plan serves each."""

import contextlib
import os
import sys
from collections.abc import Callable, Sequence
from dataclasses import replace
from functools import partial
from typing import Any

import click

from hsp.base.bounds import octets_of
from hsp.base.ends import SHORTAGE
from hsp.base.files import forget, locked, refuse_clashes, refuse_no_folder, replace_all
from hsp.base.numbers import listed, some
from hsp.base.options import LINES, PathName, apart, idle
from hsp.base.paths import path_in
from hsp.base.text import give, say
from hsp.base.unfit import Unfit
from hsp.doctor.service_folder import sound, with_files
from hsp.plans.answering import kept_beside
from hsp.plans.service import NAMES, VALUES, Service, titles_in
from hsp.plans.terminal import head
from hsp.scenarios import day_lines
from hsp.scenarios.blocks import Block, fewest, is_block, price
from hsp.scenarios.day_lines import Day
from hsp.scenarios.day_page import block_view, command_of, render_day
from hsp.scenarios.earlier import forget_of_hours
from hsp.scenarios.hours import Faulty, Hour, HourPlan, all_planned, names_in, of_hour, read_hour
from hsp.scenarios.in_force import PLAN
from hsp.scenarios.judged import Judged, Progress, yes_line
from hsp.scenarios.nearest import Portions, TooMany, homes_of, moved_between
from hsp.scenarios.reserve import RESERVE, reserved

PAGE, BLOCKS = "day.html", "blocks"
# The files of DIR that all hours have.
SHARED = ("settings", "costs", "capacity")


def _first_service(folder: str, name: str, programs: Judged, given: dict[str, str | None]) -> Service:
    """The service at its first hour: that hour's demand, with the other files of the folder."""
    service = _at(folder, name, programs, given)
    if not service.sites:
        raise Unfit(f"{service.inputs.settings}: no site, so nobody can answer")
    return replace(service, folder=folder, titles=titles_in(folder, None, given.get("unit")))


def _at(folder: str, name: str, programs: Judged, given: dict[str, str | None]) -> Service:
    """The service at an hour. Where hsplan refuses it, this prints the faults, and ends."""
    own = {role: given.get(role) or path_in(folder, NAMES[role]) for role in SHARED}
    values = given.get("values") or (path_in(folder, VALUES) if os.path.isfile(path_in(folder, VALUES)) else None)
    return sound(path_in(folder, name), programs, {**own, "values": values})


def _chained(
    service: Service, plans: Sequence[HourPlan], programs: Judged, done: Callable[[], None]
) -> list[HourPlan]:
    """The plans of hours, each of which moves the fewest queries from the hour before; the first is as it was. Where
    that takes more than tables hold, or the hour before is short, a plan stays as it was."""
    found: list[HourPlan] = []
    before: Service | None = None
    for plan in plans:
        own = replace(of_hour(service, plan.hour), certificate=plan.certificate, plan_file=plan.plan_file)
        if before and plan.is_plan:
            homes = homes_of(before, before.certificate)
            try:
                near = Portions(own, homes, programs).nearest(own, plan.certificate)
            except TooMany:
                near = None
            moved = near.moved if near else moved_between(own, homes, plan.certificate)
            if near:
                own = replace(own, certificate=near.certificate, plan_file=near.plan_file)
                loads = programs.loads(own.inputs, near.plan_file)[0]
                plan = replace(plan, certificate=near.certificate, plan_file=near.plan_file, loads=loads)
            plan = replace(plan, moved=moved, is_nearest=near is not None)
        found.append(plan)
        done()
        before = own if plan.is_plan else None
    return found


def _kept(day: Day, folder: str) -> dict[str, bytes]:
    """What is kept: the plan of each hour, the demand and the plan of each block, and the inputs less a reserve."""
    _, contents = kept_beside(day.service, path_in(folder, PLAN))
    for plan in day.plans:
        if plan.is_plan:
            contents[path_in(plan.hour.folder, PLAN)] = octets_of(plan.plan_file)
    for block in day.blocks:
        own = path_in(folder, os.path.join(BLOCKS, block.name))
        contents[path_in(own, NAMES["demand"])] = octets_of(block.inputs.demand)
        contents[path_in(own, PLAN)] = octets_of(block.plan_file)
    return contents


def _forget(day: Day, folder: str) -> None:
    """Takes away the plans of hours that are short now, and of blocks that are none any more. All else stays."""
    names = {block.name for block in day.blocks}
    old = [own for own in _blocks_in(folder) if os.path.basename(own) not in names]
    for plan in day.plans:
        if not plan.is_plan:
            forget(folder, plan.hour.folder, [PLAN])
    for own in old:
        forget(folder, own, [PLAN, NAMES["demand"]])
        with contextlib.suppress(OSError):
            os.rmdir(own)


def _blocks_in(folder: str) -> list[str]:
    within = path_in(folder, BLOCKS)
    names = os.listdir(within) if os.path.isdir(within) else []
    return [path_in(within, name) for name in names if is_block(name)]


def _refuse_links(folder: str, names: Sequence[str]) -> None:
    for path in [*(path_in(folder, name) for name in (*names, BLOCKS)), *_blocks_in(folder)]:
        refuse_no_folder(path, "plans are written")


def _refuse_clashes(service: Service, hours: Sequence[Hour], outputs: Sequence[str]) -> None:
    refuse_clashes({*service.own_inputs.files(), *(hour.demand for hour in hours)}, outputs)


def _day(service: Service, hours: Sequence[Hour], is_near: bool, programs: Judged) -> Day:
    done = Progress(len(hours) * (1 + is_near))
    plans = all_planned(service, hours, programs, done)
    blocks: list[Block] = [] if service.log else fewest(service, plans, programs)
    if is_near and not service.log:
        plans = _chained(service, plans, programs, done)
    return Day(service, plans, blocks, price(service, plans, blocks))


@click.command()
@partial(with_files, without="demand")
@click.option("--week", "is_week", is_flag=True, default=None, help="the hours of a week, where DIR has both")
@RESERVE
@click.option("--near", "is_near", is_flag=True, help="each plan moves the fewest queries from the hour before")
@click.option("--unit", help="of costs, such as ms")
@click.option("--all", "every", is_flag=True, help="all servers at which room has a price")
@click.option(
    "-o", "--output", metavar="FILE", type=PathName(dir_okay=False), help="the page, in place of DIR/day.html"
)
@click.option("--no-save", is_flag=True, help="keep no plan and no page")
@click.option("--csv", "as_csv", is_flag=True, help="the hours, for other programs")
@apart("-o", "--no-save", "no page is kept")
@idle("--all", "--csv", why=LINES)
def day(folder: str, **given: Any) -> None:
    """Plans each hour of a day or of a week.

    hsp demand --by hour writes the demand of each hour into DIR/h00 to DIR/h23. Each gets its cheapest plan beside it.
    DIR/blocks has a plan for each of the fewest blocks of hours in a row, and DIR/day.html shows all. Status 3 means
    that some hour is short.
    """
    programs = Judged()
    names = names_in(folder, given["is_week"])
    page = given["output"] or path_in(folder, PAGE)
    if not given["no_save"]:
        _refuse_links(folder, names)
    programs.hold(path_in(folder, os.path.join(name, NAMES["demand"])) for name in names)
    service = _first_service(folder, names[0], programs, given)
    try:
        hours = [read_hour(service, path_in(folder, name), name) for name in names]
        _refuse_clashes(service, hours, [page])
        found = _day(reserved(service, given["reserve"], programs), hours, given["is_near"], programs)
    except Faulty as fault:
        own = _at(folder, fault.name, programs, given)
        raise Unfit(f"{own.inputs.demand}: hsplan refused it") from None
    programs.insist_held()
    old = [] if given["no_save"] else _save(found, folder, page, programs)
    if given["as_csv"]:
        give(day_lines.csv_of(found))
    else:
        say(f"{head(found.service).partition('  ')[0]}  {_sizes(found)}")
        say(*day_lines.lines(found, given["every"]))
        if given["is_near"] and service.log:
            say("near  no: the rows of a log have no portions; each hour has its plain plan")
        if not given["no_save"]:
            say(_kept_line(found, folder, page))
        if old:
            say(f"old   {listed(old)}: of {path_in(folder, PLAN)} or of other hours; not of these plans")
        say(yes_line(programs))
    sys.exit(SHORTAGE if any(not plan.is_plan for plan in found.plans) else 0)


def _sizes(found: Day) -> str:
    service = found.service
    sizes = [
        some(len(service.sites), "site"),
        some(len(service.servers), "server"),
        some(len(service.regions), "region"),
        some(len(found.plans), "hour"),
        f"{sum(plan.hour.asked for plan in found.plans):,} queries",
    ]
    return ", ".join([*sizes, *([service.kept_back] if service.reserve else [])])


def _kept_line(found: Day, folder: str, page: str) -> str:
    plans = sum(plan.is_plan for plan in found.plans)
    demands = "demand" if plans == 1 else "demands"
    beside = f" beside the {demands} of {day_lines.planned_hours(found)}" if plans else ""
    blocks = f", those of blocks in {path_in(folder, BLOCKS)}" if found.blocks else ""
    return f"kept  {some(plans, 'plan')}{beside}{blocks}; page {page}"


def _save(found: Day, folder: str, page: str, programs: Judged) -> list[str]:
    """Writes all plans and the page together. Returns the inputs of other plans that stay."""
    contents = _kept(found, folder)
    inputs, _ = kept_beside(found.service, path_in(folder, PLAN))
    commands = {plan.hour.name: command_of(inputs, plan.hour.folder) for plan in found.plans}
    within = path_in(folder, BLOCKS)
    blocks = [block_view(inputs, block, path_in(within, block.name)) for block in found.blocks]
    text = render_day(found, folder, commands, blocks, programs.judged_so_far)
    _refuse_clashes(found.service, [plan.hour for plan in found.plans], [*contents, page])
    with locked([folder]):
        replace_all({**contents, page: text.encode()}, folder)
        _forget(found, folder)
        return forget_of_hours(folder, contents, found.service.own_inputs.files())
