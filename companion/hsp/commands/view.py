"""The command `hsp view`."""

import os
import sys
from contextlib import closing
from types import SimpleNamespace
from typing import Any

import click

from hsp.base.ends import SHORTAGE
from hsp.base.files import refuse_clashes
from hsp.base.numbers import some
from hsp.base.options import PathName
from hsp.base.paths import path_in
from hsp.base.programs import Programs
from hsp.base.text import say
from hsp.commands.shared import OUTPUT, ahead, progress, write
from hsp.doctor.service_folder import read_in, sound, with_files
from hsp.plans.page import Fact, View, changes_between, render, sources_of
from hsp.plans.plans import Reference, cheapest, planned, purchased, shortage, with_gains
from hsp.plans.service import Service
from hsp.scenarios.ahead import moved_fact, moved_since
from hsp.scenarios.judged import Judged
from hsp.scenarios.reserve import RESERVE, reserved


def moved_facts(service: Service, before: str) -> list[Fact]:
    """What a plan moves since the one before, where that is known."""
    with closing(Judged()) as programs:
        moved = moved_since(before, service, programs)
    return [] if moved is None else [moved_fact(service, moved)]


def name_of_earlier(old: Service, now: Service) -> str:
    """The title of another folder's plan. Where both have one title, the folder is named too."""
    if old.titles.title != now.titles.title:
        return old.titles.title
    own, other = (os.path.abspath(service.folder).split(os.sep) for service in (old, now))
    parts = next((at for at in range(1, len(own)) if own[-at:] != other[-at:]), 1)
    return f"{old.titles.title} ({os.sep.join(own[-parts:])})"


def earlier(folder: str, programs: Programs, now: Service) -> tuple[Service, Reference] | None:
    """Another folder's plan, as a reference for this one. Sites are matched by their names."""
    old = sound(folder, programs, {})
    if not old.certificate.is_plan:
        return None
    found = planned(old, programs)
    loads = {(server.site, server.id): found.loads[server.number] for server in old.servers}
    numbers = {site.name: at for at, site in enumerate(now.sites)}
    names = [site.name for site in old.sites]
    shares = {
        (region, numbers[names[at]]): queries for (region, at), queries in found.shares.items() if names[at] in numbers
    }
    before = [loads.get((server.site, server.id), 0) for server in now.servers]
    words = f"in the plan of {name_of_earlier(old, now)}"
    return old, Reference(words, found.cost, old.asked, before, found.regions, shares)


def view_of(service: Service, programs: Programs, before: str | None) -> View:
    """All that the page shows: the plan, or the shortage and the plan after the least purchase."""
    shown = View(service, None, cheapest(service, programs), sources=sources_of(service.folder, service.own_inputs))
    after: Service | None = service
    if not service.certificate.is_plan:
        shown.short = shortage(service, programs)
        bought, after = purchased(service, programs)
        shown.bought = bought or {}
    if after:
        shown.plan = with_gains(planned(after, programs), programs, progress)
        programs.insist(after.inputs, after.plan_file)
        programs.insist_held()
    held = earlier(before, programs, service) if before else None
    if held:
        shown.before, shown.reference = held
        shown.changes = changes_between(held[0], service)
    return shown


@click.command()
@with_files
@click.option(
    "--before", metavar="DIR", type=PathName(exists=True, file_okay=False), help="the plan of another folder beside it"
)
@RESERVE
@click.option("--more", is_flag=True, help="how far the demand can grow, and what each loss leaves")
@click.option("--unit", help="of costs, such as ms")
@click.option("--title", help="of the page")
@click.option("-o", "--output", metavar="FILE", type=OUTPUT, help="the page, in place of DIR/plan.html")
def view(folder: str, before: str | None, **given: Any) -> None:
    """Writes one page: loads, prices, and who is served where.

    The page is one file. It asks no network, and needs no script but to sort and search its rows.
    """
    said = SimpleNamespace(**{key: given.pop(key) for key in ("reserve", "more", "unit", "title", "output")})
    path = said.output or path_in(folder, "plan.html")
    refuse_clashes(read_in(folder, given) + (read_in(before, {}) if before else []), [path])
    programs = Programs()
    service = reserved(sound(folder, programs, given, said.title, said.unit), said.reserve, programs)
    shown = view_of(service, programs, before)
    if said.more:
        later = ahead(service, before or "")
        shown.facts, shown.tables = later.facts(), later.tables()
    elif before:
        shown.facts = moved_facts(service, before)
    programs.insist_held()
    text = render(shown)
    write(path, text)
    rows = some(len(service.rows), "row")
    say(f"{path}  {len(text.encode()) / 1024:,.0f} KiB, {service.rows_words if service.log else rows}")
    sys.exit(0 if service.certificate.is_plan else SHORTAGE)
