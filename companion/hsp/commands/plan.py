"""The command `hsp plan`."""

import os
import sys
from collections.abc import Mapping
from types import SimpleNamespace
from typing import Any, NoReturn

import click

from hsp.base.ends import SHORTAGE
from hsp.base.files import locked, refuse_clashes, replace_all
from hsp.base.numbers import listed
from hsp.base.options import LINES, PathName, apart, idle
from hsp.base.paths import path_in
from hsp.base.programs import Programs, table_text
from hsp.base.text import colored, give, json_text, say
from hsp.commands.shared import OUTPUT, ahead, progress
from hsp.doctor.next_step import next_step
from hsp.doctor.service_folder import read_in, sound, with_files
from hsp.plans.answering import answer_lines, kept_beside
from hsp.plans.plans import Planned, Reference, by_shares, cheapest, planned, purchased, shortage, to_buy, with_gains
from hsp.plans.service import Server, Service
from hsp.plans.terminal import head, plan_lines, shortage_lines
from hsp.scenarios.ahead import Ahead
from hsp.scenarios.earlier import forget
from hsp.scenarios.in_force import PLAN, files_beside
from hsp.scenarios.judged import Judged
from hsp.scenarios.near_plan import Near, near_plan
from hsp.scenarios.reserve import RESERVE, reserved
from hsp.scenarios.within import WITHIN, bounded

# The options of `hsp plan` beside those for other files.
PLAN_WORDS = ("unit", "reserve", "within", "near", "more", "every", "output", "no_save", "as_csv", "as_json")


def shares_of(plan: Planned) -> list[tuple[str, str, int, float]]:
    """How many of each region's queries go to each site, and which share that is."""
    found = []
    for region, (asked, _) in plan.regions.items():
        for at, site in enumerate(plan.service.sites):
            queries = plan.shares.get((region, at), 0)
            if queries:
                found.append((region, site.name, queries, round(queries / asked, 6)))
    return found


def csv_of(plan: Planned) -> str:
    return table_text("region,site,queries,share", shares_of(plan))


def json_of(plan: Planned, reference: Reference | None, near: Near | None, later: Ahead | None) -> str:
    """What the lines show, for other programs."""
    servers = []
    for server in plan.service.servers:
        load, price = plan.loads[server.number], plan.prices[server.number]
        servers.append({**server.said, "load": load, "capacity": plan.service.capacity(server), "price": price})
    gains = [
        {**gain.server.said, "one_query_saves": gain.one, "room": gain.room, "room_saves": gain.all}
        for gain in plan.gains
    ]
    shares = [{"region": a, "site": b, "queries": c, "share": d} for a, b, c, d in shares_of(plan)]
    regional = by_shares(plan)
    report = {
        "title": plan.service.titles.title,
        "served": True,
        "rows_are": plan.service.rows_are,
        "queries": plan.service.asked,
        "cost": plan.cost,
        "cost_at_cheapest_sites": reference.cost if reference else None,
        "servers": servers,
        "room": gains,
        "regions": [{"region": region, "queries": a, "cost": b} for region, (a, b) in plan.regions.items()],
        "shares": shares,
        "by_shares_alone": {"servers_too_full": regional.servers, "queries_too_many": regional.queries},
        **(near.report() if near else {}),
        **(later.report() if later else {}),
    }
    return json_text(report)


def purchase_of(service: Service, bought: Mapping[Server, int]) -> list[dict[str, object]]:
    """What has to be bought at each server; and how much of it remains, where a part of it is kept back."""
    found: list[dict[str, object]] = []
    for server, more in to_buy(service, bought).items():
        remains = {"remains": bought[server]} if service.reserve else {}
        found.append({**server.said, "more": more, **remains})
    return found


def show_shortage(service: Service, programs: Programs, as_json: bool) -> NoReturn:
    """Shows who lacks what, and what has to be bought. Ends with status 3."""
    short = shortage(service, programs)
    bought, after = purchased(service, programs)
    programs.insist_held()
    if as_json:
        purchase = purchase_of(service, bought) if bought else []
        report = {"title": service.titles.title, "served": False, "queries": service.asked, "lack": short.lack}
        give(json_text(report | {"least_purchase": purchase or None}))
    else:
        say(head(service), *shortage_lines(service, short, bought, after))
    sys.exit(SHORTAGE)


def keep(service: Service, path: str, near: Near | None) -> list[str]:
    """Writes a plan, and beside it what else is needed to answer by it. Returns what is to be said of that."""
    contents: dict[str, bytes] = {}
    lines: list[str] = []
    if not os.path.exists(path) or os.path.isfile(path):
        inputs, contents = kept_beside(service, path)
        lines = answer_lines(service, inputs, path)
        if near:
            contents.update(near.contents(path))
            refuse_clashes(near.beside, contents)
            lines = [*filter(None, [near.shown_by(path)]), *lines]
    refuse_clashes(service.own_inputs.files(), contents)
    root = os.path.dirname(path) or "."
    contents = {path: service.certificate.text.encode(), **contents}
    if path != path_in(service.folder, PLAN):
        replace_all(contents, root)
        return lines
    read = [*service.own_inputs.files(), *([near.held.path, *near.beside] if near and near.held else [])]
    with locked([service.folder]):
        replace_all(contents, root)
        old = forget(service.folder, contents, read)
    named = f"old   {listed(old)}: of plans of hours, or of an earlier plan; not of this one"
    return [*lines, named] if old else lines


@click.command()
@with_files
@click.option("--unit", help="of costs, such as ms")
@RESERVE
@WITHIN
@click.option(
    "--near",
    metavar="OLD",
    type=PathName(),
    help="of the cheapest plans one that moves the fewest queries from this one",
)
@click.option("--more", is_flag=True, help="how far the demand can grow, the worst loss, and what was moved")
@click.option("--all", "every", is_flag=True, help="all full servers and all regions")
@click.option("-o", "--output", metavar="FILE", type=OUTPUT, help="the certificate, in place of DIR/plan.txt")
@click.option("--no-save", is_flag=True, help="keep no certificate")
@click.option("--csv", "as_csv", is_flag=True, help="only how many queries of each region go to each site")
@click.option("--json", "as_json", is_flag=True, help="the same sums for other programs")
@apart("--csv", "--json", "each takes the place of the lines")
@apart("-o", "--no-save", "no certificate is kept")
@apart("--within", "--near", "a plan near another one has all of its costs")
@idle("--more", "--csv", why="the table has shares only")
@idle("--all", "--csv", why=LINES)
@idle("--all", "--json", why="JSON has all of them")
def plan(folder: str, **given: Any) -> None:
    """Plans, checks and shows the plan in some ten lines.

    OLD is a certificate, or a folder with plan.txt; what doesn't lie beside it is DIR's. Status 3 is a shortage: then
    the lines say who lacks what, and the least that has to be bought.
    """
    said = SimpleNamespace(**{key: given.pop(key) for key in PLAN_WORDS})
    path = said.output or path_in(folder, "plan.txt")
    beside = files_beside(said.near) if said.near else []
    refuse_clashes([*read_in(folder, given), *beside], [] if said.no_save else [path])
    programs, judged = Programs(), Judged() if said.near else None
    programs.hold(beside)
    service = bounded(sound(folder, programs, given, cost=said.unit), said.within, programs)
    service = reserved(service, said.reserve, programs)
    if not service.certificate.is_plan:
        show_shortage(service, programs, said.as_json)
    near = near_plan(said.near, service, judged) if judged else None
    service = near.service if near else service
    found = planned(service, programs)
    reference = cheapest(service, programs)
    if not said.as_csv:
        found = with_gains(found, programs, progress)
    later = ahead(service, path) if said.more and not said.as_csv else None
    programs.insist(service.inputs, service.plan_file)
    programs.insist_held()
    lines = [] if said.no_save else keep(service, path, near)
    if said.as_csv or said.as_json:
        give(csv_of(found) if said.as_csv else json_of(found, reference, near, later))
        return
    more = [*([near.line()] if near else []), *(later.lines() if later else [])]
    say(head(service), *plan_lines(found, reference, said.every), *more)
    kept = "" if said.no_save else f"; kept in {path}"
    say(f"check {colored('yes', 'green')}: no plan within these capacities costs less{kept}", *lines)
    if (not service.sites or service.is_empty) and not any(given.values()):
        say(next_step(service, programs))
