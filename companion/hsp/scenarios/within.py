"""A bound of what a query may cost: a plan within it, and the least bound that has a plan."""

import os
from dataclasses import replace

import click

from hsp.base.bounds import octets_of
from hsp.base.ends import SHORTAGE
from hsp.base.files import refuse_clashes, refuse_no_folder, replace_all
from hsp.base.grammar import GREATEST_COST
from hsp.base.numbers import average
from hsp.base.options import PathName, apart
from hsp.base.paths import path_in
from hsp.base.programs import Programs
from hsp.base.text import bold, say
from hsp.doctor.service_folder import with_files
from hsp.plans.plans import costs_file, shortage
from hsp.plans.service import Service
from hsp.plans.terminal import head, shortage_lines
from hsp.scenarios.command import asking
from hsp.scenarios.in_force import PLAN
from hsp.scenarios.judged import Judged, yes_line

WITHIN = click.option(
    "--within", type=click.IntRange(0, GREATEST_COST), metavar="MS", help="use no site that costs a region more"
)
# The folder with both certificates, and the files in it.
FOLDER, COSTS, SHORT, SHORT_COSTS = "within", "costs.csv", "short.txt", "short-costs.csv"


def bounded(service: Service, within: int | None, programs: Programs) -> Service:
    """The service without costs above a bound, and its certificate."""
    if within is None:
        return service
    costs = {pair: cost for pair, cost in service.costs.items() if cost <= within}
    inputs = service.inputs.but(costs=costs_file(programs, costs))
    certificate, path = programs.plan(inputs)
    own = replace(service, costs=costs, inputs=inputs, given=service.own_inputs, within=within)
    return replace(own, certificate=certificate, plan_file=path)


def least(service: Service, programs: Judged) -> tuple[Service, Service | None]:
    """The service within the least bound that has a plan; and within the bound just below it, where it has none.

    A lower bound allows no more, so the bounds with a plan are those from one of the costs on.
    """
    bounds = sorted(set(service.costs.values()))
    low, high = 0, len(bounds) - 1
    while low < high:
        middle = (low + high) // 2
        if bounded(service, bounds[middle], programs).certificate.is_plan:
            high = middle
        else:
            low = middle + 1
    below = bounded(service, bounds[low] - 1, programs) if bounds[low] else None
    return bounded(service, bounds[low], programs), below


@click.command()
@with_files
@click.option("--into", metavar="FOLDER", type=PathName(file_okay=False), help="in place of DIR/within")
@click.option("--no-save", is_flag=True, help="keep no certificate")
@click.option("--unit", help="of costs, such as ms")
@apart("--into", "--no-save", "no certificate is kept")
def within(folder: str, into: str | None, no_save: bool, unit: str | None, **given: str | None) -> None:
    """Finds the least cost within which every query can be served.

    A plan within it and a shortage just below it are certificates, and are kept in DIR/within with their costs. hsp
    plan --within N makes a plan of any bound.
    """
    programs = Judged()
    service = asking(folder, programs, given, unit)
    own = into or path_in(folder, FOLDER)
    if not no_save:
        refuse_no_folder(own, "certificates are written")
        refuse_clashes(service.inputs.files(), [path_in(own, name) for name in (PLAN, COSTS, SHORT, SHORT_COSTS)])
    say(head(service))
    if not service.certificate.is_plan:
        say(*shortage_lines(service, shortage(service, programs)))
        raise SystemExit(SHORTAGE)
    plan, short = least(service, programs)
    programs.insist_held()
    words, asked, cost = service.unit, service.asked, plan.certificate.cost
    beside = f"{average(cost, asked)} a query; {average(service.certificate.cost, asked)} without a bound"
    say(f"{bold(f'within {plan.within:,}{words}')} all are served: cost {cost:,}{words}, {beside}")
    if short:
        not_all = f"{bold(f'within {short.within:,}{words}')} not all are:"
        say(not_all, *shortage_lines(short, shortage(short, programs)))
    if not no_save:
        os.makedirs(own, exist_ok=True)
        files = {PLAN: plan.plan_file, COSTS: plan.inputs.costs}
        files |= {SHORT: short.plan_file, SHORT_COSTS: short.inputs.costs} if short else {}
        replace_all({path_in(own, name): octets_of(path) for name, path in files.items()}, own)
        say(f"kept  {PLAN} {f'and {SHORT} with their' if short else 'with its'} costs in {own}")
    say(yes_line(programs))
