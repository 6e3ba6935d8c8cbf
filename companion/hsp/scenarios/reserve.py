"""A part of each capacity and limit that is kept back."""

import os
from dataclasses import replace
from fractions import Fraction

import click

from hsp.base.options import Percent
from hsp.base.paths import path_in
from hsp.base.programs import Programs
from hsp.plans.answering import less_reserve
from hsp.plans.plans import capacity_file, settings_file
from hsp.plans.service import Service
from hsp.scenarios.in_force import PLAN

PART = Percent(lambda part: part < 1, "from 0 to less than 100, such as 5 or 2.5")
RESERVE = click.option(
    "--reserve", metavar="P", type=PART, default="0", help="keep P % of each capacity and limit back"
)


def reserved(service: Service, part: Fraction, programs: Programs) -> Service:
    """The service where servers and machines take less by a part, rounded down, and its certificate."""
    if not part:
        return service
    capacities = {key: int(room * (1 - part)) for key, room in service.capacities.items()}
    inputs, settings = service.inputs.but(capacity=capacity_file(programs, capacities)), service.settings
    if "host" in settings:
        hosts = [{**host, "limit": int(host["limit"] * (1 - part))} for host in settings["host"]]
        settings = {**settings, "host": hosts}
        inputs = inputs.but(settings=settings_file(programs, settings, *hosts))
    certificate, path = programs.plan(inputs)
    return replace(
        service,
        given=service.own_inputs,
        given_capacities=service.capacities,
        inputs=inputs,
        settings=settings,
        capacities=capacities,
        certificate=certificate,
        plan_file=path,
        reserve=part,
    )


def forgotten(service: Service, programs: Programs) -> str:
    """A line where the folder's plan keeps a part of each capacity back, and this plan doesn't."""
    path = path_in(service.folder, PLAN)
    if service.reserve or not os.path.isfile(path):
        return ""
    less = less_reserve(path, service.inputs)
    if not less or programs.verdict(less, path) != "yes" or programs.verdict(service.inputs, path) == "yes":
        return ""
    if less.costs != service.inputs.costs:
        return f"{path} uses no site above a cost, and this plan does: hsp plan --within made it"
    return f"{path} keeps a part of each capacity back, and this plan doesn't: give --reserve, as hsp plan had it"
