"""A plan in force: a certificate with the files for which it was made, which may be others than today's."""

import os
import re
from collections import Counter
from dataclasses import dataclass, replace

from hsp.base.bounds import whole
from hsp.base.numbers import some
from hsp.base.paths import path_in
from hsp.base.programs import Certificate, Inputs, Missing, Programs, Refused
from hsp.base.unfit import Unfit
from hsp.plans.plans import capacity_file, servers_at, settings_file
from hsp.plans.service import NAMES, VALUES, Service, service_of
from hsp.plans.titles import TITLES, insist_counted
from hsp.scenarios.nearest import PRICED, Homes, homes_of

PLAN = "plan.txt"
BY_PRICES = "HSPLAN PRICES 1\n"
REMEDY = "keep a plan in one folder with the settings, the demand and the costs for which it was made"
# A number, and a certificate by rows. No part of it gives back what it has taken, so a large one takes little memory.
NUMBER = r"[0-9]{1,19}"
FORM = re.compile(
    rf"HSPLAN [0-9]+\nPLAN\ncost {NUMBER}\n(?:use {NUMBER} {NUMBER} {NUMBER}\n)*+"
    + "".join(rf"(?:{of} {NUMBER} {NUMBER}\n)*+" for of in PRICED)
    + r"END\n"
)


@dataclass(frozen=True)
class InForce:
    """Where a plan in force sends the queries of each row."""

    path: str
    homes: Homes


def plan_named(words: str) -> str:
    """The certificate that a folder or a file means."""
    path = path_in(words, PLAN) if os.path.isdir(words) else words
    if not os.path.isfile(path):
        raise Missing(f"{path}: no such file; give a certificate, or a folder with {PLAN}")
    return path


def files_beside(words: str) -> list[str]:
    """The files that are read with a certificate where they lie beside it."""
    folder = words if os.path.isdir(words) else os.path.dirname(words)
    return [path_in(folder, name) for name in (*NAMES.values(), VALUES, TITLES)]


def text_of(path: str) -> str:
    text = whole(path).decode("utf-8", "replace")
    if text.startswith(BY_PRICES):
        raise Unfit(f"{path}: a certificate by prices names no row, so no plan is near it")
    if not FORM.fullmatch(text):
        raise Unfit(f"{path}: no plan of hsplan")
    return text


def _of_rows(service: Service, text: str, path: str) -> Certificate:
    """The certificate, where its uses are those of the service's rows, and its servers as many as the service has."""
    certificate, inputs = Certificate(text), service.inputs
    counted = (("row", len(service.rows), inputs.demand), ("server", len(service.servers), inputs.settings))
    for word, own, file in counted:
        number = len(certificate.prices(word))
        if number != own:
            raise Unfit(f"{path}: a plan of {some(number, word)}, and {file} has {some(own, word)}; {REMEDY}")
    sums = [0] * len(service.rows)
    for row, site, queries in certificate.uses:
        if row >= len(sums) or site >= len(service.sites):
            raise Unfit(f"{path}: a plan of other files than those beside it; {REMEDY}")
        sums[row] += queries
    if sums != [row.count for row in service.rows]:
        raise Unfit(f"{path}: a plan of another demand than {inputs.demand}; {REMEDY}")
    return certificate


def _beside(path: str, now: Service, programs: Programs) -> Service:
    """The service whose files lie beside a certificate. A file that isn't there is today's."""
    folder = os.path.dirname(path) or "."
    there = {role: path_in(folder, name) for role, name in {**NAMES, "values": VALUES}.items()}
    there = {role: own for role, own in there.items() if os.path.isfile(own)}
    if all(os.path.realpath(own) == os.path.realpath(getattr(now.inputs, role) or "") for role, own in there.items()):
        return now
    insist_counted(there.get("demand", now.inputs.demand))
    try:
        return service_of(folder, programs, replace(now.inputs, **there, is_log=False), now.titles)
    except Refused as fault:
        raise Unfit(f"{path}: hsplan refuses the files beside it: {fault.line}") from None


def _as_full(service: Service, certificate: Certificate, programs: Programs) -> Inputs:
    """The inputs where servers and machines take as much as a plan gives them, and no more."""
    sums: Counter[tuple[str, int]] = Counter()
    for row, site, queries in zip(*certificate.use_columns):
        server = service.server(site, service.rows[row].handle)
        sums[server.site, server.id] += queries
    loads = {(server.site, server.id): sums[server.site, server.id] for server in service.servers}
    inputs = service.inputs.but(capacity=capacity_file(programs, loads))
    if not service.settings.get("host"):
        return inputs
    hosts = [
        {**host, "limit": sum(loads[server.site, server.id] for server in servers_at(service, host))}
        for host in service.settings["host"]
    ]
    return inputs.but(settings=settings_file(programs, service.settings, *hosts))


def _refuse_others(service: Service, certificate: Certificate, path: str, programs: Programs) -> None:
    """Refuses a plan of other settings or costs, as those of sites in another order.

    Capacities may be others than those of the plan. What has a price was full, so the checker says yes with the loads
    in their place.
    """
    verdict = programs.verdict(_as_full(service, certificate, programs), path)
    if verdict != "yes":
        own = f"{service.inputs.settings} and {service.inputs.costs}"
        raise Unfit(f"{path}: a plan of other sites or costs than {own}; {REMEDY}")


def in_force(words: str, now: Service, programs: Programs) -> InForce:
    """The plan in force that a folder or a certificate means, over the files beside it."""
    path = plan_named(words)
    text = text_of(path)
    old = _beside(path, now, programs)
    certificate = _of_rows(old, text, path)
    _refuse_others(old, certificate, path, programs)
    return InForce(path, homes_of(old, certificate))
