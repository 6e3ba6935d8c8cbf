"""What to do next in a folder."""

import os
from collections.abc import Iterator

from hsp.base.numbers import listed, some
from hsp.base.paths import shell_word
from hsp.base.programs import Programs
from hsp.base.text import bold
from hsp.doctor.doubts import stale_plan
from hsp.doctor.examine import examined
from hsp.plans.service import NAMES, Service
from hsp.plans.terminal import head


def step(command: str, why: str) -> str:
    return f"next  {bold(command)}  {why}"


def next_lines(folder: str, programs: Programs) -> Iterator[str]:
    """What stands in the folder, and the command that comes next there."""
    at = _behind(folder)
    there = [name for name in NAMES.values() if os.path.exists(os.path.join(folder, name))]
    if not there:
        yield f"no service here: a folder of one has {listed(NAMES.values())}"
        yield step("hsp new DIR", "makes such a folder")
        return
    found = examined(folder, programs, {})
    if found.errors:
        yield f"{some(len(found.errors), 'fault')} in the files here"
        yield step(f"hsp doctor{at}", "shows each with its place and its remedy")
        return
    if found.service:
        yield head(found.service)
        yield next_step(found.service, programs)
    if found.warnings:
        yield f"also  {bold(f'hsp doctor{at}')}  shows {some(len(found.warnings), 'warning')}"


def _behind(folder: str) -> str:
    """The folder as the last word of a command, if it isn't the present one."""
    return "" if folder in ("", ".") else f" {shell_word(folder)}"


def next_step(service: Service, programs: Programs) -> str:
    """The step for a folder without a fault: whether there is a plan, and whether it is one of these inputs."""
    at = _behind(service.folder)
    if not service.sites:
        return step(
            f"hsp sites FILE.. --into {shell_word(service.folder)}",
            "brings the sites in, of a proxy's JSON or their records",
        )
    if service.is_empty:
        command = f"hsp demand LOG.. --regions FILE --into {shell_word(service.folder)}"
        return step(command, "counts the queries of access logs, by a table network,region")
    if not {region for region, _ in service.costs} & set(service.regions):
        command = f"hsp costs SOURCE.. --into {shell_word(service.folder)}"
        return step(command, f"writes costs of {listed(service.regions, 6)}, from pings or a log with response times")
    if not any(service.capacities.values()):
        command = f"hsp capacity SITE=N.. --into {shell_word(service.folder)}"
        return step(command, "writes what each server takes, from numbers, load tests or logs: all take 0")
    path = os.path.join(service.folder, "plan.txt")
    if not os.path.isfile(path):
        return step(f"hsp plan{at}", "plans, and keeps the plan in plan.txt")
    newer = stale_plan(service, programs, path)
    if newer is not None:
        why = (
            f"{listed(newer)} changed since plan.txt was written" if newer else "plan.txt isn't a plan of these files"
        )
        return step(f"hsp plan{at}", f"plans again: {why}")
    return step(f"hsp view{at}", "writes the plan as a page")
