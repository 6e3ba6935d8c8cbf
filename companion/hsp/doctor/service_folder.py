"""The folder of a service, as the commands take it that ask the doctor first."""

import os
import sys
from collections.abc import Callable, Mapping
from typing import Any, TypeVar

import click

from hsp.base.ends import SHORTAGE, ended
from hsp.base.numbers import listed, percent_exactly, some
from hsp.base.options import ANY_FILE, PathName
from hsp.base.paths import path_in, shell_word
from hsp.base.programs import Programs
from hsp.base.text import say, visible
from hsp.doctor import examined
from hsp.doctor.doubts import OLD_PLAN
from hsp.doctor.printing import lines as finding_lines
from hsp.plans.service import NAMES, VALUES, Service
from hsp.plans.titles import TITLES

Command = TypeVar("Command", bound=Callable[..., Any])


class Folder(PathName):
    """A folder of a service, which is there."""

    def __init__(self) -> None:
        super().__init__(exists=True, file_okay=False)

    def convert(self, value: Any, param: click.Parameter | None, context: click.Context | None) -> Any:
        if os.path.isfile(value):
            self.fail(f"'{value}' is a file: give its folder, or the file behind its option", param, context)
        return super().convert(value, param, context)


def with_files(command: Command, without: str = "") -> Command:
    """Adds the folder, and the options for other files, of which one may be left out."""
    for role in (role for role in ("values", "capacity", "costs", "demand", "settings") if role != without):
        words = "the value list that the settings refer to" if role == "values" else f"in place of DIR's {role}"
        command = click.option(f"--{role}", metavar="FILE", type=ANY_FILE, help=words)(command)
    return click.argument("folder", metavar="[DIR]", default=".", type=Folder())(command)


def read_in(folder: str, given: Mapping[str, str | None]) -> list[str]:
    """The files of a folder that a command may read."""
    names = {**NAMES, "values": VALUES, "titles": TITLES}
    return [given.get(role) or path_in(folder, name) for role, name in names.items()]


def sound(
    folder: str, programs: Programs, given: dict[str, str | None], title: str | None = None, cost: str | None = None
) -> Service:
    """Reads a folder in which hsplan has no fault; otherwise prints the faults, and ends. Warnings are one line.

    An old plan is none of these, since the commands that ask plan anew.
    """
    programs.hold(read_in(folder, given))
    found = examined(folder, programs, given, title, cost)
    if not found.service:
        say(*list(finding_lines(found.errors))[:-1], err=True)
        sys.exit(found.status)
    warnings = [warning for warning in found.warnings if warning.group != OLD_PLAN]
    if warnings:
        titles = visible(listed(dict.fromkeys(warning.message for warning in warnings), 2))
        say(f"hsp: {some(len(warnings), 'warning')}: {titles} (hsp doctor {visible(shell_word(folder))})", err=True)
    return found.service


def refuse_shortage(folder: str, service: Service) -> None:
    """Ends where not all queries of a folder can be served."""
    if not service.certificate.is_plan:
        less = f" --reserve {percent_exactly(service.reserve).removesuffix('%')}" if service.reserve else ""
        ended(SHORTAGE, f"not all queries can be served, and there is no plan: hsp plan {shell_word(folder)}{less}")
