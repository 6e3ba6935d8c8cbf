"""What is there already in a folder for which costs and capacities are measured."""

import csv
import json
import os
import re
from collections.abc import Iterator
from dataclasses import dataclass

from hsp.base.files import replace_all
from hsp.base.grammar import GREATEST_CAPACITY, HEADERS
from hsp.base.numbers import some
from hsp.base.paths import path_in, shell_word
from hsp.base.programs import Inputs, Missing, Programs, Refused
from hsp.base.unfit import Unfit, shown
from hsp.plans.service import NAMES, VALUES, Site, settings_in, sites_of
from hsp.plans.titles import TITLES, noted

WHOLE = re.compile(r"[0-9]{1,19}", re.ASCII)


def rows_in(path: str, header: str) -> Iterator[list[str]]:
    """The rows of a table below its header. There may be any number of them."""
    with open(path, encoding="utf-8-sig", errors="replace", newline="") as file:
        rows, is_header = csv.reader(file, strict=True), True
        try:
            for row in filter(None, rows):
                if len(row) != header.count(",") + 1 or is_header and ",".join(row) != header:
                    raise Unfit(f"{path}: line {rows.line_num}: not {header}: {shown(','.join(row))}")
                if not is_header:
                    yield row
                is_header = False
        except csv.Error as error:
            raise Unfit(f"{path}: line {rows.line_num}: {error}") from None


@dataclass
class Bare:
    """A folder with sites. Its tables may be empty."""

    folder: str
    programs: Programs
    settings: Inputs
    sites: list[Site]

    def path(self, role: str) -> str:
        return path_in(self.folder, NAMES[role])

    def rows(self, role: str) -> Iterator[tuple[str, str, int]]:
        """The rows of a table, where there is one."""
        path = self.path(role)
        for one, other, number in rows_in(path, HEADERS[role]) if os.path.exists(path) else ():
            if not WHOLE.fullmatch(number):
                raise Unfit(f"{path}: {shown(number)} is no whole number")
            yield one, other, int(number)

    def write(self, role: str, text: str, notes: dict[str, str | int]) -> str:
        """Writes a table that hsplan takes beside one of the other kind and no demand, and notes words in hsp.toml.

        Returns what is said of that.
        """
        programs = self.programs
        room = ((server.site, server.id, GREATEST_CAPACITY) for site in self.sites for server in site.servers)
        tables = {
            "demand": programs.put_table(HEADERS["demand"], []),
            "costs": programs.put_table(HEADERS["costs"], []),
            "capacity": programs.put_table(HEADERS["capacity"], room),
        }
        try:
            programs.plan(self.settings.but(**{**tables, role: programs.put(text, ".csv")}))
        except Refused as fault:
            raise Unfit(f"hsplan refuses the new {NAMES[role]}: {fault.line}") from None
        texts = noted(self.folder, notes)
        replace_all({self.path(role): text.encode(), **texts})
        words = " and ".join(f"{key} = {json.dumps(word)}" for key, word in notes.items())
        note = f"; {TITLES} notes {words}" if texts else ""
        return f"{self.path(role)} has {some(text.count(chr(10)) - 1, 'row')}{note}"


def folder_of(folder: str, programs: Programs) -> Bare:
    """A folder with settings that hsplan takes, and a site in them."""
    path, values = path_in(folder, NAMES["settings"]), path_in(folder, VALUES)
    if not os.path.isfile(path):
        raise Missing(f"{path}: no such file; hsp new makes a folder with one")
    inputs = Inputs(path, "", "", "", values if os.path.isfile(values) else None)
    programs.places(inputs, ["0.NA/0"])
    sites = sites_of(programs, inputs, settings_in(path))
    if not sites:
        raise Unfit(f"{path}: no site; hsp sites FILE.. --into {shell_word(folder)} brings them in")
    return Bare(folder, programs, inputs, sites)
