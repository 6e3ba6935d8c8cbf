"""A command of hsplan that can be asked again with mended copies of its files."""

from __future__ import annotations

import csv
import functools
import os
import re
import stat
import subprocess
from collections.abc import Callable, Iterable
from dataclasses import dataclass, field, replace
from typing import NamedTuple

from hsp.base.grammar import HEADERS
from hsp.base.programs import Programs, program
from hsp.base.text import is_utf8
from hsp.doctor.findings import Finding, Text, encoded, read_text
from hsp.doctor.rows import Row, joined, table_of

# The files in the order in which hsplan reads them.
ORDER = ("settings", "values", "demand", "costs", "capacity", "plan", "prices", "log", "file")
STANDS_IN = {"settings": ""} | {role: f"{header}\n" for role, header in HEADERS.items()}


@dataclass(frozen=True)
class Draft:
    """A file, and the lines of its mended copy. Every line keeps its number, but for those put above the first."""

    original: Text
    lines: tuple[str, ...] | None = None
    above: int = 0
    # The path of a copy that is asked about in place of the file, until it is mended.
    copy: str = ""

    @functools.cached_property
    def text(self) -> Text:
        """The copy as it is now."""
        if self.lines is None:
            return self.original
        return Text(self.original.path, encoded("\n".join(self.lines)))

    def number(self, line: int) -> int:
        """The number that a line of the copy has in the original; 1 for those put above the first."""
        return max(1, line - self.above)

    def with_line(self, line: int, text: str, last: int = 0) -> Draft:
        """The copy with another text in a line, and nothing in those up to `last`."""
        lines = list(self.text.lines)
        lines[line - 1 : max(line, last)] = [text] + [""] * max(0, last - line)
        return replace(self, lines=tuple(lines))

    def with_text(self, text: str, above: int = 0) -> Draft:
        return Draft(self.original, tuple(re.split(r"\r\n|\n|\r", text)), self.above + above)


@dataclass(frozen=True)
class Said:
    """What hsplan printed of a fault: where it was met, its word, and what stands behind."""

    status: int
    line: str
    where: str = ""
    word: str = ""
    detail: str = ""
    table: str = ""
    numbers: dict[str, int] = field(default_factory=dict)


Show = Callable[[Finding], None]


def unheard(_: Finding) -> None:
    """Nobody waits for findings one by one."""


@dataclass
class Diagnosis:
    """All faults that were found, hsplan's status for the files as they are, and whether there may be more."""

    findings: list[Finding]
    status: int
    is_cut_short: bool = False
    show: Show = unheard

    def add(self, finding: Finding) -> None:
        self.findings.append(finding)
        self.show(finding)

    def add_all(self, waiting: list[Finding]) -> None:
        """Adds findings of one file by their lines, so that none waits any more."""
        for finding in sorted(waiting, key=lambda finding: finding.line):
            self.add(finding)
        waiting.clear()


def said_of(status: int, line: str) -> Said:
    """The parts of a line as `demand: BadHandle row 36 NoSlash`."""
    match = re.fullmatch(r"(?:(\w+): )?(read failed|write failed|\w+)(.*)", line)
    if not match:
        return Said(status, line)
    rest = match[3]
    numbers = {name: int(value) for name, value in re.findall(r"([a-z_]+) (\d+)", rest)}
    table = re.search(r"table (\w+)", rest)
    detail = re.search(r"\b([A-Z]\w+)", rest)
    return Said(
        status, line, match[1] or "", match[2], detail[1] if detail else "", table[1] if table else "", numbers
    )


class Mend(NamedTuple):
    """A row, the last line of its mend, and the text that stands there; nothing where the row is left out.

    Where that is two rows, the second one is left out, so that later lines keep their numbers.
    """

    row: Row
    last: int
    text: str | None = None


@dataclass(frozen=True)
class Question:
    """A program, its command, its files, and its other words. `left_out` are rows that copies no longer have."""

    programs: Programs
    command: str
    files: dict[str, Draft]
    options: tuple[str, ...] = ()
    words: tuple[str, ...] = ()
    program: str = "hsplan"
    absent: frozenset[str] = frozenset()
    left_out: tuple[tuple[str, tuple[str, ...]], ...] = ()
    # A copy lacks a site whose name isn't known, so that rows may name it.
    lacks_site: bool = False

    def arguments(self) -> list[str]:
        found = [self.command]
        for role in ORDER:
            if role in self.files and role != "file":
                found.append(f"--{role}={self.path(role)}")
        found += self.options
        last = [self.path("file")] if "file" in self.files else list(self.words)
        return found + (["--", *last] if last else [])

    def path(self, role: str) -> str:
        """The file itself, or its copy where that was mended."""
        draft = self.files[role]
        if draft.lines is None:
            return draft.copy or draft.original.path
        return self.programs.put(draft.text.octets)

    def text(self, role: str) -> Text:
        return self.files[role].text

    def with_file(self, role: str, draft: Draft) -> Question:
        return replace(self, files={**self.files, role: draft})

    def with_line(self, role: str, line: int, text: str, last: int = 0) -> Question:
        return self.with_file(role, self.files[role].with_line(line, text, last))

    def with_stand_in(self, role: str) -> Question:
        """The same with a file that has no fault, and nothing in it."""
        draft = Draft(self.files[role].original, tuple(STANDS_IN.get(role, "").split("\n")))
        return replace(self.with_file(role, draft), absent=self.absent | {role})

    def with_row(self, table: str, row: Row, fields: list[str]) -> Question:
        return self.with_line(table, row.first, joined(fields), row.last)

    def with_mends(self, table: str, mends: Iterable[Mend]) -> Question:
        """The same with rows mended or left out. Later lines keep their numbers, since an empty line is no row."""
        lines, left_out = list(self.text(table).lines), self.left_out
        for row, last, text in mends:
            own, _, other = (text or "").partition("\n")
            lines[row.first - 1 : last] = [own] + [""] * (last - row.first)
            left_out += ((table, tuple(row.fields)),) if text is None else ()
            left_out += ((table, tuple(other.split(","))),) if other else ()
        draft = replace(self.files[table], lines=tuple(lines))
        return replace(self.with_file(table, draft), left_out=left_out)

    def without_rows(self, table: str, rows: Iterable[Row]) -> Question:
        return self.with_mends(table, [Mend(row, row.last) for row in rows])

    def size(self) -> int:
        """How many lines with a text the files have."""
        return sum(bool(line.strip()) for draft in self.files.values() for line in draft.lines or draft.original.lines)

    def ask(self) -> Said:
        """What hsplan says. Its answer is the status only, since answers to a log may be long."""
        short = self.command in ("check", "report", "plan", "faults")
        done = subprocess.run(
            [program(self.program), *self.arguments()],
            stdin=subprocess.DEVNULL,
            stdout=subprocess.PIPE if short else subprocess.DEVNULL,
            stderr=subprocess.PIPE,
        )
        line = done.stderr.decode("utf-8", "replace").strip()
        verdict = done.stdout.decode("utf-8", "replace").strip() if self.command in ("check", "report") else ""
        if done.returncode == 3 and verdict.startswith("no "):
            return Said(3, verdict, "check", verdict.split()[-1])
        if self.command == "faults" and done.returncode == 1:
            line = next(csv.reader(done.stdout.decode("utf-8", "replace").splitlines()[1:2]), [line])[-1]
        if done.returncode in (0, 3) and not line.startswith(f"{self.program}: "):
            return Said(0, "")
        return said_of(done.returncode, line.removeprefix(f"{self.program}: "))


def sites_used(question: Question) -> list[str]:
    """The names of sites in the costs and the capacities."""
    tables = [table_of(question.text(role)) for role in ("costs", "capacity") if role in question.files]
    return list(dict.fromkeys(site for table in tables for site in table.column("site")))


def draft_of(programs: Programs, path: str) -> Draft:
    """A file as it is read. A pipe can be read once, and hsplan takes no name that isn't UTF-8: these are copied."""
    try:
        if path != "/dev/null" and (is_pipe(path) or not is_utf8(path) and os.path.isfile(path)):
            text = read_text(path)
            return Draft(text, copy=programs.put(text.octets))
        return Draft(read_text(path))
    except (OSError, ValueError):
        return Draft(Text(path, b""))


def is_pipe(path: str) -> bool:
    mode = os.stat(path).st_mode
    return stat.S_ISFIFO(mode) or stat.S_ISCHR(mode)
