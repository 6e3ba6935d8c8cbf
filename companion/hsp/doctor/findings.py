"""Findings: what is wrong or seldom meant, where it stands, why, and what to do."""

import functools
import os
import re
from dataclasses import dataclass

from hsp.base.bounds import LARGEST
from hsp.base.text import visible

ERROR, WARNING, NOTE = "error", "warning", "note"


@dataclass(frozen=True)
class Finding:
    """One fault or doubt. Lines and columns count from 1, columns in letters; `end` is the column after the last."""

    message: str
    remedy: str
    why: str = ""
    file: str = ""
    line: int = 0
    column: int = 0
    end: int = 0
    text: str = ""
    mark: str = ""
    said: str = ""
    severity: str = ERROR
    # Findings of one group are shown once at a terminal, and counted.
    group: str = ""
    # What hsp.toml calls a warning that it accepts; empty where it can't be accepted.
    name: str = ""


@dataclass(frozen=True)
class Place:
    """Where something stands in a line, and the line."""

    line: int = 0
    column: int = 0
    width: int = 0
    text: str = ""

    @property
    def end(self) -> int:
        return self.column + max(1, self.width) if self.column else 0


@dataclass(frozen=True)
class Words:
    """What is said of a place: the message, the remedy, the reason, and a word beside the caret.

    `mended` is what stands in a copy in place of a row's first line, where the row isn't left out.
    """

    message: str
    remedy: str
    why: str = ""
    mark: str = ""
    group: str = ""
    name: str = ""
    mended: str | None = None


def first_of(*causes: tuple[object, str, str]) -> Words:
    """The reason and the remedy of the first cause that is there."""
    why, remedy = next((why, remedy) for is_there, why, remedy in causes if is_there)
    return Words("", remedy, why)


def found(path: str, place: Place, words: Words, said: str = "", severity: str = ERROR) -> Finding:
    return Finding(
        message=words.message,
        remedy=words.remedy,
        why=words.why,
        file=path,
        line=place.line,
        column=place.column,
        end=place.end,
        text=place.text,
        mark=words.mark,
        said=said,
        severity=severity,
        group=words.group or words.message,
        name=words.name,
    )


@dataclass(eq=False)
class Text:
    """A file by its lines, as they are counted: a byte order mark is no letter, and other octets stay as they are."""

    path: str
    octets: bytes

    @functools.cached_property
    def lines(self) -> list[str]:
        return re.split(r"\r\n|\n|\r", decoded(self.octets))

    @property
    def name(self) -> str:
        return os.path.basename(self.path)

    def line(self, number: int) -> str:
        return self.lines[number - 1] if 0 < number <= len(self.lines) else ""

    def whole(self, number: int) -> Place:
        """The whole of a line, without the blanks about it."""
        text = self.line(number)
        bare = text.strip()
        return Place(number, text.find(bare) + 1 if bare else 1, len(bare), text)

    def part(self, number: int, start: int, width: int) -> Place:
        """A part of a line, from a column that counts from 0."""
        return Place(number, start + 1, width, self.line(number))

    def match(self, pattern: str, first: int = 1, last: int = 0) -> Place | None:
        """The first match of a pattern from one line to another; of its first group, if it has one."""
        for number in range(first, (last or len(self.lines)) + 1):
            match = re.search(pattern, self.line(number))
            if match:
                group = 1 if match.re.groups else 0
                return self.part(number, match.start(group), match.end(group) - match.start(group))
        return None


def decoded(octets: bytes) -> str:
    """Octets as a text that gives the same octets again, but for a byte order mark."""
    return octets.decode("utf-8", "surrogateescape").removeprefix("\ufeff")


def encoded(text: str) -> bytes:
    return text.encode("utf-8", "surrogateescape")


def read_text(path: str) -> Text:
    with open(path, "rb") as file:
        return Text(path, file.read(LARGEST + 1))


def quoted(text: str, most: int = 60) -> str:
    """A text between quotes, of which only the beginning is shown where it is long."""
    shown = visible(text[:most])
    return f"'{shown}'" if len(text) <= most else f"'{shown}..'"
