"""Sources of measured times: which region and site each is of, the form of each, and its times."""

import itertools
import json
import os
import re
from collections.abc import Iterable, Iterator, Sequence
from dataclasses import dataclass, field
from typing import Any, NamedTuple

import click

from hsp.base.bounds import LARGEST
from hsp.base.files import refuse_no_file
from hsp.base.unfit import Unfit
from hsp.intake.forms import Form, fits
from hsp.intake.logs import Skipped, blocks, numbered
from hsp.intake.queries import SEEN_FIRST
from hsp.measures.load_tests import is_h2load, of_h2load_log
from hsp.measures.logs import is_fping, of_atlas, of_fping, of_log, of_smokeping
from hsp.measures.timed import UNITS, Take, Timed, of_object, of_pattern, of_table

SPEC = re.compile(r"([A-Za-z0-9_.-]*)(:[A-Za-z0-9_.-]*)?=(.+)", re.DOTALL)
# How JSON begins; a line of fping may have a time in brackets.
BEGIN = re.compile(rb"(?:\xef\xbb\xbf)?\s*(?:\{|\[\s*(?:[\[{\]]|\Z))")
# The forms that a header shows, and those of logs.
OF_HEADERS = {"a table": of_table, "SmokePing by rrdtool": of_smokeping}
FPING, H2LOAD = "fping", "a log of h2load"
LOGS = {"proxy": "an HTTP log", "httplog": "HAProxy's log", "server": "a handle server's log"}
NO_FORM = (
    "no times of a known form; known are tables, fping, SmokePing by rrdtool, RIPE Atlas and logs; or give --regex"
)
DURATION = click.option("--duration", type=click.Choice(list(UNITS)), help="the unit of the number behind a request")
# What is read with the number of each, what it is called, and how it is read.
Read = tuple[Iterable[tuple[int, Any]], str, Take]


class Source(NamedTuple):
    """A file, and the region and the site that all of its times are of, where they are given."""

    path: str
    region: str = ""
    site: str = ""


class SourceName(click.ParamType):
    """A file, or `REGION=FILE`, `:SITE=FILE`, `REGION:SITE=FILE`. A file whose own name has a `=` is one."""

    name = "source"

    def convert(self, value: Any, param: click.Parameter | None, context: click.Context | None) -> Source:
        if isinstance(value, Source):
            return value
        if not value:
            self.fail("'' is no path", param, context)
        match = None if os.path.lexists(value) else SPEC.fullmatch(value)
        return Source(match[3], match[1], (match[2] or "")[1:]) if match else Source(value)


def pattern_of(text: str | None) -> re.Pattern[bytes] | None:
    try:
        return re.compile(text.encode()) if text else None
    except (re.error, UnicodeEncodeError) as error:
        raise click.BadParameter(str(error), param_hint="--regex") from None


def head_of(path: str) -> bytes:
    """The first octets of a file, unpacked."""
    return next(blocks(path, [1]), b"")


def is_json(head: bytes) -> bool:
    return bool(BEGIN.match(head))


def json_of(path: str) -> Any:
    """The JSON of a file that is read whole."""
    octets = b""
    for block in blocks(path, [1]):
        octets += block
        if len(octets) > LARGEST:
            raise Unfit(f"{path}: more than {LARGEST:,} octets of JSON; give it with an object in each line")
    try:
        return json.loads(octets.decode("utf-8-sig", "replace"))
    except RecursionError:
        raise Unfit(f"{path}: its JSON is nested too deep") from None
    except ValueError as error:
        raise Unfit(f"{path}: not whole JSON: {str(error).partition(';')[0]}") from None


def _loaded(line: bytes) -> Any:
    """The JSON of a line, or none."""
    try:
        return json.loads(line.decode("utf-8-sig", "replace"))
    except (ValueError, RecursionError):
        return None


@dataclass
class Reading:
    """How sources are read, and what was passed over and taken of each."""

    pattern: re.Pattern[bytes] | None = None
    unit: str = ""
    skipped: Skipped = field(default_factory=Skipped)
    taken: list[str] = field(default_factory=list)

    def times(self, path: str) -> Iterator[Timed]:
        """The times of a source. What it was taken for is kept."""
        refuse_no_file(path, "it is read twice, so give a file")
        head, number = head_of(path), 0
        lines, name, take = self._of_json(path, head) if is_json(head) else self._of_lines(path)
        for at, line in lines:
            for found in take(line):
                if isinstance(found, str):
                    self.skipped.add(found, path, at, line if isinstance(line, bytes) else repr(line)[:99].encode())
                else:
                    number += 1
                    yield found._replace(line=at)
        self.taken.append(f"took  {path}: {number:,} of {name}")

    def pass_over(self, why: str, path: str, timed: Timed) -> None:
        """Passes a time over that was read."""
        text = f"{timed.client} {timed.server} {timed.milliseconds:g}".strip()
        self.skipped.add(why, path, timed.line, text.encode("utf-8", "replace"))

    def lines(self) -> list[str]:
        """What was taken, and what was passed over."""
        return [*self.taken, *self.skipped.lines()]

    def _of_json(self, path: str, head: bytes) -> Read:
        """With an object in each line, or one list of them."""
        if isinstance(_loaded(head.lstrip().partition(b"\n")[0]), dict):
            found = ((at, _loaded(line)) for at, line in numbered(path, self.skipped))
        else:
            said = json_of(path)
            found = ((at, own) for at, own in enumerate(said if isinstance(said, list) else [said], 1))
        first = list(itertools.islice(found, SEEN_FIRST))
        is_atlas = any(isinstance(said, dict) and "prb_id" in said for _, said in first)
        name, take = ("RIPE Atlas", of_atlas) if is_atlas else ("objects of JSON", of_object)
        return itertools.chain(first, found), name, take

    def _of_lines(self, path: str) -> Read:
        lines = numbered(path, self.skipped)
        first = list(itertools.islice(lines, SEEN_FIRST))
        if not first:
            raise Unfit(f"{path}: nothing is in it")
        header = first[0][1]
        for name, of_header in ({} if self.pattern else OF_HEADERS).items():
            if take := of_header(header):
                return itertools.chain(first[1:], lines), name, take
        name, take = self._form([line for _, line in first])
        if not name:
            raise Unfit(f"{path}: line {first[0][0]}: {NO_FORM}")
        return itertools.chain(first, lines), name, take

    def _form(self, lines: Sequence[bytes]) -> tuple[str, Take]:
        """The form that most of the first lines have, and how it is read; an empty name where none fits."""
        if self.pattern:
            return "what --regex finds", of_pattern(self.pattern)
        counts = {name: fits(Form(name), list(lines)) for name in LOGS}
        counts |= {FPING: sum(map(is_fping, lines)), H2LOAD: sum(map(is_h2load, lines))}
        best = max(counts, key=lambda name: counts[name])
        if best in LOGS:
            return LOGS[best] if counts[best] else "", of_log(best, self.unit)
        return best, of_fping(lines) if best == FPING else of_h2load_log
