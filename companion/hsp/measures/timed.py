"""Times that passed: how they are spelt, and the columns of tables, JSON and expressions that have them.

A reader takes a line, or an object of JSON, and gives its times, or the reasons why it has none.
"""

import csv
import math
import re
from collections.abc import Callable, Iterable, Iterator, Mapping
from typing import Any, NamedTuple

from hsp.base.grammar import GREATEST_COST
from hsp.intake.times import seconds_of

NO_ANSWER, NO_NUMBER, TOO_LARGE = "no answer", "no time", f"a time above {GREATEST_COST // 1000:,} seconds"
EITHER = "a comma that may be a point or part thousands"
OTHER_WIDTH, NO_OBJECT, OTHER_LINE = "another number of fields", "no object of JSON", "not matched by --regex"
# So many milliseconds are in one of these.
UNITS = {"us": 0.001, "ms": 1.0, "s": 1000.0}
NUMBER = re.compile(r"[0-9]{1,12}(?:[.,][0-9]{1,15})?(?:[eE][+-]?[0-9]{1,2})?", re.ASCII)
THOUSANDS = re.compile(r"[1-9][0-9]{0,2},[0-9]{3}", re.ASCII)
NONE = {"", "-", "*", "-1", "nan", "-nan", "null", "none", "unreachable"}
# The columns by their names. A table may instead have a column for each site.
REGION = "region"
CLIENTS = (REGION, "address", "client", "remote_addr", "c-ip")
SERVERS = ("site", "server", "upstream_addr", "host", "target")
TIMES = {
    **dict.fromkeys(("milliseconds", "ms", "rtt", "time-taken"), UNITS["ms"]),
    **dict.fromkeys(("seconds", "request_time", "upstream_response_time"), UNITS["s"]),
    **dict.fromkeys(("microseconds", "us"), UNITS["us"]),
}
MOMENTS = ("time", "time_iso8601", "time_local", "msec")


class Timed(NamedTuple):
    """A time of a client, which is an address or a region, at a server, and the second of it since 1970.

    What a source doesn't name is an empty text.
    """

    client: str = ""
    server: str = ""
    milliseconds: float = 0.0
    is_region: bool = False
    second: int | None = None
    line: int = 0


Found = Iterable[Timed | str]
Take = Callable[[Any], Found]


def milliseconds_of(text: str, unit: float = 1.0) -> float | str:
    """The time that a number of so many milliseconds each spells, or the reason why it spells none.

    A comma is a point, as some locales have it, where it can't part thousands.
    """
    plain = text.strip()
    if plain.lower() in NONE:
        return NO_ANSWER
    if not NUMBER.fullmatch(plain):
        return NO_NUMBER
    if THOUSANDS.fullmatch(plain):
        return EITHER
    found = float(plain.replace(",", ".")) * unit
    return found if found <= GREATEST_COST else TOO_LARGE


def times_of(words: Iterable[str], known: Timed, unit: float = 1.0) -> Iterator[Timed | str]:
    """The times that words spell, with what is known of all of them."""
    for word in words:
        found = milliseconds_of(word, unit)
        yield found if isinstance(found, str) else known._replace(milliseconds=found)


def of_fields(fields: Mapping[str, str]) -> Found:
    time, client, server, moment = (
        next((name for name in names if name in fields), "") for names in (TIMES, CLIENTS, SERVERS, MOMENTS)
    )
    known = Timed(
        fields.get(client, "").strip(),
        fields.get(server, "").strip(),
        is_region=client == REGION,
        second=seconds_of(fields.get(moment, "").encode()),
    )
    return times_of([fields.get(time, "")], known, TIMES.get(time, 1.0))


def _row(line: bytes, sign: str) -> list[str]:
    try:
        return [own.strip() for own in next(csv.reader([line.decode("utf-8", "replace")], delimiter=sign), [])]
    except csv.Error:
        return []


def of_table(header: bytes) -> Take | None:
    """How the rows below a header are read; none where a line is no header of a table with times."""
    sign = max(",;\t", key=lambda own: header.count(own.encode()))
    names = _row(header, sign)
    is_wide = len(names) > 1 and names[0] in CLIENTS[:2] and not {*names} & {*SERVERS, *TIMES}
    if not is_wide and not ({*names} & {*TIMES} and {*names} & {*CLIENTS, *SERVERS}):
        return None

    def take(line: bytes) -> Found:
        row = _row(line, sign)
        if len(row) != len(names):
            return [OTHER_WIDTH]
        return _of_sites(names, row) if is_wide else of_fields(dict(zip(names, row)))

    return take


def _of_sites(names: list[str], row: list[str]) -> Found:
    for site, text in zip(names[1:], row[1:]):
        yield from times_of(text.split() or [""], Timed(row[0], site, is_region=names[0] == REGION))


def of_object(said: Any) -> Found:
    if not isinstance(said, dict):
        return [NO_OBJECT]
    return of_fields({name: str(value) for name, value in said.items()})


def of_pattern(pattern: re.Pattern[bytes]) -> Take:
    """How lines are read by an expression, whose groups are named as columns are."""

    def take(line: bytes) -> Found:
        match = pattern.search(line)
        if not match:
            return [OTHER_LINE]
        groups = match.groupdict().items()
        return of_fields({name: own.decode("utf-8", "replace") for name, own in groups if own is not None})

    return take


def digits(number: float) -> str:
    """A time or a rate as people read it: by three digits, and all of those before the point."""
    if number >= 100 or number < 0.001:
        return f"{number:,.0f}"
    return f"{number:.{max(0, 2 - math.floor(math.log10(number)))}f}".rstrip("0").rstrip(".")
