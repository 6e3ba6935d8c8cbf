"""A demand that no table holds: a log with counts, of any number of rows. Its sums are taken in one pass."""

import csv
import io
import itertools
import os
from collections import Counter
from collections.abc import Iterable, Iterator
from dataclasses import dataclass, field
from fractions import Fraction
from typing import NamedTuple

from hsp.base.grammar import GREATEST_COUNT, GREATEST_ROW_COUNT, HEADERS, MOST_DEMAND_ROWS
from hsp.base.text import escaped
from hsp.base.unfit import Unfit

HEADER = HEADERS["demand"].split(",")
# So many octets of a log are read at once.
BLOCK = 1 << 22


class Asked(NamedTuple):
    """A row of a log. Its region is text, its handle as it stands there."""

    region: bytes
    handle: bytes
    queries: int


@dataclass(frozen=True)
class Counted:
    """What a log asks for: how many rows it has, and how many queries of each region, in the order of their rows."""

    rows: int
    regions: dict[str, int] = field(default_factory=dict)


def _is_large(count: str) -> bool:
    """Whether a count is above that of a table, and not above that of a log."""
    is_whole = count.isascii() and count.isdigit() and len(count) <= len(str(GREATEST_ROW_COUNT))
    return is_whole and GREATEST_COUNT < int(count) <= GREATEST_ROW_COUNT


def is_log(path: str) -> bool:
    """Whether a demand has more rows, or larger counts, than a table holds. Any other fault is one of a table."""
    if not os.path.isfile(path):
        return False
    with open(path, encoding="utf-8-sig", errors="surrogateescape", newline="") as file:
        rows = (row for row in csv.reader(file) if row)
        try:
            if next(rows, []) != HEADER:
                return False
            first = list(itertools.islice(rows, MOST_DEMAND_ROWS + 1))
        except csv.Error:
            return False
    return len(first) > MOST_DEMAND_ROWS or any(len(row) == 3 and _is_large(row[2]) for row in first)


def _lines(path: str) -> Iterator[list[bytes]]:
    """The lines of a log without their ends, in pieces. A carriage return may end a line, too."""
    rest = b""
    with open(path, "rb") as file:
        while block := file.read(BLOCK):
            *lines, rest = (rest + block).split(b"\n")
            yield lines
    yield [rest]


def _row_of(path: str, line: bytes) -> Asked:
    """A row with quotes. Octets of a handle that is quoted stay as they are."""
    fields: list[str] = next(csv.reader([line.decode("utf-8", "surrogateescape")]), [])
    if len(fields) != 3 or "\n" in fields[1] or "\r" in fields[1]:
        raise Unfit(
            f"{path}: a row of more than one line, as '{escaped(line.decode('utf-8', 'replace')[:60])}'; hsplan-stream "
            "plans it, hsp shows no such plan: take the row out"
        )
    field = io.StringIO()
    csv.writer(field, lineterminator="").writerow([fields[1]])
    handle = field.getvalue().encode("utf-8", "surrogateescape")
    return Asked(fields[0].encode(), handle, int(fields[2]))


def rows_of(path: str) -> Iterator[list[Asked]]:
    """The rows of a log that hsplan-stream takes, in pieces."""
    is_first = True
    for lines in _lines(path):
        found = []
        for line in itertools.chain.from_iterable(own.split(b"\r") if b"\r" in own else (own,) for own in lines):
            if is_first and line:
                is_first = False
            elif b'"' in line:
                found.append(_row_of(path, line))
            elif line:
                region, _, rest = line.partition(b",")
                handle, _, count = rest.rpartition(b",")
                found.append(Asked(region, handle, int(count)))
        yield found


def counted_in(path: str) -> Counted:
    number, sums = 0, Counter[bytes]()
    for rows in rows_of(path):
        number += len(rows)
        for region, _, queries in rows:
            sums[region] += queries
    return Counted(number, {region.decode(): queries for region, queries in sums.items()})


def row_text(row: Asked) -> bytes:
    return b"%b,%b,%d\n" % row


def grown(path: str, factor: Fraction, name: str | None = None) -> Iterator[bytes]:
    """The log with all queries, or those of one region or handle, times a factor, in pieces: each row has its part of
    the sum, so that only the whole is rounded up."""
    yield f"{HEADERS['demand']}\n".encode()
    own = name.encode() if name is not None else None
    before = after = 0
    for rows in rows_of(path):
        lines = []
        for row in rows:
            if own in (None, row.region, row.handle):
                before += row.queries
                row = row._replace(queries=times(before, factor) - after)
                after += row.queries
            lines.append(row_text(row))
        yield b"".join(lines)


def times(number: int, factor: Fraction) -> int:
    """The product, rounded up."""
    return -(-number * factor.numerator // factor.denominator)


def examples(rows: Iterable[Asked]) -> list[bytes]:
    """The handles of some rows, each once."""
    return list(dict.fromkeys(row.handle for row in rows))
