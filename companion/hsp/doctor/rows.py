"""Tables with the place of each row and field in their file."""

import csv
import functools
import io
from collections.abc import Iterable
from typing import NamedTuple

from hsp.doctor.findings import Place, Text


class Row(NamedTuple):
    """A row: the lines that it stands in, and its fields."""

    first: int
    last: int
    fields: list[str]


class Table:
    """The rows of a table below its header."""

    def __init__(self, text: Text) -> None:
        self.text = text
        self.header: list[str] = []
        self.rows: list[Row] = []
        csv.field_size_limit(1 << 30)
        reader = csv.reader(io.StringIO("\n".join(text.lines), newline=""))
        before = 0
        try:
            for fields in reader:
                if fields:
                    self.rows.append(Row(before + 1, reader.line_num, fields))
                before = reader.line_num
        except csv.Error:
            pass
        if self.rows:
            self.header = self.rows.pop(0).fields

    def place(self, row: Row, at: int, to: int = 0) -> Place:
        """Where a field stands, or all fields from one to another; the whole line where that can't be seen."""
        line = self.text.line(row.first)
        spans = spans_of(line)
        if len(spans) != len(row.fields) or at >= len(spans):
            return self.text.whole(row.first)
        start, end = spans[at][0], spans[max(at, to)][1]
        return self.text.part(row.first, start, end - start)

    def at_line(self, line: int) -> Row | None:
        return next((row for row in self.rows if row.first == line), None)

    def number(self, line: int) -> int:
        """How many rows stand before a line."""
        return sum(row.first < line for row in self.rows)

    def column(self, name: str) -> list[str]:
        """The fields of one column, of rows that have it."""
        at = self.header.index(name) if name in self.header else -1
        return [row.fields[at] for row in self.rows if 0 <= at < len(row.fields)]


@functools.lru_cache(maxsize=12)
def table_of(text: Text) -> Table:
    """The table of a text, which is read once for many questions."""
    return Table(text)


def spans_of(line: str) -> list[tuple[int, int]]:
    """Where the fields of a line begin and end, with their quotes."""
    spans, start, inside = [], 0, False
    for at, sign in enumerate(line):
        if sign == '"':
            inside = not inside
        elif sign == "," and not inside:
            spans.append((start, at))
            start = at + 1
    return [*spans, (start, len(line))]


def joined(fields: Iterable[str]) -> str:
    out = io.StringIO()
    csv.writer(out, lineterminator="").writerow(list(fields))
    return out.getvalue()


def columns_of(text: Text) -> list[dict[int, str]]:
    """The first two fields of the rows by their first lines, column by column."""
    rows = table_of(text).rows
    return [{row.first: row.fields[at] for row in rows if at < len(row.fields)} for at in (0, 1)]
