"""Faulty rows of tables and logs, as `hsplan-stream faults` lists them: where, why, and what to do."""

import csv
import itertools
import re
import subprocess
import unicodedata
from collections.abc import Collection, Iterator
from dataclasses import dataclass, replace
from typing import NamedTuple
from urllib.parse import unquote

from hsp.base.grammar import (
    HEADERS,
    LOG_HEAD,
    LOG_HEADERS,
    LONGEST_HANDLE,
    LONGEST_NAME,
    MOST_LOG_REGIONS,
    NAME_RULE,
    NAME_SIGNS,
)
from hsp.base.numbers import listed, some
from hsp.base.paths import shell_word
from hsp.base.programs import program
from hsp.base.spelling import near
from hsp.doctor.findings import Finding, Place, Words, decoded, encoded, quoted
from hsp.doctor.numbers_advice import QUOTES, advice
from hsp.doctor.question import Draft, Mend, Question, Said, said_of
from hsp.doctor.rows import Row, joined, spans_of, table_of

NUMBERS = ("count", "cost", "capacity", "server_id", "front")
# So many faulty rows of a file are looked at.
MOST_FAULTY = 10_000
OPEN_QUOTE = "open quote"
LINE_END = re.compile(rb"[\r\n]")


class Explained(NamedTuple):
    """A finding, or none where it follows from an earlier one; and mended questions, the best first."""

    finding: Finding | None
    mended: Iterator[Question] | list[Question] = []
    # The next fault may not be of the same row, since then the mend was a wrong one.
    is_whole_row: bool = False
    # The same of further rows, which one mend helps too.
    more: list[Finding] = []


@dataclass(frozen=True)
class Faulty:
    """A row that hsplan refuses, in the copy that was asked about, with hsplan's words.

    `field` is the number of the field at fault, where it is one field's; `column` is where that one, or the row,
    begins in the row's first line.
    """

    draft: Draft
    table: str
    row: Row
    said: Said
    field: int | None = None
    column: int | None = None

    @property
    def fields(self) -> list[str]:
        return self.row.fields

    @property
    def header(self) -> list[str]:
        return HEADERS[self.table].split(",") if self.table in HEADERS else table_of(self.draft.text).header

    @property
    def path(self) -> str:
        return self.draft.original.path

    @property
    def line(self) -> str:
        """The first line of the row."""
        return self.draft.text.line(self.row.first)

    def place(self, at: int, to: int = 0) -> Place:
        """Where a field stands in the file as it was, or all fields from one to another."""
        original, number = self.draft.original, self.draft.number(self.row.first)
        if self.column is not None and at == (self.field or 0) and original.line(number) == self.line:
            spans = spans_of(self.line[self.column :])
            return original.part(number, self.column, spans[min(max(0, to - at), len(spans) - 1)][1])
        row = table_of(original).at_line(number)
        return table_of(original).place(row, at, to) if row and len(row.fields) == len(self.fields) else self.whole()

    def whole(self) -> Place:
        """The row's first line."""
        return self.draft.original.whole(self.draft.number(self.row.first))

    def with_field(self, text: str) -> str:
        """The row with another text in its faulty field."""
        return joined([text if number == self.field else field for number, field in enumerate(self.fields)])

    def words(self) -> str:
        """hsplan's words, with the number that the row has in the file as it was."""
        if self.draft.lines is None:
            return self.said.line
        number = table_of(self.draft.original).number(self.draft.number(self.row.first))
        return re.sub(r"row \d+", f"row {number}", self.said.line, count=1)


def faulty_rows(question: Question, table: str) -> Iterator[Faulty]:
    """The rows of a table or a log that hsplan refuses, as they are found."""
    command = [program("hsplan-stream"), "faults", f"--{table}={question.path(table)}"]
    with subprocess.Popen(command, stdin=subprocess.DEVNULL, stdout=subprocess.PIPE, text=True) as run:
        assert run.stdout
        every = itertools.islice(csv.reader(run.stdout), 1, MOST_FAULTY + 1)
        rows = (
            faulty for row in every if "row" in (faulty := _faulty(question.files[table], table, row)).said.numbers
        )
        yield from rows if table in HEADERS else with_reasons(question, list(rows))
        run.kill()


def with_reasons(question: Question, every: list[Faulty]) -> list[Faulty]:
    """The rows of a log, each bad handle with the reason that hsplan has: of a log it says none."""
    bad = {faulty.fields[faulty.field or 0] for faulty in every if faulty.said.word == "BadHandle"}
    asked = [handle for handle in bad if not re.search("[\n\r\0]", handle)]
    log = LOG_HEAD + b"".join(b"any,%b\n" % encoded(joined([handle, ""])[:-1]) for handle in asked)
    answers = question.programs.answers_without_sites(log, len(asked)) if asked else []
    why = {handle: answer.split()[-1] for handle, answer in zip(asked, answers)}
    return [
        replace(faulty, said=replace(faulty.said, detail=why.get(faulty.fields[faulty.field or 0], "NoSlash")))
        if faulty.said.word == "BadHandle"
        else faulty
        for faulty in every
    ]


def _faulty(draft: Draft, table: str, listed_row: list[str]) -> Faulty:
    _, line, field, octet, words = listed_row
    octets, number, at = draft.text.octets, int(field) if field else None, int(octet)
    begin, end = max(octets.rfind(b"\n", 0, at), octets.rfind(b"\r", 0, at)) + 1, LINE_END.search(octets, at)
    column = len(decoded(octets[begin:at]))
    row = row_at(draft, int(line))
    is_there = draft.text.line(row.first) == decoded(octets[begin : end.start() if end else None])
    return Faulty(draft, table, row, said_of(1, words), number, column if is_there else None)


def row_at(draft: Draft, first: int) -> Row:
    lines = draft.text.lines
    reader = csv.reader(f"{line}\n" for line in itertools.islice(lines, first - 1, len(lines) - (not lines[-1])))
    fields: list[str] = next(reader, [])
    return Row(first, first - 1 + reader.line_num, fields)


def numbered_row(question: Question, table: str, said: Said) -> Faulty | None:
    """The row of a number that hsplan says, of tables that are read together or of a log that one command refuses."""
    rows, number = table_of(question.text(table)).rows, said.numbers["row"]
    return Faulty(question.files[table], table, rows[number], said) if number < len(rows) else None


def bad_number(faulty: Faulty) -> Words:
    fields, header = faulty.fields, faulty.header
    at = faulty.field or 0
    name = header[at]
    advised = advice(fields[at], name, faulty.table == "log")
    message, group = (
        f"{name} {quoted(fields[at], 30)} isn't a whole number within its limit",
        f"BadNumber {name} {advised.why}",
    )
    mended = None if name == "server_id" else faulty.with_field(advised.mended)
    words = Words(message, advised.remedy, advised.why, group=group, mended=mended)
    others = [field for column, field in zip(header, fields) if column not in NUMBERS]
    if not re.search(r"[0-9]", fields[at]) and any(re.fullmatch(r"[0-9]+", field) for field in others):
        why = "digits stand in another column, so the columns may be in another order"
        words = Words(message, f"put the columns in the order {','.join(header)}", why, group=group, mended=mended)
    if advised.why.startswith("a blank") and all(other.startswith(" ") for other in fields[1:]):
        remedy = f"{advised.remedy}; in the whole table: sed 's/, */,/g' {shell_word(faulty.path)} > plain.csv"
        words = replace(words, remedy=remedy)
    if name == "server_id" and not fields[at].strip().isdigit():
        remedy = "write the identifier of the server, as hsplan site prints it"
        remedy += "" if fields[at].strip() else "; or take the row out, if it is a sum"
        remedy += "; a row for each server, as no sign stands for all" if fields[at].strip() == "*" else ""
        words = replace(words, remedy=remedy)
    return words


def slug(name: str) -> str:
    """A name that is like another, of letters, digits, hyphen, underscore and point."""
    plain = unicodedata.normalize("NFKD", name).encode("ascii", "ignore").decode().strip()
    return re.sub(f"[^{NAME_SIGNS}]+", "-", plain).strip("-")[:LONGEST_NAME]


def bad_name(faulty: Faulty, names: dict[int, str]) -> Words:
    """A name of a region or a site; `names` are those of its column by their lines, mended up to this row."""
    fields = faulty.fields
    name, field = faulty.header[faulty.field or 0], fields[faulty.field or 0]
    if not "".join(fields).strip():
        return Words(
            "a row of commas only", "take the line out", "an empty row of a spreadsheet", group="BadName empty"
        )
    known = [other for other in names.values() if other and slug(other) == other]
    meant = near(field, set(known), 0.8) or slug(field) or ("eu" if name == "region" else "paris")
    why, remedy = NAME_RULE, f"write {meant}"
    if not field:
        why, remedy = f"the {name} is empty", f"write the name of the {name}, as {known[0] if known else meant}"
    elif field.strip() == meant and field != meant:
        why = "a blank beside the name"
    elif field.strip(QUOTES) == meant and field != meant:
        why = "other quotes than those of a table"
    elif len(field) > LONGEST_NAME:
        why = f"{len(field)} letters; a name has at most {LONGEST_NAME}"
    elif "/" in field:
        why, remedy = "this looks like a handle", f"put the columns in the order {','.join(faulty.header)}"
    group = f"BadName {name} /" if "/" in field else f"BadName {name} {field}"
    names[faulty.row.first] = meant
    return Words(f"{name} {quoted(field)} isn't a name", remedy, why, group=group, mended=faulty.with_field(meant))


def handle_words(handle: str, detail: str, path: str) -> Words:
    """What is said of a field that is no handle, for hsplan's reason."""
    shown, group = quoted(handle), f"BadHandle {detail}"
    if detail == "NotUtf8":
        octets = handle.encode("utf-8", "surrogateescape")
        meant = octets.decode("cp1252", "replace")
        remedy = f"iconv -f windows-1252 -t utf-8 {shell_word(path)} > utf8.csv"
        return Words(
            f"the handle isn't UTF-8; likely '{meant}'", remedy, "a file in Latin-1 or Windows-1252", group=group
        )
    if detail == "TooLong":
        size = len(handle.encode("utf-8", "surrogateescape"))
        why = f"{size:,} octets; a handle has at most {LONGEST_HANDLE:,}"
        return Words(
            f"{quoted(handle, 30)} is too long", "put the handle here: an open quote may join lines", why, group=group
        )
    if detail == "EmptySegment":
        meant = re.sub(r"\.{2,}", ".", handle).strip("./ ")
        remedy = f"write {meant}" if "/" in meant else "write prefix, '/', suffix, as 20.500.1234/report-2024"
        why = "the prefix before '/' is empty, or has an empty part"
        return Words(f"{shown} isn't a handle", remedy, why, group=group)
    if "/" in unquote(handle):
        return Words(f"{shown} isn't a handle", f"write {unquote(handle)}", "its '/' is percent-encoded", group=group)
    if "\\" in handle:
        meant = handle.replace("\\", "/", 1)
        return Words(f"{shown} isn't a handle", f"write {meant}", "a backslash in place of '/'", group=group)
    if not handle.strip():
        return Words("the handle is empty", "write a handle, or take the row out", "an empty field", group=group)
    why = "a handle is a prefix, '/' and a suffix; here is no '/'"
    remedy = f"write the suffix too, as {handle.strip()}/report-2024"
    # A prefix begins with a number, as 20.500.1234 and 21.T11998 do.
    if not re.fullmatch(r"\s*[0-9]+(\.[0-9A-Za-z]+)*\s*", handle):
        remedy = f"write the prefix too, as 20.500.1234/{handle.strip()[:40]}; or are the columns in another order?"
    return Words(f"{shown} isn't a handle", remedy, why, group=group)


def bad_handle(faulty: Faulty) -> Words:
    fields, at = faulty.fields, faulty.field or 0
    handle = fields[at]
    words = handle_words(handle, faulty.said.detail, faulty.path)
    if not handle and fields[0].lower() in ("total", "sum", "all", ""):
        words = replace(words, why="a row of sums, as spreadsheets have them", remedy="take the line out")
    slashed = [field for number, field in enumerate(fields) if "/" in field and number != at]
    if "/" not in handle and slashed:
        remedy = f"put the columns in the order {','.join(faulty.header)}"
        words = Words(words.message, remedy, f"{quoted(slashed[0], 30)} looks like the handle", group=words.group)
    return replace(words, mended=faulty.with_field(f"20.500.1234/mended-{faulty.row.first}"))


def _number_with_commas(faulty: Faulty) -> Words | None:
    """A number with a comma in it, at the end of a row that has fields too many."""
    want = len(faulty.header)
    kept, more = faulty.fields[: want - 1], faulty.fields[want - 1 :]
    if faulty.header[-1] not in NUMBERS[:3] or not all(re.fullmatch(r" ?[0-9]+", part) for part in more):
        return None
    bare = [part.strip() for part in more]
    if all(len(part) == 3 for part in bare[1:]) and len(bare[0]) <= 3:
        number = "".join(bare)
        return _written("a separator of thousands in the number", joined([*kept, number]), f"write {number}")
    if len(more) == 2:
        number = str(round(float(".".join(bare))))
        remedy = f"write {number}, or take a smaller unit in the whole table"
        return _written("a decimal comma; every number is whole", joined([*kept, number]), remedy)
    return None


def _written(why: str, text: str, remedy: str = "") -> Words:
    """What is said of a row that should be another text."""
    return Words("", remedy or f"write {text[:60]}", why, mended=text)


def _too_many(faulty: Faulty) -> Words:
    fields, header = faulty.fields, faulty.header
    want = len(header)
    if numbers := _number_with_commas(faulty):
        return numbers
    if not "".join(fields[want:]).strip():
        text = joined(fields[:want])
        return _written("a comma at the end", text, f"write {text}")
    without = [field for field in fields if field.strip()]
    if len(without) == want:
        return _written("a comma twice", joined(without), f"write {joined(without)}")
    number = re.match(r"([0-9]+)[A-Za-z][\w.-]*$", fields[want - 1])
    if number and faulty.table in HEADERS and len(fields) == 2 * want - 1:
        second = joined([fields[want - 1][number.end(1) :], *fields[want:]])
        first = joined([*fields[: want - 1], number[1]])
        why, remedy = "two rows in one line: a line end is lost", f"begin a new line before {second}"
        return _written(why, f"{first}\n{second}", remedy)
    if "handle" in header:
        at = header.index("handle")
        end = len(fields) - (want - at - 1)
        text = ",".join([*fields[:at], joined([",".join(fields[at:end]), ""])[:-1], *fields[end:]])
        if "/" in "".join(fields[at:end]):
            return _written("a comma within the handle", text, f"put quotes about the handle: {text}")
    remedy = f"take out what is too much: a row is {','.join(header)}"
    return _written("a column too many", joined(fields[:want]), remedy)


def _too_few(faulty: Faulty) -> Words:
    fields, order, want, whole = faulty.fields, ",".join(faulty.header), len(faulty.header), faulty.line
    if whole.lstrip().startswith(("#", "//")):
        return Words("", "take the line out", "a comment; tables have none")
    for sign, name in ((";", "semicolons"), ("\t", "tabs"), ("|", "bars")):
        if whole.count(sign) >= want - 1:
            return _written(f"{name} in place of commas", whole.replace(sign, ","))
    text = re.sub("[;|\t]", ",", whole)
    if text != whole and len(spans_of(text)) == want:
        return _written("another separator than a comma", text)
    if whole.count('"') % 2:
        text = whole.replace('"', "")
        return _written("a quote that isn't closed", text, f"close the quote, or write {text[:60]}")
    if len(whole.split()) == want:
        return _written("blanks in place of commas", ",".join(word.strip(",;") for word in whole.split()))
    if re.match(r"(<{7}|={7}|>{7})", whole):
        return Words("", "keep the lines of one side, and take the marks out", "a mark of a merge")
    if len(fields) == 1:
        return Words("", f"take the line out, or write all of {order}", "not a row: a note, or a line that was cut")
    why = f"a field is missing, or the line was cut; likely {listed(faulty.header[len(fields) :])}"
    return Words("", f"write all of {order}", why)


def bad_fields(faulty: Faulty) -> Words:
    fields, want = faulty.fields, len(faulty.header)
    advised = _too_many(faulty) if len(fields) > want else _too_few(faulty)
    message = f"{some(len(fields), 'field')} in place of {want} ({','.join(faulty.header)})"
    return replace(advised, message=message, group=f"Fields {advised.why}")


def alike(faulty: Faulty, at: int) -> list[Faulty]:
    """A row and those below it with the same text in a field, each with the words that hsplan would have for it."""
    return [
        replace(faulty, row=row, said=replace(faulty.said, line=re.sub(r"row \d+", f"row {number}", faulty.said.line)))
        for number, row in enumerate(table_of(faulty.draft.text).rows)
        if row.first >= faulty.row.first and row.fields[at : at + 1] == faulty.fields[at : at + 1]
    ]


def _place_of_fields(faulty: Faulty) -> Place:
    """What a row has too much, from its last column on; otherwise the line."""
    line, want, number = faulty.line, len(faulty.header), faulty.draft.number(faulty.row.first)
    spans = spans_of(line)
    is_as_it_was = faulty.draft.original.line(number) == line
    if is_as_it_was and len(spans) == len(faulty.fields) > want:
        start = spans[want - 1][0]
        return faulty.draft.original.part(number, start, len(line) - start)
    return faulty.whole()


def row_twice(faulty: Faulty, others: Collection[int]) -> Words:
    """A row whose key an earlier one has; `others` are the lines of faulty ones."""
    fields, rows = faulty.fields, table_of(faulty.draft.text).rows
    first = next(row for row in rows if row.fields[:2] == fields[:2] and row.first not in others)
    key = " and ".join(quoted(field, 40) for field in fields[:2])
    line = faulty.draft.number(first.first)
    mark = f"first in line {line}: {','.join(first.fields)[:60]}"
    why, remedy = "two tables joined, or a copied line", "keep one of the two lines"
    if faulty.table == "demand":
        why = "a log that isn't added up, or two tables joined"
        total = int(first.fields[2]) + int(fields[2])
        remedy = f"write one row for both, with the sum {total}"
        if first.fields == fields:
            remedy = f"take one of them out; or write one row with the sum {total}, if both were counted"
    elif first.fields != fields:
        remedy = f"keep the right one: line {line} says {first.fields[-1]}, this line {fields[-1]}"
    return Words(f"{key} stand twice", remedy, why, mark, f"RowTwice {why}")


def open_quote(faulty: Faulty) -> tuple[Words, Place] | None:
    """A quote that isn't closed in its line, so that the lines below it belong to its row."""
    row, line, number = faulty.row, faulty.line, faulty.draft.number
    if row.last == row.first or line.count('"') % 2 == 0:
        return None
    at = line.index('"', spans_of(line)[-1][0])
    why = f"it makes one row of the lines {number(row.first)} to {number(row.last)}"
    remedy, mended = "take the quote out, or close it behind its field", line[:at] + line[at + 1 :]
    words = Words("a quote isn't closed in its line", remedy, why, group=OPEN_QUOTE, mended=mended)
    return words, faulty.draft.original.part(number(row.first), at, 1)


def said_of_row(faulty: Faulty, names: dict[int, str], others: Collection[int]) -> tuple[Words, Place] | None:
    """What is said of a faulty row, and where. `names` are those of its column, `others` lines of faulty rows."""
    word = faulty.said.word
    if faulty.fields == faulty.header:
        return Words("the header stands among the rows", "take the line out", "two tables joined"), faulty.whole()
    if quote := open_quote(faulty):
        return quote
    if word == "Fields":
        return bad_fields(faulty), _place_of_fields(faulty)
    if word == "RowTwice":
        return row_twice(faulty, others), faulty.place(0, 1)
    if word == "BadName":
        words = bad_name(faulty, names)
        return words, faulty.place(faulty.field or 0) if words.mended else faulty.whole()
    return (ROWS[word](faulty), faulty.place(faulty.field or 0)) if word in ROWS else None


def _body_words(body: str) -> tuple[str, str]:
    """Why the body of a request can't be read, and what to do."""
    if re.search(r"\s", body.strip()) and re.fullmatch(r"[0-9A-Fa-f\s:]+", body):
        return "blanks between the digits", "take them out"
    if re.fullmatch(r"[0-9A-Fa-f]+", body):
        why = "an odd number of digits" if len(body) % 2 else "these octets aren't the body of a resolution request"
        return why, "write only the body, without the envelope and the header of the message"
    if re.fullmatch(r"[A-Za-z0-9+/]{16,}=*", body):
        return "base64 in place of hexadecimal digits", "write the octets as hexadecimal digits: base64 -d | xxd -p"
    return "signs that aren't hexadecimal digits", "write the octets of the body as hexadecimal digits"


def bad_body(faulty: Faulty) -> Words:
    body = faulty.fields[-1]
    why, remedy = _body_words(body)
    return Words(f"{quoted(body, 30)} isn't the body of a request", remedy, why, group=f"BadBody {why}")


def bad_front(faulty: Faulty) -> Words:
    why = "columns in another order, or a name"
    remedy = f"write the number of the front, from 0 on: {LOG_HEADERS['fronts'][0]}"
    return Words(f"front {quoted(faulty.fields[0], 20)} isn't a number", remedy, why, group=f"BadFront {why}")


def too_many_regions(faulty: Faulty) -> Words:
    why, remedy = (
        "a region for each network or country",
        f"join networks under at most {MOST_LOG_REGIONS:,} names of regions",
    )
    message = f"{quoted(faulty.fields[0])} is the {MOST_LOG_REGIONS + 1:,}th region"
    return Words(message, remedy, why, group=f"TooManyRegions {why}")


def mend_of(faulty: Faulty, about: tuple[Words, Place] | None) -> Mend:
    """What stands in a copy in place of a faulty row. Where a quote is taken out, the lines below it are rows again."""
    row, is_open = faulty.row, about is not None and about[0].group == OPEN_QUOTE
    return Mend(row, row.first if is_open else row.last, about[0].mended if about else None)


ROWS = {
    "BadNumber": bad_number,
    "BadHandle": bad_handle,
    "BadBody": bad_body,
    "BadFront": bad_front,
    "TooManyRegions": too_many_regions,
}
