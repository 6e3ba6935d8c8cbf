"""What a command of hsplan accepts and people seldom mean: its handle, its inputs, and the rows of its log."""

import os
from collections import defaultdict
from collections.abc import Iterator

from hsp.base.numbers import some
from hsp.base.programs import Inputs
from hsp.base.spelling import near
from hsp.base.unfit import Unfit
from hsp.doctor.commands import Line, split
from hsp.doctor.doubts import bare, doubts, handle_words
from hsp.doctor.findings import WARNING, Finding, Place, Text, Words, found, quoted
from hsp.doctor.question import Question
from hsp.doctor.rows import Row, Table, table_of
from hsp.plans.service import NAMES, Service, Titles, service_of, titles_in

# A log may be long: so many octets of it are looked at.
LOOKED_AT = 1 << 20


def of_handle(line: Line) -> Iterator[Finding]:
    """A handle among the words that isn't bare."""
    for word in split(line)[1] if line.takes.last == "handle" else []:
        message, group = handle_words(word.text)
        if message:
            place = Place(1, word.column + 1, len(word.text), line.text)
            why = "other octets are hashed, so another server may be named"
            yield found("", place, Words(message, f"write {bare(word.text)}", why, "", f"handle {group}"), "", WARNING)


def service_in(question: Question) -> Service | None:
    """The service of the four files of a plan, with their numbers as they are. Pipes can't be read once more."""
    files = {role: draft.original.path for role, draft in question.files.items() if not draft.copy}
    if not set(NAMES) <= set(files):
        return None
    folder = os.path.dirname(files["settings"]) or "."
    inputs = Inputs(files["settings"], files["demand"], files["costs"], files["capacity"], files.get("values"))
    try:
        titles = titles_in(folder, None, None)
    except Unfit:  # of a broken hsp.toml, which no command of hsplan reads
        titles = Titles(folder)
    return service_of(folder, question.programs, inputs, titles)


def of_log(question: Question) -> Iterator[Finding]:
    """Rows of a log that are answered `unknown`: their region or their handle is spelt otherwise in the demand."""
    if question.command != "dispatch":
        return
    demand, text = table_of(question.text("demand")), question.text("log")
    is_long = len(text.octets) > LOOKED_AT
    log = Table(Text(text.path, text.octets[:LOOKED_AT].rpartition(b"\n")[0]) if is_long else text)
    if "region" in log.header:
        yield from _of_regions(log, log.header.index("region"), set(demand.column("region")))
    if "handle" in log.header:
        yield from _of_handles(log, log.header.index("handle"), demand.column("handle"))
        yield from _of_absent(log, log.header.index("handle"), {(row.fields[0], row.fields[1]) for row in demand.rows})


def _of_regions(log: Table, at: int, regions: set[str]) -> Iterator[Finding]:
    rows: dict[str, list[Row]] = defaultdict(list)
    for row in log.rows:
        if len(row.fields) > at and row.fields[at] not in regions:
            rows[row.fields[at]].append(row)
    for region, own in rows.items():
        meant = near(region, regions)
        words = Words(
            f"the demand has no region {quoted(region)}",
            f"write {meant}" if meant else "mend the name, or count the region in the demand, and plan again",
            f"{len(own):,} of the first {some(len(log.rows), 'row')} can only be answered 'unknown'",
            f"did you mean {meant}?" if meant else "",
            f"log region {region}",
        )
        yield found(log.text.path, log.place(own[0], at), words, "", WARNING)


def _of_handles(log: Table, at: int, handles: list[str]) -> Iterator[Finding]:
    """Handles that the demand has in another case of letters, or bare."""
    known, folded = set(handles), {own.casefold(): own for own in handles}
    looked: set[str] = set()
    for row in log.rows:
        handle = row.fields[at] if len(row.fields) > at else ""
        meant = "" if handle in known or handle in looked else folded.get(bare(handle).casefold(), "")
        looked.add(handle)
        if meant:
            why = "to dispatch these are two handles, and the row of the log is 'unknown'"
            words = Words(f"the demand spells {quoted(handle)} otherwise", f"write {meant}", why, "", "log handle")
            yield found(log.text.path, log.place(row, at), words, "", WARNING)


def _of_absent(log: Table, at: int, pairs: set[tuple[str, str]]) -> Iterator[Finding]:
    """A log of which half or more is in no row of the demand, though its regions are."""
    regions = {region for region, _ in pairs}
    known = [row for row in log.rows if len(row.fields) > at and row.fields[at - 1] in regions]
    absent = [row for row in known if (row.fields[at - 1], row.fields[at]) not in pairs]
    if not 0 < len(log.rows) <= len(absent) * 2:
        return
    words = Words(
        f"{len(absent):,} of the first {some(len(log.rows), 'row')} of the log are in no row of the demand",
        "count the demand from this log, and plan again; or hsplan-stream answers any handle by prices",
        "a demand of another log: dispatch finds a row by its region and its handle",
    )
    yield found(log.text.path, log.place(absent[0], at), words, "", WARNING)


def word_doubts(question: Question, line: Line) -> list[Finding]:
    """All that is accepted and seldom meant, where a command has no fault."""
    service = service_in(question)
    of_files = doubts(service, question.programs, of_folder=False) if service else []
    return [*of_handle(line), *of_files, *of_log(question)]
