"""Faults of a table as a whole: its first line, and how many rows it has."""

import gzip
import re
import zlib
from typing import NamedTuple

from hsp.base.grammar import HEADERS, LOG_HEADERS, MOST_LOG_ROWS, MOST_REGIONS
from hsp.base.numbers import listed
from hsp.base.paths import shell_word
from hsp.base.spelling import near
from hsp.doctor.findings import Finding, Place, Text, Words, decoded, found
from hsp.doctor.question import ORDER, Question, Said
from hsp.doctor.rows import table_of
from hsp.doctor.table_faults import Explained


class Cause(NamedTuple):
    """Why a first line is no header, what to do, and the text of a mended copy with the lines put above."""

    why: str
    remedy: str
    text: str | None = None
    above: int = 0


def headers_of(question: Question, role: str) -> list[str]:
    if role != "log":
        return [HEADERS[role]]
    if question.command == "dispatch" and any(option.startswith("--fronts") for option in question.options):
        return list(LOG_HEADERS["fronts"])
    return list(LOG_HEADERS.get(question.command, LOG_HEADERS["dispatch"][:1]))


def _of_octets(text: Text) -> Cause | None:
    """A file that is packed, or in another encoding."""
    octets = text.octets
    if octets[:2] in (b"\xff\xfe", b"\xfe\xff"):
        remedy = f"iconv -f utf-16 -t utf-8 {shell_word(text.path)} > utf8.csv"
        return Cause("a file in UTF-16, as programs of Windows write", remedy, octets.decode("utf-16", "replace"))
    if octets[:2] == b"\x1f\x8b":
        try:
            plain = decoded(gzip.decompress(octets))
        except (OSError, EOFError, zlib.error):
            plain = None
        return Cause("a packed file", f"gunzip < {shell_word(text.path)} > plain.csv", plain)
    if octets[:4] == b"PK\x03\x04":
        return Cause("a file of a spreadsheet program", "save it as CSV, with commas, in UTF-8")
    if octets[:5] == b"%PDF-" or b"\x00" in octets[:100]:
        return Cause("no text", "save the table as CSV, in UTF-8")
    return None


def _of_whole(text: Text, wanted: list[str]) -> Cause | None:
    """Another separator in the whole table."""
    first, want = text.line(1), wanted[0]
    for sign, name, way in ((";", "semicolons", "tr ';' ,"), ("\t", "tabs", r"tr '\t' ,"), ("|", "bars", "tr '|' ,")):
        if first.replace(sign, ",") == want:
            plain = "\n".join(line.replace(sign, ",") for line in text.lines)
            return Cause(f"{name} in place of commas", f"{way} < {shell_word(text.path)} > commas.csv", plain)
    bare = re.sub(r"\s*,\s*", ",", first.strip())
    if bare in wanted and first != bare:
        plain = "\n".join(re.sub(r" *, *", ",", line.strip()) for line in text.lines)
        why = "blanks beside the commas"
        return Cause(why, f"sed 's/ *, */,/g; s/^ *//; s/ *$//' {shell_word(text.path)} > plain.csv", plain)
    return None


def _of_names(text: Text, wanted: list[str]) -> Cause | None:
    """The names of the columns in another case or order, or of another file."""
    first, want = text.line(1), wanted[0]
    names = [name.strip().strip('"') for name in first.split(",")]
    mended = "\n".join([want, *text.lines[1:]])
    if first == LOG_HEADERS["dispatch"][0] and want == HEADERS["demand"]:
        remedy = "write a row for each region and handle, with its count; or hsplan-stream plan takes the log as it is"
        return Cause("this is a log, whose rows aren't counted yet", remedy)
    if first.casefold() in wanted or ",".join(names).casefold() in wanted:
        return Cause("another case of letters", f"write {want}", mended)
    for other in wanted:
        if sorted(names) == sorted(other.split(",")):
            return Cause("the columns are in another order", f"put the columns in the order {other}, in each row")
    for role, header in HEADERS.items():
        if names == header.split(","):
            return Cause(f"this is a table of {role}", f"give the right file: its first line is {want}")
    if "site" in want and re.match(r"\s*\[\[?site|.*record\s*=", first):
        return Cause("these are settings", f"give the right file: its first line is {want}")
    if re.match(r"\s*(\[\[|name\s*=)", first):
        return Cause("this is a file of settings", f"give the right file: its first line is {want}")
    if len(names) == len(want.split(",")) and all(name.replace("_", "").isalpha() for name in names):
        remedy = f"write {want} in place of it, if these are its columns"
        return Cause("other names of columns", remedy, mended)
    if set(want.split(",")) < set(names):
        return Cause("columns too many", f"keep only {want}, in each row")
    return None


def _of_matrix(text: Text, wanted: list[str]) -> Cause | None:
    """Costs with a column for each site."""
    rows = [line.split(",") for line in text.lines if line.strip()]
    head, rows = rows[0], rows[1:]
    are_costs = all(len(row) == len(head) and all(re.fullmatch("[0-9]*", own) for own in row[1:]) for row in rows)
    if wanted[0] != HEADERS["costs"] or len(head) < 3 or not rows or not are_costs:
        return None
    turned = [f"{row[0]},{site},{cost}" for row in rows for site, cost in zip(head[1:], row[1:]) if cost]
    way = f"""awk -F, 'NR == 1 {{split($0, s); print "{wanted[0]}"; next}} """
    way += """{for (i = 2; i <= NF; i++) if ($i != "") print $1 "," s[i] "," $i}'"""
    remedy = f"{way} {shell_word(text.path)} > turned.csv"
    return Cause("a matrix, with a column for each site", remedy, "\n".join([wanted[0], *turned, ""]))


def _of_fronts(first: str, wanted: list[str]) -> Cause | None:
    """A log with a column of fronts where none is wanted, or the other way round."""
    if f"front,{first}" in wanted:
        remedy = f"put the number of the front before each row, and write front,{first}; or leave --fronts out"
        return Cause("a log for --fronts has a column more", remedy)
    if first.startswith("front,") and first.removeprefix("front,") in wanted:
        given = "" if HEADERS["demand"] in wanted else "give --fronts N too, or "
        return Cause("a log of several fronts", f"{given}take the first column out")
    return None


def _of_access(first: str) -> Cause | None:
    if re.search(r'"(GET|HEAD|POST|PUT) ', first):
        remedy = f"hsp demand makes a table of its queries; a log for hsplan has the rows {LOG_HEADERS['dispatch'][0]}"
        return Cause("the access log of a proxy", remedy)
    return None


def cause_of(text: Text, wanted: list[str]) -> Cause:
    """The likeliest cause of a first line that is no header."""
    found_one = _of_octets(text)
    if found_one:
        return found_one
    first, want = text.line(1), wanted[0]
    plain = "\n".join(text.lines)
    if not plain.strip():
        return Cause("the file is empty", f"write {want}, and a row for each entry below it", want + "\n")
    at = next((place for place, line in enumerate(text.lines) if line.strip()), 0)
    if first.lstrip().startswith(("#", "//", "sep=")):
        return Cause(
            "a note above the header; tables have none", "take the line out", "\n".join(["", *text.lines[1:]])
        )
    if not first.strip() and text.lines[at] in wanted:
        return Cause("blanks above the header", "take the lines out", "\n".join([""] * at + text.lines[at:]))
    found_one = _of_fronts(first, wanted) or _of_access(first) or _of_whole(text, wanted)
    found_one = found_one or _of_matrix(text, wanted) or _of_names(text, wanted)
    if found_one:
        return found_one
    names = [name.strip() for name in first.split(",")]
    lacking = [name for name in want.split(",") if name not in names]
    if len(names) > 1 and lacking and set(names) < set(want.split(",")):
        return Cause("a column is missing", f"add the column {listed(lacking)} to the first line, and to each row")
    meant = near(first, wanted, 0.65)
    if meant:
        return Cause("a header that is misspelt", f"write {meant}", "\n".join([meant, *text.lines[1:]]))
    if len(first.split(",")) == len(want.split(",")) and re.search(r"[0-9/]", first):
        return Cause("the header is missing", f"put {want} above the first line", f"{want}\n{plain}", 1)
    for number, line in enumerate(text.lines[:20]):
        if line in wanted:
            rest = "\n".join([""] * number + text.lines[number:])
            return Cause("lines above the header", f"take out what stands above {want}", rest)
    return Cause("other columns, or another file", f"write {want} as the first line, and such rows below it", None)


def _of_pipes(question: Question, role: str) -> Cause | None:
    """A pipe that stands for two files, and was read to its end for the first."""
    draft = question.files[role]
    others = [other for other in ORDER if other in question.files and other != role]
    same = next((other for other in others if question.files[other].original.path == draft.original.path), "")
    if not same or not draft.copy or draft.original.octets:
        return None
    return Cause(f"a pipe is read once, and --{same} has it too", f"give a file behind --{same} or --{role}")


def header_fault(question: Question, role: str, said: Said) -> Explained:
    draft = question.files[role]
    text, wanted = draft.text, headers_of(question, role)
    cause = _of_pipes(question, role) or cause_of(text, wanted)
    what = "a log for this command" if role == "log" else role
    first = text.line(1)
    place = Place(1, 1, max(1, len(first)), first) if first.replace("\t", "").isprintable() else Place(1, 1, 1, "")
    want = listed(wanted, 3).replace(" and ", " or ")
    words = Words(f"the first line isn't the header of {what}", cause.remedy, cause.why, f"wanted: {want}")
    mended = [] if cause.text is None else [question.with_file(role, draft.with_text(cause.text, cause.above))]
    return Explained(found(draft.original.path, place, words, said.line), [*mended, question.with_stand_in(role)])


def too_many(question: Question, role: str, said: Said) -> Explained:
    """A table with more rows or regions than hsplan takes."""
    draft = question.files[role]
    table = table_of(draft.text)
    if said.word == "TooManyRows":
        message = f"{len(table.rows):,} rows; the table has more than hsplan takes"
        why = "a row for each handle of a large service, or two tables joined"
        remedy = "hsplan-stream plan takes it as a log of any length, and plans by prices"
        if role != "demand":
            remedy = "keep one row for each pair; take rows of sites or regions out that aren't used"
        place = draft.original.whole(draft.number(table.rows[-1].first)) if table.rows else Place()
    else:
        first: dict[str, int] = {}
        for row in table.rows:
            first.setdefault(row.fields[0], row.first)
        lines = sorted(first.values())
        message = f"{len(first):,} regions; hsplan takes {MOST_REGIONS}"
        why = "a region for each network or country"
        remedy = "join regions whose costs are equal under one name, in demand and costs"
        place = draft.original.whole(draft.number(lines[MOST_REGIONS] if len(lines) > MOST_REGIONS else 2))
    words = Words(message, remedy, why)
    return Explained(found(draft.original.path, place, words, said.line), [question.with_stand_in(role)])


def log_too_long(question: Question, said: Said) -> Finding:
    message, why = "the log has more rows than dispatch takes", f"each run of dispatch takes {MOST_LOG_ROWS:,} rows"
    words = Words(message, "hsplan-stream answer takes a log of any length, by prices; or cut the log in parts", why)
    return found(question.files["log"].original.path, Place(), words, said.line)
