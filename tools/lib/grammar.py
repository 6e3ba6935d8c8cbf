"""What the sources of hsplan and hsplan-stream say of their commands, limits and headers."""

import re
from pathlib import Path
from typing import NamedTuple

from lib import programs

CRATES = Path(programs.TOP) / "crates"
# The files with limits: hsp_text has those of inputs and certificates, hsp_price_text two, the others one each.
LIMITS = ["hsp_text/src/limits.rt", "hsp_talk/src/limits.rt", "hsp_log/src/log_rows.rt", "hsp_price_text/src/ranges.rt"]
# The function that knows the headers of a command's log.
LOGS = {
    "dispatch": "hsp_log/src/form.rt fn entry_form",
    "fronts": "hsp_log/src/form.rt fn event_form",
    "places": "hsp_stream/src/handle_rows.rt fn form_of",
    "answer": "hsp_price_answers/src/asking.rt fn form_of",
    "check": "hsp_price_runs/src/log_pass.rt fn form_of",
    "report": "hsp_price_runs/src/log_pass.rt fn form_of",
}
TABLES = ("demand", "costs", "capacity")


class Option(NamedTuple):
    """An option: what stands behind it (FILE, N, or words between bars), and what that is."""

    name: str
    value: str
    meaning: str


class Command(NamedTuple):
    """A command of a program: the options that it needs, those that it may have, and what its last word is."""

    program: str
    name: str
    needed: list[str]
    optional: list[str]
    last: str

    @property
    def options(self) -> list[str]:
        return self.needed + self.optional


class Limit(NamedTuple):
    """A limit: its name, its number, and what its comment says."""

    name: str
    number: int
    meaning: str


class Unread(Exception):
    """A source isn't as this module reads it."""


def source(path: str) -> str:
    return (CRATES / path).read_text(encoding="utf-8")


def matched(pattern: str, text: str, what: str) -> list[re.Match[str]]:
    found = list(re.finditer(pattern, text, re.S | re.M))
    if not found:
        raise Unread(f"{what} can't be read by tools/lib/grammar.py")
    return found


def own_options() -> dict[str, dict[str, Option]]:
    """The options by their names, in the order of the comment in tables.rt: of each program what it has otherwise, and
    of no program those of both."""
    pattern = r"^// (?:([\w-]+) )?--(\w+) ([^\s:]+): ([^\n]*)$"
    found: dict[str, dict[str, Option]] = {}
    for line in matched(pattern, source("hsp_cli_orders/src/tables.rt"), "options of tables.rt"):
        found.setdefault(line[1] or "", {})[line[2]] = Option(line[2], line[3], line[4])
    return found


def options(program: str = "") -> dict[str, Option]:
    """All options by their names, as a program has them."""
    own = own_options()
    return own[""] | own.get(program, {})


def commands() -> list[Command]:
    """The commands of both programs, in the order of their tables."""
    tables = source("hsp_cli_orders/src/tables.rt")
    lists = {it[1]: it[2] for it in matched(r"^const (\w+): \[Argument.*?\] = \[(.*?)\];", tables, "inputs")}
    programs = matched(
        r'Command::new\(alloc, "([\w-]+)"\).*?&(\w+)\)', source("hsp_cli_orders/src/commands.rt"), "programs"
    )
    found = []
    for program in programs:
        own = matched(rf"^pub\(crate\) const {program[2]}: .*? = \[\n(.*?)^\];", tables, program[2])[0]
        for it in matched(r'name: "(\w+)",\s*inputs: &(\w+|\[.*?\]),\s*others: &\[(.*?)\],\s*\}', own[1], program[2]):
            found.append(_command(program[1], it[1], lists.get(it[2], it[2]) + it[3]))
    return found


def _command(program: str, name: str, arguments: str) -> Command:
    words = re.findall(r'(Needed|Optional|Word)\("(\w+)"\)', arguments)
    needed, optional, last = ([word for kind, word in words if kind == own] for own in ("Needed", "Optional", "Word"))
    unknown = set(needed + optional) - set(options())
    if unknown:
        raise Unread(f"tables.rt doesn't say what stands behind --{min(unknown)}")
    return Command(program, name, needed, optional, "".join(last))


def limits() -> list[Limit]:
    found = []
    for path in LIMITS:
        pattern = r"^((?:///?[^\n]*\n)+)pub(?:\(crate\))? const (\w+): \w+ = ([\d_]+);"
        for it in matched(pattern, source(path), path):
            found.append(Limit(it[2], int(it[3]), re.sub(r"\s*///?\s*", " ", it[1]).strip()))
    return found


def _fields(text: str) -> list[str]:
    return re.findall(r'b"(\w+)"', text)


def table_headers() -> dict[str, list[str]]:
    pattern = r"read_table::<\w+>\(\s*alloc,\s*text,\s*&\[(.*?)\]"
    paths = {kind: f"hsp_tables/src/{kind}.rt" for kind in TABLES}
    return {kind: _fields(matched(pattern, source(path), path)[0][1]) for kind, path in paths.items()}


def log_headers() -> dict[str, list[list[str]]]:
    """The headers that the log of each command may have, and of a dispatch for several fronts; `faults` reads all."""
    found = {command: _headers_in(*place.split(" fn ")) for command, place in LOGS.items()}
    every = [header for headers in found.values() for header in headers]
    return {**found, "faults": [header for at, header in enumerate(every) if header not in every[:at]]}


def _headers_in(path: str, function: str) -> list[list[str]]:
    """The headers that a function tells apart: lists of fields, or fields by their places."""
    body = matched(rf"fn {function}\(.*?\n\}}", source(path), path)[0][0]
    listed = re.findall(r"is_header\(record, &\[(.*?)\]\)", body)
    if listed:
        return [_fields(it) for it in listed]
    only = re.findall(r'only == b"(\w+)"', body)
    first, second = re.findall(r'first [!=]= b"(\w+)"', body), re.findall(r'second == b"(\w+)"', body)
    if not only + second or second and len(first) != 1:
        raise Unread(f"{path}: headers of {function} can't be read by tools/lib/grammar.py")
    return [[it] for it in only] + [[first[0], it] for it in second]


def name_signs() -> str:
    """The signs of a name, as they stand between the brackets of a regular expression."""
    body = matched(r"matches!\(octet, (.*?)\)", source("hsp_text/src/name.rt"), "the signs of a name")[0][1]
    ranges = "".join(f"{a}-{b}" for a, b in re.findall(r"b'(.)'\.\.=b'(.)'", body))
    single = re.findall(r"(?:^|\| )b'(.)'(?= \||$)", body)
    return ranges + "".join(sorted(single, key=lambda sign: sign == "-"))


def name_rule() -> str:
    """The same in words, which know these ranges only."""
    signs = name_signs()
    bare = signs.removeprefix("A-Za-z0-9")
    if bare == signs:
        raise Unread("the signs of a name have other ranges than tools/lib/grammar.py has words for")
    *first, last = (f"'{sign}'" for sign in sorted(bare, key="-_.".find))
    return f"a name has only ASCII letters, digits, {', '.join(first)} and {last}"
