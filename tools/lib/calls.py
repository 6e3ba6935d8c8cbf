"""The calls of the crates: what they say of themselves, the clauses of their contracts, and the edits that turn them."""

import glob
import os
import re
from typing import Iterator, NamedTuple

from lib import programs

HEAD = re.compile(r"^(?P<indent>(?:    )?)(?P<public>pub )?(?:pub\([a-z]+\) )?(?:const |final )*fn (?P<name>\w+)")
HOLDS = re.compile(r"^(?:pub )?(?P<kind>impl|trait)(?:<[^{]*?>)? (?P<rest>.*?)\s*(?:where.*)?\{?$")
ITEM = re.compile(r"^(?:pub(?:\(\w+\))? )?(?:const|static) (?P<name>\w+)")
# What a talk asks of who answers in it, and a pass over a log of what takes its rows.
IN_TALKS = ("take", "take_query", "take_row", "sums")
USE = re.compile(r"^\s*ghost use Rattle\.(?P<crate>hsp\w+|hsplan)\.specs\.(?P<module>[\w.]+)\.\{(?P<names>[^}]*)\}")


class Clause(NamedTuple):
    """An `ensures` clause: its label ('' where it has none), and the definitions of this repository that it cites,
    each with its file below crates."""

    label: str
    cited: tuple[str, ...]
    files: tuple[str, ...]


class Function(NamedTuple):
    """A function, or a constant, of a crate: where it stands, what it says of itself, and what its body names."""

    name: str
    owner: str
    file: str
    lines: tuple[int, int]
    is_public: bool
    lacks_errors: bool
    doc: str
    clauses: tuple[Clause, ...]
    body: str

    def called(self) -> str:
        return f"{self.owner}::{self.name}" if self.owner else self.name


def read(path: str) -> list[str]:
    with open(path, encoding="utf-8") as file:
        return file.read().split("\n")


def exported(crate: str) -> tuple[set[str], set[str]]:
    """The names that a crate's root re-exports, and its public modules."""
    root = os.path.join(programs.TOP, "crates", crate, "src", "lib.rt")
    text = "\n".join(read(root)) if os.path.exists(root) else ""
    names = {
        it.strip()
        for found in re.findall(r"^pub use (?:crate::)?\w+::(?:\{([^}]*)\}|(\w+));", text, re.M)
        for part in found
        for it in part.split(",")
        if it.strip()
    }
    return names, set(re.findall(r"^pub mod (\w+);", text, re.M))


def owner_of(line: str) -> tuple[str, bool]:
    """The type or trait whose members begin at a line, and whether they are members of a trait."""
    found = HOLDS.match(line)
    if not found:
        return "", False
    rest = found.group("rest")
    is_trait = found.group("kind") == "trait" or " for " in rest
    kind = rest.split(" for ")[-1]
    named = re.match(r"\w+", kind)
    return named.group(0) if named else "", is_trait


def end_of(lines: list[str], at: int, indent: str) -> tuple[int, int]:
    """The line where the head of a function ends, and the line where the function ends."""
    depth, has_clauses = 0, False
    for head in range(at, len(lines)):
        line = lines[head].rstrip()
        has_clauses = has_clauses or line.strip().startswith(("requires", "ensures"))
        depth += line.count("{") - line.count("}")
        if depth == 0 and line.endswith((";", "{}")):
            return head, head
        if line == indent + "{" or (line.endswith("{") and not has_clauses):
            return head, next(it for it in range(head, len(lines)) if lines[it].rstrip() == indent + "}")
    raise SystemExit(f"proof: no end of the function at {lines[at]}")


def comment_above(lines: list[str], at: int) -> list[str]:
    above = at - 1
    while above >= 0 and lines[above].strip().startswith("#["):
        above -= 1
    said: list[str] = []
    while above >= 0 and lines[above].strip().startswith("///"):
        said.insert(0, lines[above].strip()[3:].strip())
        above -= 1
    return said


def doc_above(lines: list[str], at: int) -> str:
    """The first sentence of the comment above a function."""
    said = comment_above(lines, at)
    paragraph = " ".join(" ".join(it or "\0" for it in said).split("\0")[0].split())
    return re.split(r"(?<=[.:])\s(?=[A-Z`])", paragraph)[0] if paragraph else ""


def clauses_in(head: str, cited: dict[str, str]) -> Iterator[Clause]:
    """The clauses of a head, with the names in them that `ghost use` lines bring in."""
    for found in re.finditer(r"^\s*ensures\*?(?: (\w+))? \{", head, re.M):
        depth, at = 1, found.end()
        while depth and at < len(head):
            depth += {"{": 1, "}": -1}.get(head[at], 0)
            at += 1
        words = re.findall(r"[A-Za-z_][\w'\-]*", head[found.end() : at])
        named = tuple(dict.fromkeys(it for it in words if it in cited))
        yield Clause(found.group(1) or "", named, tuple(cited[it] for it in named))


def brought_in(lines: list[str]) -> dict[str, str]:
    """The definitions that the `ghost use` lines of a file bring in, each with its file below crates."""
    found = [it for it in map(USE.match, lines) if it]
    return {
        word.split(" as ")[-1].strip(): f"{it.group('crate')}/specs/{it.group('module').split('.')[0]}.antt"
        for it in found
        for word in it.group("names").split(",")
    }


def functions_of(path: str, names: set[str], is_open: bool) -> Iterator[Function]:
    lines, owner, is_trait, crate = read(path), "", False, path.split(os.sep)[-3]
    cited = brought_in(lines)
    at, file = 0, os.path.basename(path)
    while at < len(lines):
        line, head, item = lines[at], HEAD.match(lines[at]), ITEM.match(lines[at])
        if re.match(r"^(pub )?(impl|trait)\b", line):
            owner, is_trait = owner_of(line)
        elif line.rstrip() == "}":
            owner, is_trait = "", False
        elif head:
            stop, end = end_of(lines, at, head.group("indent"))
            seen = owner if head.group("indent") else ""
            reach = is_open or (seen or head.group("name")) in names
            public = (
                reach
                and (bool(head.group("public")) or (is_trait and bool(seen)))
                or (crate == "hsplan" and head.group("name") == "main")
            )
            text = "\n".join(lines[at : stop + 1])
            fails = bool(head["public"]) and re.match(r"[^{]*?-> Result<", text) is not None
            is_silent = public and fails and "# Errors" not in comment_above(lines, at)
            clauses, body = tuple(clauses_in(text, cited)), "\n".join(lines[stop : end + 1])
            own = (head["name"], seen, file, (at, end), public, is_silent)
            yield Function(*own, doc_above(lines, at), clauses, body)
            at = end
        elif item:
            end = next(it for it in range(at, len(lines)) if lines[it].rstrip().endswith(";"))
            yield Function(item.group("name"), "", file, (at, end), False, False, "", (), "\n".join(lines[at : end + 1]))
            at = end
        at += 1


def crate_functions(crate: str) -> list[Function]:
    names, modules = exported(crate)
    paths = sorted(glob.glob(os.path.join(programs.TOP, "crates", crate, "src", "*.rt")))
    return [it for path in paths for it in functions_of(path, names, os.path.basename(path)[:-3] in modules)]


def names_it(caller: Function, called: Function) -> bool:
    """Whether a body names another function: by its type, as a member, or by its name. What takes the rows or the
    queries of a talk is asked where it was made."""
    name = re.escape(called.name)
    if not called.owner:
        return any(
            not re.search(r"[A-Z]\w*(?:::<[^>]*>)?::$", caller.body[: it.start()])
            for it in re.finditer(rf"(?<![\w.]){name}\b(?!::\w)", caller.body)
        )
    by_type = re.search(rf"\b{re.escape(called.owner)}(?:::<[^>]*>)?::{name}\b", caller.body)
    by_self = caller.owner == called.owner and re.search(rf"\b(?:self\.|Self::){name}\b", caller.body)
    by_talk = called.name in IN_TALKS and re.search(rf"\b{re.escape(called.owner)}::new\b", caller.body)
    return bool(by_type or by_self or by_talk or re.search(rf"\.{name}\(", caller.body))


def callers(functions: list[Function], begun: Function) -> list[Function]:
    """The public calls that come to a function through private ones, or the function itself where it is public."""
    found, seen, waiting = [], {begun}, [begun]
    while waiting:
        one = waiting.pop(0)
        if one.is_public:
            found.append(one)
            continue
        for it in functions:
            if it not in seen and names_it(it, one):
                seen.add(it)
                waiting.append(it)
    return found


def crate_of(edit: str) -> str:
    """The crate that an edit changes: crates/CRATE/must-fail/NAME.edit or mutants/CRATE/NAME.edit."""
    return next(it for it in reversed(edit.split(os.sep)[:-1]) if it != "must-fail")


def turned(functions: list[Function], edit: str) -> list[Function]:
    """The public calls that an edit for the prover turns."""
    lines = [it for it in read(edit) if it.startswith(("file: ", "old: "))]
    file, found = "", []
    for line in lines:
        word, _, rest = line.partition(": ")
        if word == "file":
            file = rest.strip()
            continue
        text = read(os.path.join(programs.TOP, "crates", crate_of(edit), file))
        at = next((number for number, it in enumerate(text) if rest.strip() in it), -1)
        own = [it for it in functions if it.file == os.path.basename(file)]
        brought = re.findall(r"\w+", rest) if rest.startswith("use ") else []
        inside = [
            it
            for it in own
            if it.lines[0] <= at <= it.lines[1] or any(re.search(rf"\b{word}\b", it.body) for word in brought[-1:])
        ]
        found += [call for it in inside for call in callers(functions, it)]
    return list(dict.fromkeys(found))


def is_of_a_definition(edit: str) -> bool:
    """Whether an edit changes a definition, so that a law no longer holds."""
    return any(line.startswith("file: specs/") for line in read(edit))


def edits_of(crate: str) -> list[str]:
    """The edits that the prover has to refuse in the gate."""
    return sorted(glob.glob(os.path.join(programs.TOP, "crates", crate, "must-fail", "*.edit")))


def more_edits_of(crate: str) -> list[str]:
    """The edits that the prover has to refuse outside the gate, by `make mutants`."""
    return [
        it for it in sorted(glob.glob(os.path.join(programs.TOP, "mutants", crate, "*.edit"))) if "prover:" in read(it)
    ]
