#!/usr/bin/env python3
"""Fails where a crate breaks a rule of its form, and names each place.

    tools/gate/check_modules.py

The rules: the modules of a crate do not import one another in a circle. No line of src, specs or proofs has over 120
columns, but for an attribute, which rt fmt writes in one line, and no line of a contract's clause has over 100, but in
crates of tests. In a file of lemmas each lemma has a line above it that says in words what it shows.
"""

import re
import sys
from collections.abc import Iterator
from graphlib import CycleError, TopologicalSorter
from pathlib import Path

sys.path.insert(0, str(Path(__file__).resolve().parents[1]))

from lib import programs

CRATES = Path(programs.TOP, "crates")

COLUMNS = 120
CLAUSE_COLUMNS = 100

# The head of a clause: its word and its name, if it has one, before the brace.
CLAUSE = re.compile(r"\s*(?:requires|ensures)\b[^{]*\{")

# The files of a function's own proof, whose names say what they answer, and the list of a folder's files.
ANSWERS = ("Answers.antt", "Invariants.antt", "Proof.antt", "Lib.antt")

# The head of a lemma: its name, and the levels that it is given, before its statement.
LEMMA = re.compile(r"(?:pub )?(?P<name>[^\s:({]+)(?: \{[^}]*\})? : ")

# What begins no lemma: imports, definitions, and what is open from here on.
OTHERS = ("use ", "open ", "mod ", "record ", "data ", "abbrev ", "unfoldable ", "ruleset ", "infix")


def is_too_long(line: str) -> bool:
    return len(line) > COLUMNS and not line.lstrip().startswith("#[")


def open_behind(line: str, depth: int) -> int:
    """How many braces are open behind a line, of a clause in which `depth` are before it; none once it is closed."""
    for brace in re.findall(r"[{}]", line):
        depth += 1 if brace == "{" else -1
        if depth == 0:
            break
    return depth


def clauses_in(lines: list[str]) -> Iterator[int]:
    depth = 0
    for number, line in enumerate(lines):
        if depth or CLAUSE.match(line):
            depth = open_behind(line, depth)
            yield number


def imports_of(crate: Path) -> dict[str, set[str]]:
    """For each module of a crate, the modules of the crate that it imports."""
    files = {path.stem: path for path in (crate / "src").glob("*.rt") if path.stem not in ("lib", "main")}
    named = {name: set(re.findall(r"\bcrate::(\w+)", path.read_text("utf-8"))) for name, path in files.items()}
    return {name: names & files.keys() - {name} for name, names in named.items()}


def circle_in(imports: dict[str, set[str]]) -> list[str]:
    """A circle of modules, each of which imports the next, or no module."""
    try:
        TopologicalSorter(imports).prepare()
    except CycleError as found:
        circle: list[str] = found.args[1]
        return circle[::-1]
    return []


def indent_of(line: str) -> int:
    return len(line) - len(line.lstrip(" "))


def end_of(lines: list[str], start: int, ending: str) -> int:
    return next(number for number in range(start, len(lines)) if lines[number].endswith(ending))


def lemmas_in(lines: list[str]) -> Iterator[tuple[int, str]]:
    """The lemmas of a file, each with the number of its line: those of the file itself, and those of its modules."""
    levels, number = [0], -1
    while (number := number + 1) < len(lines):
        line, indent = lines[number], indent_of(lines[number])
        if not line.strip() or indent > levels[-1]:
            continue
        levels = [level for level in levels if level <= indent]
        text = line.strip().removeprefix("pub ")
        if text.startswith("module "):
            levels.append(indent + 2)
            number = end_of(lines, number, "where")
        elif indent == levels[-1] and not text.startswith(OTHERS + ("--",)) and (lemma := LEMMA.match(text)):
            yield number, lemma["name"]


def has_words(lines: list[str], number: int) -> bool:
    """Whether a line of words stands above, as far in as the line itself."""
    above = lines[number - 1] if number else ""
    return above.strip().startswith("-- ") and "-- ----" not in above and indent_of(above) == indent_of(lines[number])


def form_faults(crate: Path) -> Iterator[str]:
    """The lines and clauses of a crate that are too long, and its lemmas without words."""
    sources = [path for folder in ("src", "specs", "proofs") for path in sorted((crate / folder).rglob("*.*t*"))]
    for path in sources:
        lines, place = path.read_text("utf-8").split("\n"), path.relative_to(CRATES)
        yield from (f"{place}:{at}: {len(line)} columns" for at, line in enumerate(lines, 1) if is_too_long(line))
        if path.is_relative_to(crate / "src") and "tests" not in crate.name:
            wide = [at for at in clauses_in(lines) if CLAUSE_COLUMNS < len(lines[at]) <= COLUMNS]
            yield from (f"{place}:{at + 1}: {len(lines[at])} columns in a clause" for at in wide)
        if path.is_relative_to(crate / "proofs") and path.name not in ANSWERS:
            bare = [(at, name) for at, name in lemmas_in(lines) if not has_words(lines, at)]
            yield from (f"{place}:{at + 1}: no words above {name}" for at, name in bare)


def main() -> int:
    crates = [crate for crate in sorted(CRATES.iterdir()) if (crate / "src").is_dir()]
    circles = {crate.name: circle_in(imports_of(crate)) for crate in crates}
    faults = [f"{name}: {' -> '.join(circle)}" for name, circle in circles.items() if circle]
    faults += [fault for crate in crates for fault in form_faults(crate)]
    return programs.concluded(faults, f"modules: {len(crates)} crates,")


if __name__ == "__main__":
    sys.exit(main())
