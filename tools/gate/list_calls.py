#!/usr/bin/env python3
"""Lists the public calls of crates: what a call says of itself, the clauses of its contract with the definitions that
they cite, and the edits for the prover that turn it: those of the gate, and those of mutants/.

An edit turns the function whose text it changes. Where that function is private, it turns the public calls that come
to it through private functions.

    tools/gate/list_calls.py CRATE..     prints the calls of these crates
    tools/gate/list_calls.py --check     fails where an edit of a source turns no public call, a public call that
                                         returns a Result doesn't say its errors, or the prose of
                                         docs/understand/PROOF.md names a call, a clause or a definition that is not
                                         there
"""

import argparse
import os
import re
import sys
import textwrap
from collections import defaultdict
from collections.abc import Iterator
from pathlib import Path
from typing import NamedTuple

sys.path.insert(0, str(Path(__file__).resolve().parents[1]))

from lib import calls, programs
from lib.calls import Function

PAGE = os.path.join(programs.TOP, "docs", "understand", "PROOF.md")


class Call(NamedTuple):
    """A public call, and the names of the edits that turn it: those of the gate, and those of mutants/."""

    function: Function
    edits: list[str]
    more: list[str]


def turning(functions: list[Function], edits: list[str], faults: list[str]) -> dict[Function, list[str]]:
    by: defaultdict[Function, list[str]] = defaultdict(list)
    for edit in edits:
        name, turned = os.path.basename(edit)[: -len(".edit")], calls.turned(functions, edit)
        if not turned and not calls.is_of_a_definition(edit):
            faults.append(f"{calls.crate_of(edit)}: the edit {name} turns no public call")
        for function in turned:
            by[function].append(name)
    return by


def with_edits(crate: str, faults: list[str]) -> list[Call]:
    """The public calls of a crate, each with the edits that turn it."""
    functions = calls.crate_functions(crate)
    by = turning(functions, calls.edits_of(crate), faults)
    more = turning(functions, calls.more_edits_of(crate), faults)
    public = [it for it in functions if it.is_public and (it.clauses or it in by or it in more or it.doc)]
    return [Call(it, by.get(it, []), more.get(it, [])) for it in public]


def shown(call: Call) -> Iterator[str]:
    yield f"{call.function.called()}: {call.function.doc}"
    for clause in call.function.clauses:
        yield f"  ensures {clause.label or '..'}: {', '.join(clause.cited) or 'in own words'}"
    if call.edits:
        yield f"  edits: {', '.join(call.edits)}"
    if call.more:
        yield f"  edits outside the gate: {', '.join(call.more)}"


def proved_crates() -> list[str]:
    """The crates that the program is made of, and those that have definitions: all but tests and measurements."""
    of_programs = programs.crates_of()
    others = [crate for crate in programs.dependencies() if crate not in of_programs]
    return of_programs + [it for it in others if os.path.isdir(os.path.join(programs.TOP, "crates", it, "specs"))]


def labels() -> dict[str, Function]:
    """The calls of all crates, and the laws also by their module, as prose names them."""
    found = {}
    for crate in proved_crates():
        for it in calls.crate_functions(crate):
            found[f"{crate}::{it.called()}"] = it
            if it.file.endswith("laws.rt"):
                found[f"{crate}::{it.file[:-3]}::{it.name}"] = it
    return found


def silent_calls() -> list[str]:
    """The public calls that return a Result and have no section of errors."""
    return [f"{name} has no section of errors" for name, it in labels().items() if it.lacks_errors]


def wrong_calls(prose: str) -> list[str]:
    """The calls and clauses that the prose names and that are not there: `crate::call` (clause `label`)."""
    known, faults = labels(), []
    for call, clause in re.findall(r"`(hsp\w+::[\w:]+)`(?: \(clauses? ((?:`\w+`(?:, | and )?)+)\))?", prose):
        if call not in known:
            faults.append(f"PROOF.md names a call that is not there: {call}")
            continue
        there = {it.label for it in known[call].clauses}
        faults += [f"PROOF.md: {it} is no clause of {call}" for it in re.findall(r"`(\w+)`", clause) if it not in there]
    return faults


def wrong_definitions(prose: str) -> list[str]:
    """The definitions that the prose names and that are not there: `Name` in [`F.antt`](crate/specs/F.antt)."""
    faults = []
    for names, path in re.findall(r"((?:`[\w'-]+`(?:, | and ))*`[\w'-]+`) in \[`[\w./]+`\]\(([^)]+)\)", prose):
        file = Path(os.path.normpath(os.path.join(os.path.dirname(PAGE), path)))
        text = file.read_text("utf-8") if file.exists() else ""
        faults += [
            f"PROOF.md: {it} is not defined in {path}"
            for it in re.findall(r"`([\w'-]+)`", names)
            if not re.search(rf"^(?:\w+ )*{re.escape(it)} ", text, re.M)
        ]
    return faults


def main() -> int:
    arguments = argparse.ArgumentParser(description="Lists the public calls of crates.")
    arguments.add_argument("--check", action="store_true", help="print no call, and check the edits and the prose")
    arguments.add_argument("crates", nargs="*", metavar="CRATE")
    given = arguments.parse_args()
    faults: list[str] = []
    found = {crate: with_edits(crate, faults) for crate in given.crates or proved_crates()}
    if not given.check:
        for crate, functions in found.items():
            print(f"== {crate}")
            for line in (line for it in functions for line in shown(it)):
                print(textwrap.fill(line, 118, subsequent_indent="    ", break_on_hyphens=False))
        return 0
    prose = Path(PAGE).read_text("utf-8")
    faults += silent_calls() + wrong_calls(prose) + wrong_definitions(prose)
    every = [call for functions in found.values() for call in functions]
    gate, only_more = sum(bool(it.edits) for it in every), sum(bool(it.more and not it.edits) for it in every)
    turned = f"{gate} turned by edits of the gate, {only_more} only by others"
    return programs.concluded(faults, f"calls: {len(every)}, {turned},")


if __name__ == "__main__":
    sys.exit(main())
