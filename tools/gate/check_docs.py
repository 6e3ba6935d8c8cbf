#!/usr/bin/env python3
"""Checks the names in the documents, runs each command of the documents with the built program, and
compares what the commands print with what the documents show. What is checked say the functions of KINDS.

The commands are those of the blocks marked `console`. The lines of such a block are a transcript, as
tools/lib/transcripts.py describes it. The commands of one document run in turn in one shell. In a manual page the
commands are the examples between `.EX` and `.EE`. They run in bash; those of the README and of docs/use run in dash
and zsh as well, where these are installed. A block marked `console` with a word behind it, as `console haproxy`, runs
where a program of that name and curl are installed.

    tools/gate/check_docs.py --names                        checks the names only, without the program
    tools/gate/check_docs.py [--program FILE] [--bash]      does all; with --bash in bash and no other shell
"""

import argparse
import glob
import os
import re
import shutil
import sys
from collections.abc import Iterator
from pathlib import Path

sys.path.insert(0, str(Path(__file__).resolve().parents[1]))

from lib import pages, programs, transcripts


# Faults, and how many things were looked at.
Found = tuple[list[str], int]
# The mark of a block, or None between blocks, and its lines.
Block = tuple[str | None, list[str]]

SHELLS = ("dash", "zsh")
PAGES = ("docs/use/hsplan.1", "docs/use/hsplan-stream.1", "docs/use/hsp.1")


def is_console(mark: str | None) -> bool:
    return (mark or "").split()[:1] == ["console"]


def lacking(mark: str) -> list[str]:
    """The programs that the commands of a block need, and that are not installed here."""
    wanted = mark.split()[1:]
    return [it for it in [*wanted, *(["curl"] if wanted else [])] if not shutil.which(it)]


def rows(text: str) -> list[list[str]]:
    """The cells of each row of a table, without heads and rules."""
    lines = [it for it in text.splitlines() if it.startswith("|")]
    cells = [[cell.strip() for cell in it.strip("|").split("|")] for it in lines]
    return [
        it
        for at, it in enumerate(cells)
        if not is_rule(lines[at]) and not (at + 1 < len(lines) and is_rule(lines[at + 1]))
    ]


def is_rule(line: str) -> bool:
    return set(line) <= set("|-: ")


def named(cell: str) -> list[str]:
    return re.findall(r"`([^`]+)`", cell)


def missing_crates() -> Found:
    """The crates that a document does not name, and how many crates there are."""
    crates = list(programs.dependencies())
    faults = [
        f"{path} does not name the crate {it}"
        for path in ("README.md", "docs/understand/ARCHITECTURE.md")
        for it in crates
        if f"`{it}`" not in programs.text_of(path)
    ]
    return faults, len(crates)


def wrong_storeys() -> Found:
    """The crates that stand on one of a storey above their own in crates.txt, or that docs/understand/ARCHITECTURE.md has
    in another storey; and how many storeys there are."""
    storeys = programs.storeys()
    height = {crate: at for at, (_, crates) in enumerate(storeys) for crate in crates}
    faults = [
        f"crates.txt has {crate} below {it}, on which it stands"
        for crate, below in programs.dependencies().items()
        for it in below
        if height[it] > height[crate]
    ]
    table = (
        programs.text_of("docs/understand/ARCHITECTURE.md").split("## The crates of the programs")[1].split("\n## ")[0]
    )
    storey, stated = "", dict[str, str]()
    for row in rows(table):
        storey = row[0] or storey
        stated |= {it: storey for it in named(row[1])}
    titles = {crate: storeys[at][0].split(":")[0] for crate, at in height.items()}
    faults += [
        f"docs/understand/ARCHITECTURE.md has {crate} in the storey {stated.get(crate, 'of tests')}, crates.txt in {title}"
        for crate, title in titles.items()
        if stated.get(crate, storeys[-1][0].split(":")[0]) != title
    ]
    return faults, len(storeys)


# Modules that every crate may have, and that no table names.
EVERYWHERE = {"lib", "main", "laws", "fault"}


def wrong_modules() -> Found:
    """The modules that a table of docs/understand/ARCHITECTURE.md names and that are not there, or that it lacks; and
    how many it names."""
    faults: list[str] = []
    count = 0
    head = r"(?:^The modules of `(\w+)`:|^\*\*`(\w+)`\*\*[^\n]*)\n\n(\| Modules \|.*?)(?:\n\n|\Z)"
    for plain, bold, table in re.findall(head, programs.text_of("docs/understand/ARCHITECTURE.md"), re.M | re.S):
        crate = plain or bold
        stated = {it for row in rows(table) for it in named(row[0])}
        there = {os.path.basename(it)[:-3] for it in glob.glob(f"{programs.TOP}/crates/{crate}/src/*.rt")}
        count += len(stated)
        faults += [
            f"docs/understand/ARCHITECTURE.md names a module that {crate} does not have: {it}"
            for it in sorted(stated - there)
        ]
        faults += [
            f"docs/understand/ARCHITECTURE.md lacks a module of {crate}: {it}"
            for it in sorted(there - stated - EVERYWHERE)
        ]
    return faults, count


def wrong_packages() -> Found:
    """The packages and modules of the companion that its table in docs/understand/ARCHITECTURE.md names and that are
    not there, or that it lacks; and how many it names."""
    table = programs.text_of("docs/understand/ARCHITECTURE.md").split("## The companion")[1].split("\n## ")[0]
    package, stated = "", set[str]()
    for row in rows(table):
        package = "".join(named(row[0])) or package
        stated |= {f"{package}/{it}" for it in named(row[1])}
    top = Path(programs.TOP) / "companion" / "hsp"
    there = {f"{it.parent.name}/{it.stem}" for it in top.glob("*/*.py") if it.stem != "__init__"}
    faults = [f"docs/understand/ARCHITECTURE.md names what hsp does not have: {it}" for it in sorted(stated - there)]
    faults += [f"docs/understand/ARCHITECTURE.md lacks a module of hsp: {it}" for it in sorted(there - stated)]
    return faults, len(stated)


def documents() -> list[str]:
    paths = (
        glob.glob(f"{programs.TOP}/*.md")
        + glob.glob(f"{programs.TOP}/docs/**/*.md", recursive=True)
        + glob.glob(f"{programs.TOP}/examples/*.md")
    )
    return sorted(os.path.relpath(it, programs.TOP) for it in paths)


def blocks(text: str) -> list[Block]:
    """The blocks of a document, each as its mark and its lines. The text between blocks has the mark None."""
    parts = re.split(r"^```(.*)\n", text, flags=re.M)
    marks: list[str | None] = [None, *parts[1::2]]
    return [(mark if at % 2 else None, part.splitlines()) for at, (mark, part) in enumerate(zip(marks, parts[0::2]))]


def missing_links() -> Found:
    """The links of documents to files and headings that are not there, and how many links there are."""
    return pages.dead_links(programs.TOP, documents())


def missing_targets() -> Found:
    """The `make` targets and scripts that documents name and that are not there, and how many they name."""
    targets = set(re.findall(r"^([a-z]+):", programs.text_of("Makefile"), re.M))
    faults: list[str] = []
    count = 0
    for path in documents():
        makes = re.findall(r"(?:`|^    )make ([a-z]+)", programs.text_of(path), re.M)
        scripts = re.findall(r"\btools/[a-z_/]+\.(?:py|c|cpp)\b", programs.text_of(path))
        count += len(makes) + len(scripts)
        faults += [f"{path} names a target that the Makefile does not have: {it}" for it in makes if it not in targets]
        faults += [
            f"{path} names a file that is not there: {it}"
            for it in scripts
            if not os.path.exists(os.path.join(programs.TOP, it))
        ]
    return faults, count


def unmarked() -> Found:
    """The commands that stand outside of the blocks marked `console`, and how many lines stand there."""
    lines = [
        (path, it)
        for path in documents()
        for mark, block in blocks(programs.text_of(path))
        if not is_console(mark)
        for it in block
    ]
    return [
        f"{path} has a command outside of the blocks marked console: {it}"
        for path, it in lines
        if re.match(r" *\$ \w", it)
    ], len(lines)


def fault_words() -> list[str]:
    """The words that the line of a fault may have, from the sources."""
    texts = ("fault_text.rt", "fault_words.rt", "price_reason.rt", "stream_fault_text.rt")
    sources = [f"crates/hsp_inputs/src/{it}" for it in texts]
    sources += [f"crates/{it}/src/verdict_text.rt" for it in ("hsp_runs", "hsp_price_runs")]
    found = [word for it in sources for word in re.findall(r'b"(?:\d+ )?([A-Z][A-Za-z0-9]+)', programs.text_of(it))]
    return sorted(set(found) | {"Usage", "read failed", "write failed"})


def missing_words() -> Found:
    """The words of faults without a row in docs/use/FAULTS.md or a paragraph in a manual page, and how many words
    there are."""
    listed = {
        cell.split()[-1] if cell[:1].isdigit() or cell.startswith("log: ") else cell
        for cell in (it[0] for it in rows(programs.text_of("docs/use/FAULTS.md")))
    }
    manual = {
        it.split()[-1] if it.startswith("log:") else it
        for page in PAGES
        for it in re.findall(r"^\.B (.*)$", programs.text_of(page), re.M)
    }
    words = fault_words()
    faults = [f"docs/use/FAULTS.md has no row for {it}" for it in words if it not in listed]
    return faults + [f"no manual page has a paragraph for {it}" for it in words if it not in manual], len(words)


def manual_steps(page: str) -> list[transcripts.Step]:
    examples = re.findall(r"^\.EX\n(.*?)^\.EE$", programs.text_of(page), re.M | re.S)
    lines = [line.replace("\\-", "-").replace("\\e", "\\") for it in examples for line in it.splitlines()]
    return transcripts.steps_of(lines)


def files() -> Iterator[str]:
    """The files of the repository, without what git keeps, compiled Python and what the folders `out` hold."""
    for at, folders, names in os.walk(programs.TOP):
        folders[:] = sorted(it for it in folders if it not in (".git", "out", "__pycache__"))
        yield from (os.path.join(at, it) for it in names)


def merge_marks() -> Found:
    """The marks of a merge that were left in files, and how many files there are."""
    faults: list[str] = []
    count = 0
    for path in files():
        count += 1
        with open(path, "rb") as file:
            lines = file.read().split(b"\n")
        faults += [
            f"{os.path.relpath(path, programs.TOP)}:{at}: a mark of a merge"
            for at, it in enumerate(lines, 1)
            if re.match(rb"(<{7}|>{7}) |={7}$", it)
        ]
    return faults, count


def wrong_kit() -> Found:
    """The fault where the README does not name the kit of this machine. The README states the sum of the kit's logic,
    and any kit 13 with this logic will do."""
    said = programs.kit()
    if not said:
        print("note: no rt in PATH, so the kit that README.md names was not compared")
        return [], 1
    name, _, logic = said.partition(" logic ")
    fine = (
        logic
        and name.startswith("rattle-kit-13")
        and f"`logic {logic}`" in programs.text_of("README.md")
        and "`rattle-kit-13`" in programs.text_of("README.md")
    )
    return [] if fine else [f"README.md does not name this machine's kit: {said}"], 1


def steps_in(path: str) -> list[transcripts.Step]:
    """The commands of a document. Where a block needs a program that is not installed, a line names it."""
    found = [(mark or "", lines) for mark, lines in blocks(programs.text_of(path)) if is_console(mark)]
    for name in sorted({it for mark, _ in found for it in lacking(mark)}):
        print(f"{name} IS NOT INSTALLED HERE: the commands of {path} that need it were not tried")
    return [step for mark, lines in found if not lacking(mark) for step in transcripts.steps_of(lines)]


def wrong_commands(program: str, shells: tuple[str, ...]) -> Found:
    """The commands of the documents that print something other than the documents show, in bash or in one of the
    shells, and how many there are."""
    found = {path: steps_in(path) for path in documents()}
    found.update({page: manual_steps(page) for page in PAGES})
    faults = [fault for path, steps in found.items() if steps for fault in transcripts.faults_of(path, steps, program)]
    own = {path: steps for path, steps in found.items() if path == "README.md" or path.startswith("docs/use/")}
    faults += [fault for shell in shells for fault in wrong_in(shell, own, program)]
    return faults, sum(len(it) for it in found.values())


def wrong_in(shell: str, found: dict[str, list[transcripts.Step]], program: str) -> list[str]:
    """The commands of operators' pages that print something else in another shell than bash, if that is installed."""
    if not shutil.which(shell):
        print(f"{shell} IS NOT INSTALLED HERE: the commands of operators' pages were not tried with it")
        return []
    return [
        fault
        for path, steps in found.items()
        if steps
        for fault in transcripts.faults_of(f"{path}, by {shell}", steps, program, None, shell)
    ]


KINDS = {
    "crates": missing_crates,
    "storeys": wrong_storeys,
    "modules of crates": wrong_modules,
    "modules of hsp": wrong_packages,
    "links": missing_links,
    "targets and scripts": missing_targets,
    "lines outside of transcripts": unmarked,
    "words of faults": missing_words,
    "files without marks of a merge": merge_marks,
    "kits": wrong_kit,
}


def main() -> int:
    arguments = argparse.ArgumentParser(description="Checks the names in the documents, and runs their commands.")
    arguments.add_argument("--names", action="store_true", help="run no command")
    arguments.add_argument(
        "--program", default=transcripts.PROGRAM, help="the program that is run, if not the built one"
    )
    arguments.add_argument("--bash", action="store_true", help="run the commands in bash and no other shell")
    chosen = arguments.parse_args()
    if not chosen.names and programs.is_absent(chosen.program):
        return 1
    found = {kind: check() for kind, check in KINDS.items()}
    if not chosen.names:
        found["commands run"] = wrong_commands(chosen.program, () if chosen.bash else SHELLS)
    faults = [fault for it, _ in found.values() for fault in it]
    counts = ", ".join(f"{count} {kind}" for kind, (_, count) in found.items())
    return programs.concluded(faults, f"documents: {counts};", all(count for _, count in found.values()))


if __name__ == "__main__":
    sys.exit(main())
