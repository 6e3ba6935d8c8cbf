#!/usr/bin/env python3
"""Prints how large the repository is: lines, crates, and the longest chain of proofs.

    tools/measure/size.py

Lines are counted as they stand, comments and empty lines too. Those of documents are counted outside of blocks marked
`console`. The chain is the longest way through crates.txt by the seconds that the table of docs/maintain/GATE.md has
for the proof of each crate, for the proof before its edits, and for its edits.
"""

import re
import sys
from functools import cache
from pathlib import Path

sys.path.insert(0, str(Path(__file__).resolve().parents[1]))

from lib import programs

TOP = Path(programs.TOP)
ROW = re.compile(r"^\| `(\w+)` \|(.*)\|$")


def lines_in(*patterns: str) -> int:
    """How many lines the files have that any of the patterns names."""
    files = {path for pattern in patterns for path in TOP.glob(pattern) if path.is_file()}
    return sum(path.read_bytes().count(b"\n") for path in files)


def lines_of_documents() -> int:
    paths = [*TOP.glob("*.md"), *TOP.glob("docs/**/*.md"), *TOP.glob("examples/*.md")]
    outside = re.compile(r"^```console\n.*?^```\n|^```[^\n]*\n", re.MULTILINE | re.DOTALL)
    return sum(outside.sub("", path.read_text()).count("\n") for path in paths)


def seconds_of_crates() -> dict[str, int]:
    """What the table of GATE has for each crate: its proof, the proof before its edits, and its edits."""
    rows = map(ROW.match, programs.text_of("docs", "maintain", "GATE.md").splitlines())
    return {row[1]: sum(int(cell) for cell in row[2].split("|")[:3] if cell.strip()) for row in rows if row}


def longest_chain() -> tuple[int, list[str]]:
    """The seconds of the longest chain of crates, each of which stands on the one before it, and the chain."""
    below, seconds = programs.dependencies(), seconds_of_crates()

    @cache
    def chain_to(crate: str) -> tuple[int, tuple[str, ...]]:
        before = max((chain_to(it) for it in below[crate]), default=(0, ()))
        return before[0] + seconds.get(crate, 0), (*before[1], crate)

    most, chain = max(map(chain_to, below))
    return most, list(chain)


def main() -> int:
    seconds, chain = longest_chain()
    for name, count in (
        ("crates", len(programs.dependencies())),
        ("lines of Rattle", lines_in("crates/**/*.rt", "crates/**/*.antt")),
        ("  of them definitions", lines_in("crates/*/specs/**/*.antt")),
        ("  of them proofs", lines_in("crates/*/proofs/**/*.antt")),
        ("  of them tests", lines_in("crates/*_tests/src/*.rt")),
        ("lines of Python", lines_in("companion/**/*.py", "tools/**/*.py")),
        ("  of them hsp", lines_in("companion/hsp/**/*.py")),
        ("  of them its tests", lines_in("companion/tests/**/*.py")),
        ("  of them tools", lines_in("tools/**/*.py")),
        ("lines of documents outside of transcripts", lines_of_documents()),
        ("lines of README", lines_in("README.md")),
        ("minutes of the longest chain of proofs, by GATE", round(seconds / 60)),
    ):
        print(f"{count:>8} {name}")
    print("the chain:", ", ".join(chain))
    return 0


if __name__ == "__main__":
    programs.ended(main)
