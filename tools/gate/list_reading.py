#!/usr/bin/env python3
"""Lists what one reads to understand the proof of the headline: every definition, in an order in which nothing is used
before it was read.

    tools/gate/list_reading.py            prints the list, and writes the two parts into docs/understand/READING.md
    tools/gate/list_reading.py --check    prints and writes nothing, and compares the parts that are there

The list begins at the clauses of the calls that plan, check and answer logs, and at the laws beside them. It goes
down to all definitions that they mention, and to types and limits of the sources. The words counted are names and the
words of comments, also of the comment above a definition. Signs and `use` lines are not counted.
"""

import argparse
import os
import re
import sys
import textwrap
from collections import defaultdict
from collections.abc import Iterator
from pathlib import Path

sys.path.insert(0, str(Path(__file__).resolve().parents[1]))

from lib import programs
from lib.definitions import Known, Module, One, in_order, modules, names_in, reach, settle, unread, words_in

PAGE = os.path.join(programs.TOP, "docs", "understand", "READING.md")
RUNS = os.path.join(programs.TOP, "crates", "hsp_runs")
# How many words of definitions and clauses are read in a minute.
RATE = 130
LOGS, RUNS_OVER_LOGS, LAWS = (f"Rattle.hsp_runs.specs.{it}" for it in ("Logs", "Dispatch", "Laws"))
HEADLINE, PAGE_LAWS = (f"Rattle.hsp_inputs.specs.{it}" for it in ("Headline", "HeadlineLaws"))
SHOWN = "Rattle.hsp_runs.specs.Shown"
# The calls of the headline, and their clauses that are of the page: without the order of faults.
CALLS = (
    ("plan.rt", "plan_run", ("shows", "always")),
    ("checking.rt", "check_run", ("shows", "exactly")),
    ("dispatch.rt", "dispatch_run", ("shows", "always")),
    ("fronts.rt", "fronts_run", ("shows", "always")),
)
# The parts in reading order: a title, and the definitions at which the part begins. A part without definitions begins
# at the clauses of the calls.
PARTS = (
    ("Which inputs define which instance", ((HEADLINE, "Defines"),)),
    (
        "What a certificate shows of it, and that there always is one",
        tuple((SHOWN, it) for it in ("ShowsOf", "PlansAlways", "SaysYesAlways")),
    ),
    (
        "What logs show of it, and that they are always answered",
        (
            (RUNS_OVER_LOGS, "over"),
            (LOGS, "ShowsLogOf"),
            (LOGS, "ShowsFrontsOf"),
            (LOGS, "DispatchesAlways"),
            (LOGS, "DispatchesAtAlways"),
            (RUNS_OVER_LOGS, "IsBeforeLog"),
        ),
    ),
    (
        "No log exceeds a plan",
        (
            ("Rattle.hsp_dispatch.specs.Laws", "NeverExceeds"),
            ("Rattle.hsp_dispatch.specs.FrontLaws", "NeverExceedsTogether"),
        ),
    ),
    ("What the calls answer, with every fault in its order", ()),
    (
        "What holds of all inputs and of all runs",
        (
            *((PAGE_LAWS, it) for it in ("GivesTheDefined", "AcceptsTheDefined", "GivesOneAnswer", "GivesNothingElse")),
            *((LAWS, it) for it in ("DispatchedLogsShow", "FrontsLogsShow", "LogsGoByHash")),
        ),
    ),
)
# The files of the page in reading order, and what each is.
FILES = (
    ("hsp_inputs", "Headline.antt", "the page"),
    ("hsp_runs", "Shown.antt", "what a certificate shows"),
    ("hsp_runs", "Logs.antt", "what logs show"),
    ("hsp_inputs", "Stated.antt", "how documents and tables state their rows"),
)
# How many of them are read before the calls.
FIRST = 2
# What an auditor asks, the file that answers it, and the words of the answer in that file.
QUESTIONS = (
    ("May two sites have one name?", "Headline.antt", "pub names : IsDistinct"),
    ("May a table have two rows of one key?", "Stated.antt", "pub apart : IsDistinct same_key rows"),
    ("To which sites may a region's queries go, and at what cost?", "Headline.antt", "pub cost : Contains costs"),
    ("To which server of a site does a row's handle go?", "Headline.antt", "number_at sites arc.site (server_place"),
    ("Is a site's server without a row of capacity let in?", "Headline.antt", "× Contains capacities (record {"),
    ("May `plan` refuse inputs that define an instance?", "Shown.antt", "PlansAlways inputs answer ="),
    ("May `check` refuse a certificate that holds?", "Shown.antt", "SaysYesAlways inputs octets answer ="),
    ("What does the text of a plan show of cheaper plans?", "Shown.antt", "pub best : Best n"),
    ("What must hold of each price in the text?", "Shown.antt", "pub prices : Prices n"),
    (
        "Are the demand and the capacity of a shortage the true sums?",
        "Shown.antt",
        "pub demand : c.demand ≡ demand_of n",
    ),
    (
        "What was answered when a log stopped at a fault?",
        "Logs.antt",
        "(StopsSomewhere desk run ⊎ StopsInLine desk run)",
    ),
    ("Do all fronts together stay within the plan?", "Logs.antt", "pub within : (events : List Event)"),
)


def head_of(file: str, call: str) -> str:
    with open(os.path.join(RUNS, "src", file), encoding="utf-8") as source:
        found = re.search(rf"((?:^///[^\n]*\n)*^pub fn {call}\b.*?)\n\{{\n", source.read(), re.S | re.M)
    if not found:
        sys.exit(f"reading: {file} has no call {call}")
    return found[1]


def clauses(known: Known) -> list[One]:
    """The definitions that the clauses of the calls name."""
    starts = []
    for file, call, _ in CALLS:
        module = Module(os.path.join(RUNS, "src", file))
        text = "\n".join(re.findall(r"ensures.*", head_of(file, call), re.S))
        starts += [settle(known, other, name) for other, name in names_in(module, text) if other]
    return starts


def minutes(words: int) -> str:
    return f"{words / RATE:.0f} minutes" if words >= 2 * RATE else f"{words / RATE:.1f} minutes"


def measures(known: Known, own: list[One]) -> str:
    lines = sum(len(known[module].definitions[name][1]) for module, name in own)
    words = sum(known[module].words[name] for module, name in own)
    files = len({module for module, _ in own})
    return f"{len(own)} definitions in {files} files, {lines} lines, {words} words: {minutes(words)}."


def wrapped(words: str) -> list[str]:
    return textwrap.wrap(words, 118, subsequent_indent="  ", break_long_words=False, break_on_hyphens=False)


def paragraph(known: Known, found: list[One]) -> Iterator[str]:
    """The definitions of a part with their lines, file by file."""
    files: defaultdict[str, list[str]] = defaultdict(list)
    for module, name in found:
        files[module].append(f"{name} {known[module].definitions[name][0]}")
    for module, names in files.items():
        yield from wrapped(f"- {os.path.relpath(known[module].path, programs.TOP)}: {', '.join(names)}")


def listed() -> Iterator[str]:
    known, seen = modules(), set[One]()
    read: list[One] = []
    for title, starts in PARTS:
        own = in_order(known, reach(known, starts or clauses(known), seen))
        read += own
        yield from (f"{title}: {measures(known, own)}", "", *paragraph(known, own), "")
    early = unread(known, read)
    if early:
        sys.exit("reading: mentioned before it is read: " + ", ".join(f"{it[1]} by {one[1]}" for one, it in early))
    yield f"All: {measures(known, read)}"


def promised(file: str, call: str, names: tuple[str, ...]) -> list[str]:
    """The comment of a call, and its clauses of these names with their comments."""
    lines = head_of(file, call).split("\n")
    found = [line for line in lines if line.startswith("///")]
    begins = [at for at, line in enumerate(lines) if line.strip().startswith("ensures ")]
    for name in names:
        at = next(number for number in begins if lines[number].strip().startswith(f"ensures {name} "))
        end = next((number for number in begins if number > at), len(lines))
        above = at - 1 if lines[at - 1].strip().startswith("//") else at
        found += [line for number, line in enumerate(lines[above:end], above) if number <= at or "//" not in line]
    return found


def page_file(name: str) -> str:
    crate = next(it for it, file, _ in FILES if file == name)
    return os.path.join(programs.TOP, "crates", crate, "specs", name)


def figures() -> list[str]:
    """How many words the page and the clauses of the calls have, and how long it takes to read them."""
    lines, total = [f"At {RATE} words a minute:", "", "| Read | Lines | Words | Minutes |", "|---|---|---|---|"], 0
    for at, (_, name, what) in enumerate(FILES, 1):
        text = Path(page_file(name)).read_text("utf-8").rstrip("\n").split("\n")
        words = words_in(text)
        total += words
        lines.append(f"| `{name}`, {what} | {len(text)} | {words} | {words / RATE:.1f} |")
        if at == FIRST:
            heads = [line for call in CALLS for line in promised(*call)]
            words = words_in(heads)
            total += words
            own = "what `plan_run`, `check_run`, `dispatch_run` and `fronts_run` say of themselves"
            lines.append(f"| {own}, with their clauses | {len(heads)} | {words} | {words / RATE:.1f} |")
            lines.append(f"| **these together** | | **{total}** | **{total / RATE:.1f}** |")
    return [*lines, f"| all | | {total} | {total / RATE:.1f} |", ""]


def answered() -> list[str]:
    lines = ["| Question | Answer |", "|---|---|"]
    for question, name, words in QUESTIONS:
        text = Path(page_file(name)).read_text("utf-8").split("\n")
        found = [at for at, line in enumerate(text, 1) if words in line]
        if len(found) != 1:
            sys.exit(f"reading: {name} has {len(found)} lines with {words}")
        lines.append(f"| {question} | `{name}`, line {found[0]} |")
    return [*lines, ""]


def written(page: str) -> str:
    for name, part in (("figures", figures), ("questions", answered)):
        begin, end = f"<!-- the {name} begin -->\n", f"<!-- the {name} end -->\n"
        page = page[: page.index(begin)] + begin + "\n" + "\n".join(part()) + "\n" + page[page.index(end) :]
    return page


def main() -> int:
    parser = argparse.ArgumentParser(description="Lists what one reads to understand the proof of the headline.")
    parser.add_argument("--check", action="store_true", help="write nothing, and compare the parts that are there")
    check = parser.parse_args().check
    lines, page = list(listed()), Path(PAGE).read_text("utf-8")
    made = written(page)
    if not check:
        print("\n".join(lines))
        Path(PAGE).write_text(made, "utf-8")
        return 0
    is_right = made == page
    print(f"reading: {lines[-1]} READING.md is {'as' if is_right else 'not what'} tools/gate/list_reading.py writes it")
    return 0 if is_right else 1


if __name__ == "__main__":
    sys.exit(main())
