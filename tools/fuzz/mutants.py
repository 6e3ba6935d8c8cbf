#!/usr/bin/env python3
"""Puts each wrong body of mutants/ into a copy of the sources, and checks that its test, its case or the prover
refuses it.

    tools/fuzz/mutants.py [--jobs N] [--seconds N] [CRATE | CRATE/NAME]..

An edit mutants/CRATE/NAME.edit has lines like those of a must-fail edit, and one that names what has to refuse it:

  file: src/FILE.rt     the file of crates/CRATE that is changed
  test: CRATE NAME      a test, by its own name, of this crate or of one above it
  case: NAME            or a case of checks/hsplan, run on the unproved hsplan
  stream: TEXT          or the cases of checks/hsplan-stream that have the text in their words, their log or their
                        last line, and that need no plan, run on the unproved hsplan-stream
  prover:               or the prover, as it does a must-fail edit
  refused: N            optional: the allocation of the test, counted from 1, that is refused while it runs
  old: TEXT             a text that stands in the file once
  new: TEXT             what stands in its place

For tests and cases nothing is proved: `rt try` runs them with checks. First each has to pass on the sources as they
stand. Sources that do not compile, and a run without an end, refuse nothing. If crates or edits are named, only these
are tried. `rt must-fail` tries those of the prover, over proofs of the crates.
"""

import argparse
import concurrent.futures
import functools
import glob
import os
import queue
import re
import shutil
import subprocess
import sys
import tempfile
import time
from collections import defaultdict
from collections.abc import Callable, Iterable
from pathlib import Path
from typing import NamedTuple

sys.path.insert(0, str(Path(__file__).resolve().parents[1]))

from lib import cases, oracle, programs
from lib.cases import Case

FOLDER = os.path.join(programs.TOP, "mutants")
# Up to this many named tests of a crate are run one by one on the sources as they stand. If there are more, all tests
# of the crate are run at once.
FEW = 3
# The worst first.
OUTCOMES = ["not run", "no answer", "FAILED", "ok"]
# The outcome of each test or case by its name, and what was printed.
Outcomes = tuple[dict[str, str], str]


class Mutant(NamedTuple):
    """A wrong body: its crate and name, the file that is changed and the pairs of texts; what has to refuse it, a test
    with its crate, a case, or cases with a text; and the allocation that is refused."""

    crate: str
    name: str
    file: str
    pairs: list[tuple[str, str]]
    kind: str
    by: str
    refused: str


def read_mutant(path: str) -> Mutant:
    crate, name = os.path.basename(os.path.dirname(path)), os.path.basename(path)[: -len(".edit")]
    found: dict[str, str] = {}
    old: list[str] = []
    new: list[str] = []
    for line in Path(path).read_text("utf-8").splitlines():
        key, _, text = line.partition(":")
        text = text.removeprefix(" ")
        if key == "old" and len(old) == len(new):
            old.append(text)
        elif key == "new" and len(old) == len(new) + 1:
            new.append(text)
        elif key in ("file", "test", "case", "stream", "prover", "refused") and key not in found:
            found[key] = text.strip()
        else:
            raise ValueError(f"{path}: this is not a line of an edit: {line}")
    kinds = [key for key in ("test", "case", "stream", "prover") if key in found]
    if "file" not in found or len(kinds) != 1 or not new or len(old) != len(new):
        raise ValueError(f"{path}: a line is missing, or there is one too many")
    if kinds == ["test"] and len(found["test"].split()) != 2 or "refused" in found and kinds != ["test"]:
        raise ValueError(f"{path}: a test has a crate and a name, and only a test can have an allocation refused")
    return Mutant(crate, name, found["file"], list(zip(old, new)), kinds[0], found[kinds[0]], found.get("refused", ""))


def read_mutants(wanted: list[str]) -> list[Mutant]:
    mutants = [read_mutant(path) for path in sorted(glob.glob(os.path.join(FOLDER, "*", "*.edit")))]
    return [it for it in mutants if not wanted or it.crate in wanted or f"{it.crate}/{it.name}" in wanted]


def changed(mutant: Mutant) -> str:
    text = programs.text_of("crates", mutant.crate, mutant.file)
    for old, new in mutant.pairs:
        if text.count(old) != 1:
            edit = f"mutants/{mutant.crate}/{mutant.name}.edit"
            raise ValueError(f"{edit}: the old text stands {text.count(old)} times in {mutant.file}: {old}")
        text = text.replace(old, new)
    return text


# ---- runs on a copy


def copy_to(folder: str) -> None:
    """Copies what the unproved tests and programs are built from into a folder."""

    def left_out(at: str, names: list[str]) -> list[str]:
        is_crate = os.path.basename(os.path.dirname(at)) == "crates"
        return [it for it in names if is_crate and it in ("out", "proofs", "specs", "must-fail")]

    for name in ("crates.txt", "HANDLES"):
        shutil.copy(os.path.join(programs.TOP, name), folder)
    shutil.copytree(os.path.join(programs.TOP, "crates"), os.path.join(folder, "crates"), ignore=left_out)


def run(words: list[str], folder: str) -> str:
    ended = subprocess.run(
        words, cwd=folder, stdin=subprocess.DEVNULL, stdout=subprocess.PIPE, stderr=subprocess.STDOUT
    )
    return ended.stdout.decode(errors="replace")


def run_tests(folder: str, crate: str, seconds: int, name: str = "", refused: str = "") -> Outcomes:
    """The outcomes of a crate's tests, or of one, by their own names."""
    words = ["rt", "try", "--test", "--seconds", str(seconds)]
    words += (["--fail-alloc", refused] if refused else []) + (["--", name] if name else [])
    said = run(words, os.path.join(folder, "crates", crate))
    found = {}
    parts = re.split(r"^test (\S+) \.\.\. (\w+)$", said, flags=re.M)
    for path, outcome, after in zip(parts[1::3], parts[2::3], parts[3::3]):
        found[path.split("::")[-1]] = "no answer" if "no-answer" in after.split("test result:")[0] else outcome
    return found, said


def put_run(room: str, name: str, way: cases.Way) -> None:
    """Writes a run as `rt try` takes it: its standard input, and a file of its arguments where it has some."""
    Path(room, name).write_bytes(way[1])
    if way[0]:
        Path(room, f"{name}.args").write_bytes(b"".join(word + b"\n" for word in way[0]))


def is_text(way: cases.Way) -> bool:
    """Whether words can be the arguments of a run: `rt try` takes only text."""
    return all(word.decode(errors="ignore").encode() == word for word in way[0])


def run_cases(folder: str, program: str, chosen: list[Case], data: str, seconds: int) -> Outcomes:
    """The outcomes of cases that share their own files."""
    files = {name: os.path.join(data, name) for name in os.listdir(data)}
    with tempfile.TemporaryDirectory() as room, tempfile.TemporaryDirectory() as own:
        cases.put_files(own, chosen[0].files)
        files.update({name: os.path.join(own, name) for name in os.listdir(own)})
        runs: dict[str, tuple[Case, cases.Way]] = {}
        for number, case in enumerate(chosen):
            for at, way in enumerate(filter(is_text, case.ways())):
                runs[f"case_{number}_{at}"] = (case, way)
                put_run(room, f"case_{number}_{at}", way)
        words = ["rt", "try", "--cases", room, "--seconds", str(seconds)]
        words += [word for name, path in sorted(files.items()) for word in ("--data", f"{name}={path}")]
        said = run(words, os.path.join(folder, "crates", programs.crate_of(program)))
    found: defaultdict[str, list[str]] = defaultdict(list)
    for run_name, (case, _) in runs.items():
        found[case.name].append(judged(case, run_name, said))
    return {name: min(outcomes, key=OUTCOMES.index) for name, outcomes in found.items()}, said


def judged(case: Case, name: str, said: str) -> str:
    """The outcome of a run, by its output, both streams in one, and by its status."""
    found = re.search(rf"^== {name}\n(.*?)^case={name} run=(\S+)(?: status=(\d+))?", said, re.M | re.S)
    if not found:
        return "not run"
    if found[2] == "no-answer":
        return "no answer"
    printed, reported = (part.decode(errors="replace") for part in (b"\0".join(case.printed), case.reported))
    both = (
        "\n".join(part.strip("\n") for part in parts if part) for parts in ((printed, reported), (reported, printed))
    )
    forms = [".*".join(map(re.escape, text.split("\0"))) for text in both]
    is_right = any(re.fullmatch(form, found[1].strip("\n"), re.S) for form in forms)
    return "ok" if is_right and int(found[3] or -1) == case.status else "FAILED"


class Room:
    """The cases by their names, the files that they share, and copies of the sources, one for each job."""

    def __init__(self, room: str, many: int, seconds: int) -> None:
        self.seconds = seconds
        self.cases = {case.name: case for case in cases.cases_in("hsplan")}
        self.streams = list(cases.cases_in("hsplan-stream"))
        self.data = os.path.join(programs.TOP, "examples", "base")
        self.service = os.path.join(room, "service")
        os.mkdir(self.service)
        oracle.put_cases(self.service)
        self.free: queue.Queue[str] = queue.Queue()
        for number in range(many):
            folder = os.path.join(room, str(number))
            os.mkdir(folder)
            copy_to(folder)
            self.free.put(folder)

    def with_text(self, text: str) -> list[Case]:
        shown = [(case, b" ".join((case.words or b"", case.given, case.reported))) for case in self.streams]
        return [case for case, octets in shown if text.encode() in octets]

    def outcomes(self, folder: str, mutants: list[Mutant]) -> Outcomes:
        """The outcomes of what has to refuse these wrong bodies: of tests of one crate, or of cases that share files."""
        kind, names = mutants[0].kind, sorted({it.by for it in mutants})
        if kind == "stream":
            chosen = [case for name in names for case in self.with_text(name)]
            return run_cases(folder, "hsplan-stream", chosen, self.service, self.seconds)
        if kind == "case":
            return run_cases(folder, "hsplan", [self.cases[name] for name in names], self.data, self.seconds)
        crate, refused = names[0].split()[0], mutants[0].refused
        if len(names) > FEW and not refused:
            return run_tests(folder, crate, self.seconds)
        runs = [run_tests(folder, crate, self.seconds, name.split()[1], refused) for name in names]
        return {test: outcome for found, _ in runs for test, outcome in found.items()}, "".join(it for _, it in runs)

    def wanted(self, mutant: Mutant) -> list[str]:
        """The names of the outcomes that count for a wrong body."""
        if mutant.kind == "stream":
            return [case.name for case in self.with_text(mutant.by)]
        return [mutant.by.split()[-1] if mutant.kind == "test" else mutant.by]

    def worst(self, mutant: Mutant, found: dict[str, str]) -> str:
        return min((found.get(name, "not run") for name in self.wanted(mutant)), key=OUTCOMES.index, default="not run")

    def use(self, work: Callable[[str], tuple[bool, str]]) -> tuple[bool, str]:
        folder = self.free.get()
        try:
            return work(folder)
        finally:
            self.free.put(folder)


# ---- what is tried


def stands(room: Room, mutants: list[Mutant], folder: str) -> tuple[bool, str]:
    """Whether what has to refuse these wrong bodies passes on the sources as they stand."""
    found, said = room.outcomes(folder, mutants)
    wrong = [f"{it.kind} {it.by}: {room.worst(it, found)}" for it in mutants if room.worst(it, found) != "ok"]
    lines = [f"{line} on the sources as they stand" for line in dict.fromkeys(wrong)]
    return not wrong, "\n".join([*lines, said]) if wrong else f"as they stand: {mutants[0].kind}, {len(mutants)} pass"


def is_refused(room: Room, mutant: Mutant, folder: str) -> tuple[bool, str]:
    begun, path = time.monotonic(), Path(folder, "crates", mutant.crate, mutant.file)
    text = path.read_text("utf-8")
    path.write_text(changed(mutant), "utf-8")
    try:
        found, said = room.outcomes(folder, [mutant])
    finally:
        path.write_text(text, "utf-8")
    outcome = room.worst(mutant, found)
    line = f"{mutant.crate}/{mutant.name} by {mutant.kind} {mutant.by}, {time.monotonic() - begun:.0f} s"
    if outcome == "FAILED":
        return True, f"refused: {line}"
    return False, f"NOT REFUSED: {line}: {outcome}" + ("" if outcome == "ok" else "\n" + said[-2000:])


def check_forms(room: Room, mutants: list[Mutant]) -> None:
    """Checks that each old text stands once and each case is there, before an hour goes into runs."""
    for mutant in mutants:
        changed(mutant)
        if mutant.kind == "prover":
            continue
        is_there = mutant.by in room.cases if mutant.kind == "case" else room.wanted(mutant)
        if not is_there:
            raise ValueError(f"mutants/{mutant.crate}/{mutant.name}.edit: no {mutant.kind} {mutant.by}")


def grouped(room: Room, mutants: list[Mutant]) -> list[list[Mutant]]:
    """Those whose tests or cases can be run at once: of one crate and allocation, or with the same files."""
    groups: defaultdict[tuple[str, ...], list[Mutant]] = defaultdict(list)
    for it in mutants:
        by_case = {"case": [room.cases[it.by]] if it.by in room.cases else [], "stream": room.with_text(it.by)}
        files = any(case.files for case in by_case.get(it.kind, []))
        own = it.by.split()[0] if it.kind == "test" else it.by if files else ""
        groups[it.kind, own, it.refused].append(it)
    return list(groups.values())


def all_printed(pool: concurrent.futures.Executor, calls: Iterable[Callable[[], tuple[bool, str]]]) -> list[bool]:
    """Prints the line of each call as it ends, and returns the answers."""
    answers = []
    for done in concurrent.futures.as_completed([pool.submit(call) for call in calls]):
        is_right, line = done.result()
        print(line, flush=True)
        answers.append(is_right)
    return answers


def refused_by_prover(top: str, mutants: list[Mutant]) -> bool:
    """Whether the prover refuses all of these wrong bodies, as must-fail edits of a copy that has no others."""
    if not mutants:
        return True
    copy = os.path.join(top, "proved")
    shutil.copytree(
        programs.TOP, copy, ignore=shutil.ignore_patterns("out", "must-fail", ".git", "release", "examples")
    )
    for mutant in mutants:
        folder = Path(copy, "crates", mutant.crate, "must-fail")
        folder.mkdir(exist_ok=True)
        pairs = "".join(f"old: {old}\nnew: {new}\n" for old, new in mutant.pairs)
        (folder / f"{mutant.name}.edit").write_text(f"file: {mutant.file}\n{pairs}", "utf-8")
    crates = sorted({it.crate for it in mutants})
    return subprocess.run(["rt", "must-fail", *crates], cwd=copy, stdin=subprocess.DEVNULL).returncode == 0


def main() -> int:
    words = argparse.ArgumentParser(description="Checks that each wrong body of mutants/ is refused.")
    half = max(1, (os.cpu_count() or 1) // 2)
    words.add_argument("--jobs", type=int, default=half, help="number of runs side by side (half of the processors)")
    words.add_argument("--seconds", type=int, default=300, help="how long a test or a case may take (300)")
    words.add_argument("names", nargs="*", metavar="CRATE | CRATE/NAME")
    given = words.parse_args()
    begun, every = time.monotonic(), read_mutants(given.names)
    of_prover = [it for it in every if it.kind == "prover"]
    mutants = [it for it in every if it.kind != "prover"]
    with tempfile.TemporaryDirectory() as top, concurrent.futures.ThreadPoolExecutor(given.jobs) as pool:
        room = Room(top, given.jobs, given.seconds)
        check_forms(room, every)
        calls = [functools.partial(stands, room, group) for group in grouped(room, mutants)]
        first = all_printed(pool, [functools.partial(room.use, call) for call in calls])
        tries = [functools.partial(is_refused, room, mutant) for mutant in mutants]
        refused = all_printed(pool, [functools.partial(room.use, one) for one in tries])
        is_proved = refused_by_prover(top, of_prover)
    wrong = refused.count(False) + first.count(False)
    minutes = f"{(time.monotonic() - begun) / 60:.0f} minutes by {given.jobs} jobs"
    by_prover = f"of {len(of_prover)} for the prover {'all' if is_proved else 'NOT ALL'} refused"
    print(f"mutants: {len(mutants)} wrong bodies, {sum(refused)} refused, {wrong} faults; {by_prover}; {minutes}")
    return 1 if wrong or not is_proved or not every else 0


if __name__ == "__main__":
    sys.exit(main())
