#!/usr/bin/env python3
"""Plants wrong expressions in copies of the companion, one in each, and names those that its tests let pass.

    tools/fuzz/plant_companion.py --reached FILE [--number N] [--seed S] [--jobs J] [--only MODULE]
    tools/fuzz/plant_companion.py --list [--number N] [--seed S] [--only MODULE]    prints the changes, and runs nothing

A change is drawn by the seed: a comparison turned, an operator or a constant exchanged, a condition negated, arguments
swapped, a statement left out. The arguments of `max` and `min` and `frozen` of dataclasses stay: nobody sees a change.
Tests are run until one fails: those that reach the changed line by `FILE`, which `tools/measure/cover_companion.py
--data FILE` keeps, cheap ones first, as long as they take a minute and a half together. Of a value that a module names,
these reach a line that uses the name; of a default, a line of the function.

Printed are the changes that no test refused, and how many there were. Some of these change nothing that anybody sees:
a person judges that. The gate doesn't run this script.
"""

import argparse
import ast
import concurrent.futures
import contextlib
import copy
import itertools
import os
import queue
import random
import re
import shutil
import signal
import sqlite3
import subprocess
import sys
import tempfile
from collections.abc import Iterator
from typing import NamedTuple
from pathlib import Path

sys.path.insert(0, str(Path(__file__).resolve().parents[1]))

from lib import programs


PYTHON = "/usr/bin/python3"
# Seconds that a run gets beside four times what its tests took, and the measured seconds of all tests of a line.
MORE, MOST = 100, 90.0
COMPANION = os.path.join(programs.TOP, "companion")
SWAPPED: dict[type, type] = {
    ast.Eq: ast.NotEq, ast.NotEq: ast.Eq, ast.Lt: ast.LtE, ast.LtE: ast.Lt, ast.Gt: ast.GtE, ast.GtE: ast.Gt,
    ast.In: ast.NotIn, ast.NotIn: ast.In, ast.Is: ast.IsNot, ast.IsNot: ast.Is, ast.Add: ast.Sub, ast.Sub: ast.Add,
    ast.Mult: ast.FloorDiv, ast.FloorDiv: ast.Mult, ast.Div: ast.Mult, ast.And: ast.Or, ast.Or: ast.And,
}  # fmt: skip


class Spot(NamedTuple):
    path: str
    first: int
    last: int


class Change(NamedTuple):
    """A change of a module: its path, its line, what is changed there, the whole text with it, and where it works."""

    path: str
    line: int
    what: str
    text: str
    spots: list[Spot]


def _ways(node: ast.AST) -> Iterator[tuple[str, ast.AST]]:
    """What may stand in place of a node."""
    other = copy.copy(node)
    if isinstance(other, ast.Compare) and type(other.ops[0]) in SWAPPED:
        other.ops = [SWAPPED[type(other.ops[0])](), *other.ops[1:]]
        yield "comparison", other
    elif isinstance(other, (ast.BinOp, ast.BoolOp)) and type(other.op) in SWAPPED:
        other.op = SWAPPED[type(other.op)]()
        yield "operator", other
    elif isinstance(other, ast.Constant) and type(other.value) is int:
        other.value += 1
        yield "number", other
    elif isinstance(other, ast.Constant) and type(other.value) is bool:
        other.value = not other.value
        yield "truth", other
    elif isinstance(other, (ast.IfExp, ast.If)):
        other.test = ast.UnaryOp(ast.Not(), other.test)
        yield "condition", other
    elif isinstance(other, ast.Call) and len(other.args) == 2 and not other.keywords and not _is_of_any_order(other):
        other.args = other.args[::-1]
        yield "arguments", other
    elif isinstance(other, (ast.Raise, ast.AugAssign)) or isinstance(other, ast.Expr) and _is_call(other):
        yield "left out", ast.Pass()


def _is_call(node: ast.Expr) -> bool:
    return isinstance(node.value, ast.Call)


def _is_of_any_order(node: ast.Call) -> bool:
    return isinstance(node.func, ast.Name) and node.func.id in ("max", "min")


class _Put(ast.NodeTransformer):
    def __init__(self, old: ast.AST, new: ast.AST) -> None:
        self.old, self.new = old, new

    def visit(self, node: ast.AST) -> ast.AST:
        return ast.copy_location(self.new, node) if node is self.old else self.generic_visit(node)


def _all_of(tree: ast.AST) -> list[tuple[ast.AST, str, ast.AST]]:
    """The nodes of a module that may be changed, with the kind of the change and what then stands there."""
    kept = [it.value for it in ast.walk(tree) if isinstance(it, ast.keyword) and it.arg == "frozen"]
    return [(node, what, new) for node in ast.walk(tree) if node not in kept for what, new in _ways(node)]


def _parsed(path: str) -> ast.Module:
    with open(os.path.join(COMPANION, "hsp", path), encoding="utf-8") as file:
        return ast.parse(file.read())


def change_of(path: str, at: int) -> Change:
    """The change of a module with a number."""
    tree = _parsed(path)
    node, what, new = _all_of(tree)[at]
    before = ast.unparse(node).split("\n")[0]
    text = ast.unparse(ast.fix_missing_locations(_Put(node, new).visit(tree)))
    return Change(path, getattr(node, "lineno", 0), f"{what}: {before[:90]}", text, spots_of(path, _parsed(path), at))


def _spot(path: str, node: ast.AST) -> Spot:
    first = getattr(node, "lineno", 1)
    return Spot(path, first, getattr(node, "end_lineno", None) or first)


def _holders(tree: ast.AST, node: ast.AST) -> list[ast.AST]:
    """What a node stands in, the outermost first, and the node itself."""
    if tree is node:
        return [node]
    for it in ast.iter_child_nodes(tree):
        inside = _holders(it, node)
        if inside:
            return [tree, *inside]
    return []


def _names_set(statement: ast.AST) -> set[str]:
    """The names that a statement gives a value."""
    targets = getattr(statement, "targets", None) or [getattr(statement, "target", None)]
    return {name.id for it in targets if it for name in ast.walk(it) if isinstance(name, ast.Name)}


def _is_use(node: ast.AST, names: set[str]) -> bool:
    if isinstance(node, ast.Attribute):
        return node.attr in names
    return isinstance(node, ast.Name) and isinstance(node.ctx, ast.Load) and node.id in names


def spots_of(path: str, tree: ast.Module, at: int) -> list[Spot]:
    """Where a change works: its own lines; the function's, of a default; those that use a name, of a module's value."""
    node = _all_of(tree)[at][0]
    holders = _holders(tree, node)
    inner = next((it for it in holders[::-1] if isinstance(it, (ast.FunctionDef, ast.Lambda))), None)
    if inner and node in {it for part in ast.iter_child_nodes(inner.args) for it in ast.walk(part)}:
        body: list[ast.AST] = [*inner.body] if isinstance(inner, ast.FunctionDef) else [inner]
        return [_spot(path, it) for it in body]
    if inner:
        return [_spot(path, node)]
    names = set().union(*(_names_set(it) for it in holders))
    return [_spot(other, use) for other in modules("") for use in ast.walk(_parsed(other)) if _is_use(use, names)] or [
        _spot(path, node)
    ]


def modules(only: str) -> list[str]:
    top = os.path.join(COMPANION, "hsp")
    found = [
        os.path.relpath(os.path.join(at, it), top)
        for at, _, names in os.walk(top)
        for it in names
        if it.endswith(".py") and not it.startswith("__")
    ]
    return sorted(it for it in found if it.startswith(only))


def drawn(number: int, seed: int, only: str) -> list[Change]:
    """So many changes, each of a module that is as likely as what it has to be changed."""
    every = [(path, at) for path in modules(only) for at in range(len(_all_of(_parsed(path))))]
    return [change_of(*it) for it in random.Random(seed).sample(every, min(number, len(every)))]


class Reached:
    """Which tests reach a line, and how many seconds each takes."""

    def __init__(self, path: str) -> None:
        self._data = sqlite3.connect(path, check_same_thread=False)
        self.seconds: dict[str, float] = dict(self._data.execute("select test, seconds from seconds").fetchall())

    def keep(self, room: str) -> None:
        """Forgets the tests that a copy no longer has."""
        words = [PYTHON, "-m", "pytest", "--collect-only", "-q", "-p", "no:cacheprovider", "tests"]
        done = subprocess.run(words, cwd=os.path.join(room, "companion"), stdout=subprocess.PIPE, text=True)
        there = set(done.stdout.splitlines())
        self.seconds = {test: it for test, it in self.seconds.items() if test in there}

    def _names(self, path: str, first: int, last: int) -> set[str]:
        query = """select distinct context from arc join context on context.id = context_id
            join file on file.id = file_id where file.path like ? and abs(tono) between ? and ?"""
        rows = self._data.execute(query, (f"%/hsp/{path}", first, last)).fetchall()
        return {re.sub(r" \((call|setup|teardown)\)$", "", name) for (name,) in rows}

    def tests(self, change: Change) -> list[str]:
        """The tests that reach a change, the cheap ones first."""
        found = set().union(*(self._names(*it) for it in change.spots))
        if not found - {""}:  # a line that is run only where the module is loaded
            found = self._names(change.path, 1, 1 << 20)
        of = self.seconds
        ordered = sorted(found & set(of), key=lambda it: of[it])
        whole = itertools.accumulate(of[it] for it in ordered)
        return [it for it, seconds in zip(ordered, whole) if seconds <= MOST]


def are_passed(room: str, words: list[str], seconds: float) -> bool:
    """Whether tests of a copy pass, and in time. What they have started is ended with them."""
    own = programs.variables()
    whole = [PYTHON, "-m", "pytest", "-q", "-x", "-p", "no:cacheprovider", f"--basetemp={room}/tests", *words]
    run = subprocess.Popen(
        whole,
        cwd=os.path.join(room, "companion"),
        env={**own, **os.environ, "PYTHONDONTWRITEBYTECODE": "1"},
        stdout=subprocess.DEVNULL,
        stderr=subprocess.DEVNULL,
        start_new_session=True,
    )
    try:
        return run.wait(seconds) == 0
    except subprocess.TimeoutExpired:
        return False
    finally:
        with contextlib.suppress(ProcessLookupError):
            os.killpg(run.pid, signal.SIGKILL)
        run.wait()


def is_refused(change: Change, room: str, reached: Reached) -> bool:
    """Whether a test fails where a copy has the change. A run without an end is refused too."""
    path = os.path.join(room, "companion", "hsp", change.path)
    tests = reached.tests(change)
    if not tests:  # nothing reaches it, so nothing refuses it
        return False
    seconds = MORE + 4 * sum(reached.seconds[it] for it in tests)
    with open(path, encoding="utf-8") as file:
        before = file.read()
    with open(path, "w", encoding="utf-8") as file:
        file.write(change.text)
    try:
        return not are_passed(room, tests, seconds)
    finally:
        with open(path, "w", encoding="utf-8") as file:
            file.write(before)


def copied(room: str) -> str:
    for it in ("companion", "examples", "tools", "docs", "completions"):
        shutil.copytree(os.path.join(programs.TOP, it), os.path.join(room, it))
    for it in ("VERSION", "README.md", "CHANGELOG.md", "crates.txt"):
        shutil.copy(os.path.join(programs.TOP, it), room)
    return room


def planted(changes: list[Change], jobs: int, reached: Reached) -> list[Change]:
    rooms: queue.Queue[str] = queue.Queue()
    done: list[bool] = []
    with tempfile.TemporaryDirectory() as top, concurrent.futures.ThreadPoolExecutor(jobs) as pool:
        for at in range(jobs):
            os.mkdir(os.path.join(top, str(at)))
            rooms.put(copied(os.path.join(top, str(at))))
        reached.keep(os.path.join(top, "0"))

        def tried(change: Change) -> bool:
            room = rooms.get()
            try:
                refused = is_refused(change, room, reached)
            finally:
                rooms.put(room)
            done.append(refused)
            if not refused:
                print(f"not refused: hsp/{change.path}:{change.line}: {change.what}", flush=True)
            print(f"{len(done)} of {len(changes)} tried", file=sys.stderr, flush=True)
            return refused

        return [it for it, refused in zip(changes, pool.map(tried, changes)) if not refused]


def main() -> int:
    arguments = argparse.ArgumentParser(description="Plants wrong expressions in the companion.")
    arguments.add_argument("--number", type=int, default=100)
    arguments.add_argument("--seed", type=int, default=1)
    arguments.add_argument("--jobs", type=int, default=2)
    arguments.add_argument("--only", default="", help="modules whose path begins so")
    arguments.add_argument("--reached", metavar="FILE", help="what tools/measure/cover_companion.py --data kept")
    arguments.add_argument("--list", action="store_true", help="only print the changes")
    chosen = arguments.parse_args()
    changes = drawn(chosen.number, chosen.seed, chosen.only)
    if chosen.list:
        for it in changes:
            print(f"hsp/{it.path}:{it.line}: {it.what}")
        return 0
    if not chosen.reached:
        arguments.error("give --reached FILE, which tools/measure/cover_companion.py --data FILE keeps")
    passed = planted(changes, chosen.jobs, Reached(chosen.reached))
    print(f"planted: {len(changes)} changes of seed {chosen.seed}, {len(passed)} not refused")
    return 0


if __name__ == "__main__":
    programs.ended(main)
