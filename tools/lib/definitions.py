"""Definitions of the crates' specs, and the types and limits of their sources: which names which."""

import glob
import os
import re
import sys
from collections.abc import Iterable, Iterator
from typing import TypeVar

from lib import programs

# A definition: its module, and its own name.
One = tuple[str, str]
Item = TypeVar("Item")

STARTS = re.compile(
    r"^(?:infix[lr]? .*|(?:unfoldable |opaque )*(?:abbrev |record |data |pub )+(?:record |data )?(?P<name>\S+) .*)$"
)
TYPE = re.compile(r"^pub(?:\(crate\))? (?:struct|enum|const) (?P<name>\w+)")
WORD = re.compile(r"[A-Za-z_][\w'\-]*(?:\.[A-Za-z_][\w'\-]*)*|>>=")
BOUND = re.compile(r"λ ([^.]*)\.|\(([\w '\-]+) : |\{([\w '\-]+) : |^  pub ([\w'\-]+) :", re.M)


def words_in(lines: Iterable[str]) -> int:
    return sum(len(re.findall(r"[^\W\d_][\w']*", it)) for it in lines if not re.match(r"(?:pub |ghost )*use ", it))


class Module:
    """A file of definitions: each by its name with its line, its text and its number of words, and what its `use`
    lines bring in."""

    def __init__(self, path: str) -> None:
        self.path = path
        self.definitions: dict[str, tuple[int, list[str]]] = {}
        self.words: dict[str, int] = {}
        self.brought: dict[str, One] = {}
        self.aliases: dict[str, str] = {}
        with open(path, encoding="utf-8") as file:
            self.read(file.read().split("\n"))

    def read(self, lines: list[str]) -> None:
        at = 0
        while at < len(lines):
            uses = re.match(r"(?:pub |ghost )?use ([\w.]+)\.\{(.*)\};?$", lines[at])
            alias = re.match(r"(?:pub |ghost )?use ([\w.]+) as (\w+);?$", lines[at])
            begins = STARTS.match(lines[at])
            if uses:
                self.bring(uses.group(1), uses.group(2))
            elif alias:
                self.aliases[alias.group(2)] = alias.group(1)
            elif begins and begins.group("name"):
                at = self.define(begins.group("name"), lines, at)
            at += 1

    def bring(self, module: str, names: str) -> None:
        for name in names.split(", "):
            own = name.split(" as ")
            self.brought[own[-1].strip("◌")] = (module, own[0])

    def define(self, name: str, lines: list[str], at: int) -> int:
        end = at
        while end < len(lines) and lines[end].strip():
            end += 1
        self.put(name.strip("◌"), lines, at, end, "--")
        return end

    def put(self, name: str, lines: list[str], at: int, end: int, mark: str) -> None:
        """A definition of the lines from `at` to `end`, with the comment that stands directly above it."""
        above = at
        while above > 0 and lines[above - 1].startswith(mark):
            above -= 1
        self.definitions[name] = (at + 1, [it for it in lines[at:end] if not it.strip().startswith(mark)])
        self.words[name] = words_in(lines[above:end])


class Source(Module):
    """A file of the sources: its types and limits."""

    def read(self, lines: list[str]) -> None:
        for at, line in enumerate(lines):
            begins = TYPE.match(line)
            if begins:
                end = at
                while not lines[end].rstrip().endswith(";") and lines[end] != "}":
                    end += 1
                kept = [it for it in lines[: end + 1] if not it.startswith("#[")]
                shift = end + 1 - len(kept)
                self.put(begins.group("name"), kept, at - shift, end + 1 - shift, "//")
                self.definitions[begins.group("name")] = (at + 1, self.definitions[begins.group("name")][1])


Known = dict[str, Module]


def modules() -> Known:
    found: Known = {}
    for path in sorted(glob.glob(os.path.join(programs.TOP, "crates", "*", "specs", "*.antt"))):
        crate, name = path.split(os.sep)[-3], os.path.basename(path)[:-5]
        found[f"Rattle.{crate}.specs.{name}"] = Module(path)
    for path in sorted(glob.glob(os.path.join(programs.TOP, "crates", "*", "src", "*.rt"))):
        crate, name = path.split(os.sep)[-3], os.path.basename(path)[:-3]
        found[f"Rattle.{crate}.specs.declared.{name}"] = Source(path)
    return found


def settle(known: Known, module: str, name: str) -> One:
    """The definition that a name in a module stands for: the module's own, one that it passes on, or the type of
    which the name is a constructor."""
    while module in known and name not in known[module].definitions and name in known[module].brought:
        module, name = known[module].brought[name]
    module, name = declared(known, module, name)
    above, _, kind = module.rpartition(".")
    if module not in known and above in known and kind in known[above].definitions:
        return above, kind
    if module in known and name not in known[module].definitions:
        for own, (_, text) in known[module].definitions.items():
            if any(line.startswith(f"  {name} :") for line in text):
                return module, own
    return module, name


def declared(known: Known, module: str, name: str) -> One:
    """The file and the type or limit for a type, a variant or a limit of the sources. Any other name stays as it
    is."""
    parts = module.split(".")
    if "declared" not in parts:
        return module, name
    file = ".".join(parts[: parts.index("declared") + 2])
    kind = parts[parts.index("declared") + 2 :] + [name]
    own = name if kind[0] == "TheConstants" else kind[0]
    return (file, own) if file in known and own in known[file].definitions else (module, name)


def names_in(module: Module, text: str) -> Iterator[tuple[str | None, str]]:
    """The definitions that a text of a module names, in order, as module and name."""
    bound = {word for groups in BOUND.findall(text) for group in groups for word in re.findall(r"[\w'\-]+", group)}
    for word in WORD.findall(text):
        first, _, rest = word.partition(".")
        if rest and first in module.aliases:
            yield module.aliases[first], rest.split(".")[0]
        elif first not in bound and first in module.brought:
            yield module.brought[first]
        elif first not in bound and first in module.definitions:
            yield None, first


def is_own(known: Known, one: One) -> bool:
    return one[0] in known and one[1] in known[one[0]].definitions


def mentioned(known: Known, one: One) -> Iterator[One]:
    """What a definition mentions. A type of the sources mentions the types and limits of its crate by their names."""
    text = "\n".join(known[one[0]].definitions[one[1]][1])
    if isinstance(known[one[0]], Source):
        crate = one[0].split(".")[1]
        for word in dict.fromkeys(re.findall(r"\w+", re.sub(r"//.*", "", text))):
            owners = [
                it for it in known if it.startswith(f"Rattle.{crate}.specs.declared.") and word in known[it].definitions
            ]
            if owners and word != one[1]:
                yield owners[0], word
    else:
        for other, word in names_in(known[one[0]], text):
            yield settle(known, other or one[0], word)


def reach(known: Known, starts: Iterable[One], seen: set[One]) -> list[One]:
    """What the starts reach, without what was seen before."""
    found: list[One] = []
    waiting = list(starts)
    while waiting:
        one = waiting.pop(0)
        if one not in seen:
            seen.add(one)
            found.append(one)
            if is_own(known, one):
                waiting = [it for it in mentioned(known, one) if it not in seen] + waiting
    return found


def by_need(items: Iterable[Item], needs: dict[Item, set[Item]]) -> list[Item]:
    """The items, each after those that it needs, and otherwise in their order."""
    ordered: list[Item] = []
    left = list(items)
    while left:
        free = [it for it in left if not needs[it] - set(ordered)]
        if not free:
            sys.exit(f"reading: these mention one another: {left}")
        ordered.append(free[0])
        left.remove(free[0])
    return ordered


def in_order(known: Known, found: list[One]) -> list[One]:
    """The own definitions of a part. A file comes after those that it mentions, and so does a definition within a
    file; otherwise they go by lines."""
    own = sorted((it for it in found if is_own(known, it)), key=lambda one: known[one[0]].definitions[one[1]][0])
    below = {it: {other for other in mentioned(known, it) if other in own and other != it} for it in own}
    files = list(dict.fromkeys(it[0] for it in reversed(found) if it in below))
    needs = {file: {other[0] for it in own if it[0] == file for other in below[it]} - {file} for file in files}
    inside = {it: {other for other in below[it] if other[0] == it[0]} for it in own}
    return [it for file in by_need(files, needs) for it in by_need([one for one in own if one[0] == file], inside)]


def unread(known: Known, order: list[One]) -> list[tuple[One, One]]:
    """The definitions that are mentioned before they are read."""
    place = {it: at for at, it in enumerate(order)}
    return [
        (one, it)
        for one in order
        for it in mentioned(known, one)
        if it in place and place[it] > place[one] and it != one
    ]
