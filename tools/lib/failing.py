"""The calls of a run that tools/lib/fail_io.c recorded, each of which it can let fail."""

import collections
from collections.abc import Iterable
from typing import NamedTuple


class Call(NamedTuple):
    """A call, with its number among the calls of its name, and how many octets its file gave or took before it."""

    name: str
    number: int
    descriptor: int
    result: int
    path: str
    before: int


def calls_of(lines: Iterable[str]) -> list[Call]:
    numbers: collections.Counter[str] = collections.Counter()
    octets: collections.Counter[tuple[str, str, str]] = collections.Counter()
    calls = []
    for line in lines:
        name, descriptor, result, path = line.rstrip("\n").split(" ", 3)
        numbers[name] += 1
        target = (name, descriptor, path)
        calls.append(Call(name, numbers[name], int(descriptor), int(result), path, octets[target]))
        octets[target] += max(0, int(result)) if name in ("read", "write") else 0
    return calls
