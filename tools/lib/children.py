"""Runs a program that forks a child for each of many ways to go on, by a library that includes tools/lib/children.h."""

import os
import subprocess
import tempfile
from collections.abc import Iterator, Sequence
from typing import NamedTuple, TypeVar

# How many children one process forks at most.
PIECE = 250

T = TypeVar("T")


class Child(NamedTuple):
    """What a child printed on both streams, and its status, None where it didn't come to its end by itself."""

    output: bytes
    error: bytes
    status: int | None


def pieces(numbers: Sequence[T]) -> list[Sequence[T]]:
    """A list in parts, for one process each."""
    return [numbers[at : at + PIECE] for at in range(0, len(numbers), PIECE)]


def _read(results: bytes) -> Iterator[Child]:
    """What stands in the file ENDED_CHILD."""
    at = 0
    while at < len(results):
        end = results.index(b"\n", at) + 1
        status, has_ended, output, error = map(int, results[at:end].split())
        middle = end + output
        at = middle + error
        yield Child(results[end:middle], results[middle:at], os.waitstatus_to_exitcode(status) if has_ended else None)


def run(words: list[bytes], given: bytes, folder: str, **means: str) -> tuple[bytes, bytes, int]:
    """What a program printed on both streams, and its status. Its streams are files, as those of the children are: what
    comes through a pipe can come in pieces, and a program takes more calls and allocations for more pieces."""
    with tempfile.TemporaryFile() as source, tempfile.TemporaryFile() as out, tempfile.TemporaryFile() as err:
        source.write(given)
        source.seek(0)
        done = subprocess.run(words, cwd=folder, env=dict(os.environ, **means), stdin=source, stdout=out, stderr=err)
        out.seek(0)
        err.seek(0)
        return out.read(), err.read(), done.returncode


def ended(preloaded: str, words: list[bytes], given: bytes, folder: str, lines: Sequence[str]) -> list[Child]:
    """What the children of these lines came to. There are fewer where the program ends before it comes to the last."""
    with tempfile.TemporaryDirectory() as room:
        each, results = os.path.join(room, "each"), os.path.join(room, "ended")
        with open(each, "w", encoding="ascii") as file:
            file.write("".join(f"{line}\n" for line in lines))
        run(words, given, folder, LD_PRELOAD=preloaded, EACH_CHILD=each, ENDED_CHILD=results)
        with open(results, "rb") as file:
            return list(_read(file.read()))
