"""Talks with a program over pipes: a row is written, and its answer is read before the next row is written."""

import subprocess
import sys
import threading
import time
from collections.abc import Iterable
from typing import NamedTuple

# The seconds of a whole talk, beyond which the program is ended.
PATIENCE = 60


class Talk(NamedTuple):
    """The seconds by the clock that each row of a log took, and how the program ended: what it printed behind the last
    answer, on both streams, and its status."""

    seconds: list[float]
    ended: tuple[bytes, bytes, int]

    def line(self) -> str:
        rows = len(self.seconds)
        each = f"{sum(self.seconds) / rows * 1e6:.1f} microseconds for each of {rows:,} rows"
        return f"a co-process over pipes: {each}, one after the other"


def talk(words: list[str], folder: str, rows: Iterable[bytes]) -> Talk:
    """Asks for rows of a log. A talk that stops ends the script."""
    pipe, taken = subprocess.PIPE, []
    running = subprocess.Popen(words, cwd=folder, stdin=pipe, stdout=pipe, stderr=pipe)
    assert running.stdin and running.stdout and running.stderr
    watch = threading.Timer(PATIENCE, running.kill)
    watch.start()
    running.stdin.write(b"region,handle\n")
    for row in rows:
        begun = time.monotonic()
        running.stdin.write(row + b"\n")
        running.stdin.flush()
        line = running.stdout.readline()
        taken.append(time.monotonic() - begun)
        if not line.endswith(b"\n"):
            watch.cancel()
            running.kill()
            sys.exit(f"{' '.join(words)}: no answer to {row!r}")
    running.stdin.close()
    rest, said, status = running.stdout.read(), running.stderr.read(), running.wait()
    watch.cancel()
    return Talk(taken, (rest, said, status))
