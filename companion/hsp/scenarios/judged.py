"""Many plans, side by side, each of which the checker has judged."""

import contextlib
import os
import sys
import threading
import time
from collections.abc import Callable, Sequence
from typing import TypeVar

from hsp.base.programs import Certificate, Inputs, Programs
from hsp.base.text import colored, say, show_progress

Answer = TypeVar("Answer")
# After so many seconds a terminal is shown how far the plans are.
PATIENCE = 1.0
# What takes more seconds than this is said beforehand.
SAID = 10.0


class Judged(Programs):
    """The programs. A certificate is returned only when the checker has said yes to it."""

    def __init__(self) -> None:
        super().__init__()
        self._lock = threading.Lock()
        self.judged_so_far = 0

    def plan(self, inputs: Inputs) -> tuple[Certificate, str]:
        certificate, path = super().plan(inputs)
        self.insist(inputs, path)
        return certificate, path

    def insist(self, inputs: Inputs, plan: str) -> None:
        super().insist(inputs, plan)
        self._count()

    def says_yes(self, inputs: Inputs, plan: str) -> bool:
        """Whether the checker says yes to a certificate that hsp has put together."""
        is_valid = self.verdict(inputs, plan) == "yes"
        if is_valid:
            self._count()
        return is_valid

    def _count(self) -> None:
        with self._lock:
            self.judged_so_far += 1

    def put_away(self, *paths: str) -> None:
        """Takes away files that were made on the way and aren't asked for again."""
        for path in paths:
            with contextlib.suppress(OSError):
                os.unlink(path)


class Progress:
    """How many of the plans are made, on a terminal, where they take longer than a second."""

    def __init__(self, number: int) -> None:
        self._number, self._done, self._begun = number, 0, time.monotonic()
        self._is_shown = False

    def __call__(self) -> None:
        self._done += 1
        if sys.stderr.isatty() and (self._is_shown or time.monotonic() - self._begun > PATIENCE):
            self._is_shown = self._done < self._number
            show_progress(f"planning: {self._done} of {self._number}" if self._is_shown else "")


def lanes() -> int:
    """How many plans are made at a time: one for each processor that this process may use."""
    return max(1, len(os.sched_getaffinity(0)))


def side_by_side(tasks: Sequence[Callable[[], Answer]], done: Callable[[], None] = lambda: None) -> list[Answer]:
    """The answers of the tasks, in their order. A task mostly waits for a program."""
    from concurrent.futures import ThreadPoolExecutor  # loaded only here, as it takes others with it

    found: list[Answer] = []
    pool = ThreadPoolExecutor(min(lanes(), max(1, len(tasks))))
    try:
        for answer in [pool.submit(task) for task in tasks]:
            found.append(answer.result())
            done()
    finally:
        pool.shutdown(cancel_futures=True)
    return found


def say_how_long(number: int, first: float, what: str) -> None:
    """Says beforehand how long many plans take, by the seconds that the first one took."""
    seconds = number * first / lanes()
    if seconds > SAID:
        say(f"hsp: {number:,} {what}, about {round(seconds, -1):,.0f} seconds on {lanes()} processors", err=True)


def yes_line(programs: Judged) -> str:
    """How many certificates the checker has judged."""
    return f"check {colored('yes', 'green')} to each of {programs.judged_so_far:,} plans and shortages"
