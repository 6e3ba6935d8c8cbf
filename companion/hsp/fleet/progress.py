"""How far a run is, on a terminal: parts, rows a second, workers."""

import sys
import time
from collections.abc import Callable
from typing import Any

from hsp.base.numbers import some
from hsp.base.text import show_progress
from hsp.fleet.engine import Engine, Reply


def shown(engine: Engine, word: str, number: int, rows_of: Callable[[Reply], int]) -> Callable[[list[Reply]], Any]:
    """Shows twice a second how many of `number` logs or fronts are done."""
    begun, last = time.monotonic(), 0.0

    def show(done: list[Reply]) -> None:
        nonlocal last
        now = time.monotonic()
        if now - last < 0.5 and len(done) < number or not sys.stderr.isatty():
            return
        last = now
        speed = sum(map(rows_of, done)) / max(now - begun, 0.001)
        workers = some(len(engine.workers()), "worker")
        line = f"{len(done):,} of {some(number, word)}, {speed:,.0f} rows a second, {workers}"
        show_progress(line)
        if len(done) == number:
            show_progress("")

    return show
