"""Signals that end a command. It takes away what it had begun, and its status is 128 and the signal's number."""

import contextlib
import signal
import threading
from collections.abc import Callable, Iterator
from typing import Any

STOPPED = 128
ENDING = (signal.SIGINT, signal.SIGTERM, signal.SIGHUP)
# How deep steps stand that may not be cut, and the signals that came meanwhile.
_depth: list[None] = []
_late: list[int] = []


class Stopped(BaseException):
    """A signal ends the command."""

    def __init__(self, number: int) -> None:
        super().__init__(number)
        self.status = STOPPED + number


@contextlib.contextmanager
def uncut() -> Iterator[None]:
    """A step that is done to its end: a signal that comes meanwhile counts after it."""
    _depth.append(None)
    try:
        yield
    finally:
        _depth.pop()
        if _late and not _depth:
            signal.raise_signal(_late.pop())


def deaf() -> None:
    """Lets a command that ends tidy up: no second signal cuts that."""
    for ending in ENDING:
        signal.signal(ending, signal.SIG_IGN)


def _ended(number: int) -> None:
    deaf()
    raise Stopped(number)


@contextlib.contextmanager
def stopping(stop: Callable[[int], None] = _ended) -> Iterator[None]:
    """Has these signals call a function. One that the caller ignores, as nohup does, stays ignored."""

    def arrived(number: int, _: Any) -> None:
        if _depth:
            _late.append(number)
        else:
            stop(number)

    is_main = threading.current_thread() is threading.main_thread()
    heard = [ending for ending in ENDING if is_main and signal.getsignal(ending) != signal.SIG_IGN]
    before = {ending: signal.signal(ending, arrived) for ending in heard}
    try:
        yield
    finally:
        for number, handler in before.items():
            signal.signal(number, handler)
