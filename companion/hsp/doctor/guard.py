"""Explains in a process of its own, whose time and memory are bounded. What it found until then counts."""

import contextlib
import gc
import io
import os
import pickle
import select
import signal
import time
from collections.abc import Callable
from dataclasses import dataclass, field
from typing import Any

from hsp.doctor.findings import Finding
from hsp.doctor.question import Show

# Seconds by the clock, and octets in memory, that an explanation takes at most.
SECONDS, MEMORY = 6.0, 800_000_000
PAGE = os.sysconf("SC_PAGE_SIZE")


@dataclass
class Work:
    """What an explanation came to: its findings, what it returned, and whether it was ended before that."""

    findings: list[Finding] = field(default_factory=list)
    end: Any = None
    is_ended: bool = True


def _work(work: Callable[[Show], Any], descriptor: int) -> None:
    """Does the work, and passes each finding on as soon as it is there, then what comes out or a fault."""
    with open(descriptor, "wb") as pipe:

        def show(finding: Finding) -> None:
            pickle.dump(finding, pipe)
            pipe.flush()

        try:
            end = work(show)
        except OSError as fault:
            end = fault
        pickle.dump([end], pipe)


def _child(work: Callable[[Show], Any], descriptor: int) -> None:
    """The process that does the work. It ends without what a Python tidies up at its end: the parent does that."""
    status = 1
    try:
        gc.freeze()  # what is there isn't looked through any more, so both processes share its memory
        os.setpgid(0, 0)
        signal.alarm(int(2 * SECONDS))
        for number in (signal.SIGINT, signal.SIGTERM, signal.SIGHUP):
            signal.signal(number, signal.SIG_DFL)
        os.dup2(os.open(os.devnull, os.O_RDWR), 2)
        _work(work, descriptor)
        status = 0
    finally:
        os._exit(status)


def _octets(child: int) -> int:
    """What a process has in memory."""
    try:
        with open(f"/proc/{child}/statm", encoding="ascii") as file:
            return int(file.read().split()[1]) * PAGE
    except (OSError, IndexError):
        return 0


def _read(child: int, descriptor: int) -> bytes:
    """What a process writes until its end, or until it has taken too much."""
    found, until = b"", time.monotonic() + SECONDS
    while time.monotonic() < until and _octets(child) < MEMORY:
        if select.select([descriptor], [], [], 0.01)[0]:
            block = os.read(descriptor, 1 << 20)
            if not block:
                break
            found += block
    return found


def guarded(work: Callable[[Show], Any]) -> Work:
    """The findings of some work, and what it returns."""
    reading, writing = os.pipe()
    child = os.fork()
    if not child:
        _child(work, writing)
    os.close(writing)
    try:
        octets = _read(child, reading)
    finally:
        os.close(reading)
        for end in (os.killpg, os.kill):  # the second where it has no group yet
            with contextlib.suppress(ProcessLookupError):
                end(child, signal.SIGKILL)
        os.waitpid(child, 0)
    return _unpacked(octets)


def _unpacked(octets: bytes) -> Work:
    result, file = Work(), io.BytesIO(octets)
    with contextlib.suppress(EOFError, pickle.UnpicklingError):
        while result.is_ended:
            item = pickle.load(file)
            if isinstance(item, Finding):
                result.findings.append(item)
            else:
                result.is_ended, result.end = False, item[0]
    if isinstance(result.end, OSError):
        raise result.end
    return result
