"""Logs that are counted in pieces, by several processes side by side. The parts come in the order of the logs.

A process takes the next piece as soon as it has passed on the last one. It waits where it is far ahead of what is
wanted.
"""

import contextlib
import gc
import itertools
import multiprocessing
import os
import signal
import stat
import sys
import traceback
from collections import defaultdict, deque
from collections.abc import Callable, Generator, Iterable, Iterator, Sequence
from multiprocessing.connection import Connection, wait
from typing import Any, NamedTuple

from hsp.base.programs import Missing, Refused
from hsp.base.signals import uncut
from hsp.base.unfit import Unfit
from hsp.intake import logs as plain
from hsp.intake.logs import Piece, pieces_of
from hsp.intake.queries import Reading
from hsp.intake.reader import Part, parts

# Fewer octets for each process, or in a piece, are counted sooner by fewer processes, or in fewer pieces.
LEAST = 1 << 22
# So many pieces a process counts of logs that aren't long. So all end at about the same time.
EACH = 4
MOST_JOBS = 64
# So many pieces are begun before the first of them has ended, for each process. Of a piece so many parts are held.
AHEAD, MOST_HELD = 4, 2
Work = Callable[[Piece], Iterable[Part]]


class Fault(NamedTuple):
    """A fault of a process, by its class and what that is made of."""

    kind: Callable[..., BaseException]
    words: tuple[Any, ...]


def _fault_of(error: Exception) -> Fault:
    if isinstance(error, Refused):
        return Fault(Refused, (error.status, error.line))
    if isinstance(error, Missing):
        return Fault(Missing, error.lines)
    if isinstance(error, Unfit):
        return Fault(Unfit, (error.message,))
    if isinstance(error, MemoryError):
        return Fault(MemoryError, ())
    if isinstance(error, OSError):
        return Fault(OSError, (error.errno, error.strerror, error.filename))
    return Fault(RuntimeError, ("".join(traceback.format_exception(error)),))


class _Helper:
    """A process that counts pieces, and the pipe to it. `piece` is the number of the one that it has."""

    def __init__(self, work: Callable[[int], Iterable[Part]], others: Sequence["_Helper"]) -> None:
        context = multiprocessing.get_context("fork")
        self.pipe, its = context.Pipe()
        away = [self.pipe, *(other.pipe for other in others)]
        self.process = context.Process(target=_serve, args=(its, away, work, sys.stdin), daemon=True)
        self.piece: int | None = None
        with uncut(), _without_stdin():  # the process has no handlers of signals of its own yet
            self.process.start()
        its.close()

    def give(self, number: int) -> None:
        """Has a piece counted. A process that isn't there any more is noticed when its parts are received."""
        self.piece = number
        with contextlib.suppress(OSError):
            self.pipe.send(number)

    def end(self) -> None:
        self.process.kill()
        self.process.join()
        self.pipe.close()

    def received(self) -> Part | Fault:
        try:
            return self.pipe.recv()  # type: ignore[no-any-return]
        except (EOFError, ConnectionError):
            self.process.join()
            code = self.process.exitcode or 0
            why = f"ended by signal {-code}" if code < 0 else f"ended with status {code}"
            return Fault(Missing, (f"a process that counts was {why}; --jobs 1 takes the least memory",))


@contextlib.contextmanager
def _without_stdin() -> Iterator[None]:
    """Hides standard input, which a process would close at its start: one of the logs may come from there."""
    own, sys.stdin = sys.stdin, None  # type: ignore[assignment]
    try:
        yield
    finally:
        sys.stdin = own


def _serve(pipe: Connection, away: Sequence[Connection], work: Callable[[int], Iterable[Part]], stdin: Any) -> None:
    """Counts pieces by their numbers until nobody asks for more. An interrupt is for the command that asks."""
    for other in away:
        other.close()
    sys.stdin = stdin
    signal.signal(signal.SIGINT, signal.SIG_IGN)
    for number in (signal.SIGTERM, signal.SIGHUP):
        signal.signal(number, signal.SIG_DFL)
    gc.freeze()  # what is there isn't looked through any more, so all processes share its memory
    with contextlib.suppress(EOFError, ConnectionError):
        while True:
            own = itertools.chain.from_iterable(map(work, [pipe.recv()]))
            is_last = False
            while not is_last:
                found = _next(own)
                is_last = isinstance(found, Fault) or found.is_last
                try:
                    pipe.send(found)
                except MemoryError:
                    pipe.send(Fault(MemoryError, ()))


def _next(own: Iterator[Part]) -> Part | Fault:
    try:
        return next(own)
    except Exception as error:
        return _fault_of(error)


class _Crew:
    """Processes with the pieces that they are to count. Those ahead of what is wanted wait."""

    def __init__(self, work: Work, pieces: Sequence[Piece], jobs: int) -> None:
        self._pieces, self._next, self._wanted = pieces, 0, 0
        self._helpers: list[_Helper] = []
        self._found: dict[int, deque[Part | Fault]] = defaultdict(deque)
        self._ahead = AHEAD * jobs
        try:
            for _ in range(jobs):
                self._helpers.append(_Helper(lambda at: work(pieces[at]), self._helpers))
        except BaseException:
            self.end()
            raise

    def end(self) -> None:
        for helper in self._helpers:
            helper.end()

    def parts(self) -> Iterator[tuple[Piece, Part]]:
        """The parts of all pieces in their order."""
        for self._wanted, piece in enumerate(self._pieces):
            is_last = False
            while not is_last:
                self._hand_out()
                while not self._found[self._wanted]:
                    self._receive()
                part = self._found[self._wanted].popleft()
                if isinstance(part, Fault):
                    raise part.kind(*part.words)
                is_last = part.is_last
                yield piece, part
            del self._found[self._wanted]

    def _hand_out(self) -> None:
        """Gives the next pieces to those that have none."""
        for helper in self._helpers:
            is_there = self._next < min(len(self._pieces), self._wanted + self._ahead)
            if helper.piece is None and is_there:
                helper.give(self._next)
                self._next += 1

    def _receive(self) -> None:
        """Takes what is there. A process with parts that aren't wanted yet waits."""
        busy = [own for own in self._helpers if own.piece is not None]
        free = [own for own in busy if own.piece == self._wanted or len(self._found[own.piece or 0]) < MOST_HELD]
        ready = wait([own.pipe for own in free])
        for helper in (own for own in busy if own.pipe in ready):
            found = helper.received()
            self._found[helper.piece or 0].append(found)
            if isinstance(found, Fault) or found.is_last:
                helper.piece = None
        self._hand_out()


def _size(path: str) -> int:
    """The octets of a file; none where they aren't known before it is read."""
    try:
        found = os.fstat(0) if path == "-" else os.stat(path)
    except OSError:
        return 0
    return found.st_size if stat.S_ISREG(found.st_mode) else 0


def _ran(pieces: Sequence[Piece], work: Work, jobs: int) -> Generator[tuple[Piece, Part], None, None]:
    """The parts of all pieces in their order, counted by so many processes."""
    if jobs < 2:
        for piece in pieces:
            for part in work(piece):
                yield piece, part
        return
    crew = _Crew(work, pieces, jobs)
    try:
        yield from crew.parts()
    finally:
        crew.end()


def _shared_out(logs: Sequence[str], most: int) -> tuple[list[Piece], int]:
    """The pieces of all logs, and how many processes count them."""
    octets = sum(map(_size, logs))
    jobs = max(1, min(most, octets // LEAST))
    length = min(plain.PIECE, max(LEAST, octets // (jobs * EACH)))
    pieces = [piece for path in logs for piece in pieces_of(path, length)]
    return pieces, min(jobs, len(pieces))


def parts_of(logs: Sequence[str], reading: Reading, keeps: bool = False) -> Generator[Part, None, None]:
    """The parts of all logs in their order. What is passed over is noted in `reading`."""
    pieces, jobs = _shared_out(logs, reading.jobs)
    before = 0
    with contextlib.closing(_ran(pieces, lambda piece: parts(piece, reading, keeps), jobs)) as found:
        for piece, part in found:
            before = before if piece.begin else 0
            for reason, own in part.passed.items():
                reading.skipped.add(reason, piece.path, before + own.number, own.line, own.count)
            reading.lines += part.lines
            reading.octets += part.octets
            reading.times.setdefault(piece.path, []).extend(part.times)
            reading.progress(piece.path, reading.lines, reading.octets)
            yield part
            before += part.numbers if part.is_last else 0
