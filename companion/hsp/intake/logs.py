"""The lines of a log, plain or packed, with their numbers: by themselves, or many in a block."""

import bz2
import functools
import gzip
import io
import itertools
import lzma
import os
import stat
import sys
import zlib
from collections.abc import Callable, Iterable, Iterator
from typing import IO, Any, NamedTuple, cast

from hsp.base.numbers import some
from hsp.base.programs import Missing
from hsp.base.unfit import Unfit, shown


BLOCK = 1 << 16
# So many octets of lines are looked at together: as many as stay near a processor.
TOGETHER = 1 << 16
# A plain log is read in pieces of at most so many octets, each of which any process can read.
PIECE = 1 << 25
# A longer line is no query: a handle has at most 4,096 octets, and servers take no longer requests.
LONGEST = 1 << 15
# No more octets of a line are held, and the memory that an xz file may ask for.
MOST_OF_LINE, MOST_XZ = 1 << 20, 1 << 27
TOO_LONG = f"longer than {LONGEST:,} octets"
UTF_8_MARK = b"\xef\xbb\xbf"
UTF_16 = (b"\xff\xfe", b"\xfe\xff")
# Takes a line that is passed over: the reason, its number, and its beginning.
Skip = Callable[[str, int, bytes], None]
# What looks at the file of a log, so that it is known how much of it was read.
Watch = Callable[[io.BufferedReader], None]
DAMAGE = (EOFError, zlib.error, lzma.LZMAError, gzip.BadGzipFile)


def unwatched(_: io.BufferedReader) -> None:
    """Nobody asks how much of a log was read."""


class Skipped:
    """How many lines were passed over, by the reason, and where the first one of each stands."""

    def __init__(self) -> None:
        self.counts: dict[str, int] = {}
        self.first: dict[str, str] = {}

    def add(self, reason: str, path: str, number: int, line: bytes, count: int = 1) -> None:
        """Adds so many lines, of which the first one is given."""
        if reason not in self.counts:
            self.first[reason] = f"{path}:{number}: {shown(line.decode('utf-8', 'replace'))}"
        self.counts[reason] = self.counts.get(reason, 0) + count

    @property
    def sum(self) -> int:
        return sum(self.counts.values())

    def lines(self) -> list[str]:
        """How many lines were passed over, why, and where the first one of each reason stands."""
        counts = sorted(self.counts.items(), key=lambda pair: (-pair[1], pair[0]))
        lines = [f"  {count:,}  {reason}; first {self.first[reason]}" for reason, count in counts]
        return [f"skipped {some(self.sum, 'line')}", *lines] if lines else []


class _Streams(io.RawIOBase):
    """The streams of a packed file, each unpacked by what is made afresh. What follows a stream has to be one."""

    def __init__(self, file: IO[bytes], fresh: Callable[[], Any]) -> None:
        self._file, self._fresh, self._stream = file, fresh, fresh()

    def readable(self) -> bool:
        return True

    def readinto(self, room: Any) -> int:
        octets = b""
        while not octets:
            if self._stream.eof:
                rest = self._stream.unused_data.lstrip(b"\0")  # zeros may stand between streams
                while not rest:
                    block = self._file.read(io.DEFAULT_BUFFER_SIZE)
                    if not block:
                        return 0
                    rest = block.lstrip(b"\0")
                self._stream = self._fresh()
            else:
                rest = self._file.read(io.DEFAULT_BUFFER_SIZE) if self._stream.needs_input else b""
                if not rest and self._stream.needs_input:
                    raise EOFError("the file ends before its stream does")
            octets = self._stream.decompress(rest, len(room))
        room[: len(octets)] = octets
        return len(octets)


# How a packed file is unpacked; an xz file in bounded memory, whatever the heads of its streams ask for.
XZ = functools.partial(lzma.LZMADecompressor, lzma.FORMAT_XZ, MOST_XZ)
PACKED: dict[bytes, Callable[[IO[bytes]], Any]] = {
    b"\x1f\x8b": gzip.open,
    b"BZh": lambda file: io.BufferedReader(_Streams(file, bz2.BZ2Decompressor), BLOCK),
    b"\xfd7zXZ\x00": lambda file: io.BufferedReader(_Streams(file, XZ), BLOCK),
}


def opened(path: str, watch: Watch = unwatched) -> io.BufferedReader:
    """A log, unpacked where its first octets are those of gzip, bzip2 or xz. The path `-` is standard input."""
    plain: Any = sys.stdin.buffer if path == "-" else open(path, "rb")
    file = plain if isinstance(plain, io.BufferedReader) else io.BufferedReader(plain)
    watch(file)
    head = file.peek(8)[:8]
    if head.startswith(UTF_16):
        raise Unfit(f"{path}: line 1: this text is in UTF-16; turn it into UTF-8 first")
    for mark, unpack in PACKED.items():
        if head.startswith(mark):
            return cast(io.BufferedReader, unpack(file))
    return file


class Piece(NamedTuple):
    """A log, or those of its lines that begin at an octet or later, and before an end where it has one."""

    path: str
    begin: int = 0
    end: int | None = None


class Lines(NamedTuple):
    """Whole lines, each with its end; the number of the first one, and how many they are."""

    number: int
    text: bytes
    total: int


def pieces_of(path: str, length: int) -> list[Piece]:
    """The pieces of a log, each of so many octets: several only of a plain file. What can't be looked at is one piece,
    and faults later."""
    whole = [Piece(path)]
    try:
        found = os.stat(path)
        if path == "-" or not stat.S_ISREG(found.st_mode) or found.st_size <= length:
            return whole
        with open(path, "rb") as file:
            head = file.read(8)
    except OSError:
        return whole
    if head.startswith((*PACKED, *UTF_16)):
        return whole
    begins = range(0, found.st_size, length)
    return [Piece(path, begin, begin + length if begin != begins[-1] else None) for begin in begins]


def _behind_a_line_end(file: io.BufferedReader, piece: Piece, size: int) -> bytes | None:
    """What was read behind the end of the line that goes on into a piece. None where no line begins in the piece."""
    file.seek(piece.begin - 1)
    while True:
        left = piece.end - 1 - file.tell() if piece.end else size
        block = file.read1(min(size, left)) if left > 0 else b""
        cut = block.find(b"\n") + 1
        if cut or not block:
            return block[cut:] if cut else None


def _within(file: io.BufferedReader, piece: Piece, size: int) -> Iterator[bytes]:
    """The blocks of a piece, up to the end of its last line."""
    rest = _behind_a_line_end(file, piece, size) if piece.begin else b""
    if rest is None:
        return
    for block in itertools.chain([rest], iter(lambda: file.read1(size), b"")):
        over = file.tell() - piece.end if piece.end else -1
        if over >= 0:
            cut = block.find(b"\n", max(0, len(block) - over - 1)) + 1
            if cut:
                yield block[:cut]
                return
        yield block


def _refuse_cut(file: io.BufferedReader, piece: Piece) -> None:
    """Refuses a plain log that is shorter now than what was read of it, or than where a piece of it ends."""
    raw = getattr(file, "raw", None)
    if isinstance(raw, io.FileIO) and stat.S_ISREG((found := os.fstat(raw.fileno())).st_mode):
        if found.st_size < max(file.tell(), piece.end or 0):
            raise Missing(f"{piece.path}: it became shorter while it was read; copy it first, and read the copy")


def _blocks(piece: Piece, numbers: list[int], watch: Watch, size: int) -> Iterator[bytes]:
    path = piece.path
    with opened(path, watch) as file:
        try:
            if piece.begin or piece.end:
                yield from _within(file, piece, size)
            else:
                yield from iter(lambda: file.read1(size), b"")
            _refuse_cut(file, piece)
        except DAMAGE as error:
            raise Unfit(f"{path}: line {numbers[0]}: it can't be unpacked further: {error}") from None
        except OSError as error:
            if error.errno is not None:
                raise OSError(error.errno, error.strerror, path) from None
            raise Unfit(f"{path}: line {numbers[0]}: it can't be unpacked further: {error}") from None


def blocks(path: str, numbers: list[int], watch: Watch = unwatched, size: int = BLOCK) -> Iterator[bytes]:
    """The blocks of a log. `numbers` holds the number of the line that the next block goes on with."""
    return _blocks(Piece(path), numbers, watch, size)


def lines_of(piece: Piece, skip: Skip, watch: Watch = unwatched) -> Iterator[Lines]:
    """The lines of a piece in blocks, numbered from its first one on. One that is too long is an empty one.

    The last block has no lines, and the number behind all.
    """
    numbers, rest, is_long, is_begun = [1], b"", False, piece.begin > 0
    for block in _blocks(piece, numbers, watch, BLOCK):
        if is_long:
            _, end, block = block.partition(b"\n")
            is_long = not end
            numbers[0] += len(end)
        text = rest + block
        if not is_begun and len(text) >= len(UTF_8_MARK):
            text, is_begun = text.removeprefix(UTF_8_MARK), True
        whole = text.rfind(b"\n") + 1
        rest = text[whole:]
        for part in _parts(text, whole):
            count = part.count(b"\n")
            yield Lines(numbers[0], _tidy(part, numbers[0], skip), count)
            numbers[0] += count
        if len(rest) > LONGEST:
            skip(TOO_LONG, numbers[0], rest[:99])
            rest, is_long = b"", True
    if rest:
        yield Lines(numbers[0], _tidy(rest + b"\n", numbers[0], skip), 1)
        numbers[0] += 1
    yield Lines(numbers[0], b"", 0)


def _parts(text: bytes, whole: int) -> Iterator[bytes]:
    """The whole lines of a text in parts."""
    at = 0
    while at < whole:
        end = text.find(b"\n", min(at + TOGETHER, whole) - 1) + 1
        yield text[at:end]
        at = end


def _tidy(text: bytes, number: int, skip: Skip) -> bytes:
    """Lines with the same ends, of which those that are too long are passed over.

    A longer line fills one of the stretches of half that length, and has no end there.
    """
    half = LONGEST // 2
    if any(text.find(b"\n", at, at + half) < 0 for at in range(0, len(text) - half + 1, half)):
        lines = text.split(b"\n")
        for at, line in enumerate(lines):
            if len(line) > LONGEST:
                skip(TOO_LONG, number + at, line[:99])
                lines[at] = b""
        text = b"\n".join(lines)
    return b"\n".join([line.rstrip(b"\r") for line in text.split(b"\n")]) if b"\r" in text else text


def numbered(path: str, skipped: Skipped) -> Iterator[tuple[int, bytes]]:
    """The lines of a log that aren't empty, with their numbers from 1 on."""

    def skip(reason: str, number: int, line: bytes) -> None:
        skipped.add(reason, path, number, line)

    return nonempty(lines_of(Piece(path), skip))


def nonempty(blocks: Iterable[Lines]) -> Iterator[tuple[int, bytes]]:
    """The lines of blocks that aren't empty, with their numbers."""
    for number, text, _ in blocks:
        for at, line in enumerate(text.split(b"\n"), number):
            if line:
                yield at, line
