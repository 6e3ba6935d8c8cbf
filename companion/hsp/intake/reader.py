"""The queries of a log: which region asks for which handle, and how often.

A line that gives no query is passed over and counted, with the reason. Lines of a usual form are looked at many at
once.
"""

import contextlib
import io
import itertools
import os
from collections import Counter
from collections.abc import Callable, Iterable, Iterator, Sequence
from dataclasses import dataclass, field
from operator import methodcaller
from typing import NamedTuple

from hsp.base.bounds import MOST_AT_ONCE, Query, weight
from hsp.intake.forms import (
    Clock,
    Form,
    MARK,
    NO_TIME,
    ODD,
    OTHER_OPERATION,
    Odd,
    RESOLUTION,
    Remembered,
    Take,
    as_others,
)
from hsp.intake.logs import Lines, PIECE, Piece, Skipped, lines_of, nonempty, numbered
from hsp.intake.queries import Handles, Reading, SEEN_FIRST, clock_of, field_of, form_of, take_of
from hsp.intake.times import Time, time_of


# In place of a handle or a region: the line has to be looked at by itself.
ALONE = "looked at by itself"
SERVER_WIDTH, PROXY_WIDTH = 8, 3


class Columns(NamedTuple):
    """The clients' addresses, each behind a line end; the handles, or the requests that have them, or reasons why
    there are none; and what the times are read of, where these are wanted."""

    addresses: Sequence[bytes]
    asked: Sequence[bytes | str]
    times: Sequence[bytes]


class _Fields:
    """The fields of so many lines between two signs, as many in each line. Each first one has a line end before it.

    A log has lines that are alike: each has the same signs between its fields. A line end stands at the beginning of a
    field. So where the first fields have as many as there are, each has one. Where some lines aren't alike, or where one
    of another form could be among them, there are no columns, and lines are looked at one by one.
    """

    def __init__(self, text: bytes, number: int, sign: bytes) -> None:
        self._sign, self.number = sign, number
        self.width = text.count(sign, 0, text.find(b"\n")) + 1
        *self._all, _ = text.replace(b"\n", sign + b"\n").split(sign)
        self._all[0] = b"\n" + self._all[0]
        self.first = self._joined(0)
        self.are_alike = len(self._all) == self.width * number and self.first.count(b"\n") == number

    def column(self, at: int) -> list[bytes]:
        return self._all[at :: self.width]

    def all_begin(self, at: int, octets: bytes) -> bool:
        return self._joined(at).count(self._sign + octets) == self.number

    def all_end(self, at: int, octets: bytes) -> bool:
        return self._joined(at).count(octets + self._sign) == self.number

    def _joined(self, at: int) -> bytes:
        """A column with its signs, also before and behind it. A field has none."""
        return self._sign.join([b"", *self.column(at), b""])


def of_proxy(text: bytes, number: int, is_timed: bool) -> Columns | None:
    """Of the common or the combined log of an HTTP server."""
    fields = _Fields(text, number, b'"')
    if not fields.are_alike or fields.width < PROXY_WIDTH or fields.first.count(b'] "') != number:
        return None
    heads, asked, marked = fields.column(0), fields.column(1), fields.first.count(MARK)
    if marked:
        if marked < number:
            return None
        asked = [as_others(own) if b"#" in own or b"\\" in own else own for own in asked]
    if not is_timed:
        return Columns([head.partition(b" ")[0] for head in heads], asked, ())
    parts = [head.partition(b" ") for head in heads]
    return Columns([part[0] for part in parts], asked, [part[2] for part in parts])


def of_server(text: bytes, number: int, is_timed: bool) -> Columns | None:
    fields = _Fields(text, number, b" ")
    if not fields.are_alike or fields.width != SERVER_WIDTH:
        return None
    is_form = fields.all_begin(2, b'"') and fields.all_end(3, b'"') and fields.all_end(6, b"ms")
    operations, handles = fields.column(4), fields.column(7)
    kinds = set(operations)
    if not is_form or not all(map(bytes.isdigit, kinds)) or is_timed and text.count(b'"') != 2 * number:
        return None
    asked: Sequence[bytes | str] = handles
    if kinds != {RESOLUTION}:
        asked = [own if kind == RESOLUTION else OTHER_OPERATION for own, kind in zip(handles, operations)]
    times = [b"%b %b" % pair for pair in zip(fields.column(2), fields.column(3))] if is_timed else ()
    return Columns(fields.column(0), asked, times)


class Usual(NamedTuple):
    """A usual form: the sign between its fields, the columns of so many lines, and how a time is read of them."""

    sign: bytes
    columns: Callable[[bytes, int, bool], Columns | None]
    time: Callable[[bytes], Time | None]


USUAL = {
    "proxy": Usual(b'"', of_proxy, lambda octets: time_of(octets.partition(b"[")[2].partition(b"]")[0])),
    "server": Usual(b" ", of_server, lambda octets: time_of(octets[1:-1])),
}


# So many octets of lines wait until hsplan judges their handles, which is then asked once.
BATCH_OCTETS = 1 << 22
# A part is passed on when its pairs, or its rows that are kept, take so many octets.
OCTETS_OF_PART = 1 << 24
# The reason of a line that has nothing in it, and isn't counted.
EMPTY = ""

Region = bytes | str
Handle = bytes | str


@dataclass
class Passed:
    """So many lines that were passed over, with the number and the beginning of the first one."""

    count: int
    number: int
    line: bytes


@dataclass
class Part:
    """Some lines of a piece, counted: how often each pair comes, in the order in which pairs first come.

    `lines` are those that aren't empty, `numbers` those of the piece up to here, and `octets` were read of its file.
    """

    counts: Counter[Query] = field(default_factory=Counter)
    kept: list[bytes] = field(default_factory=list)
    passed: dict[str, Passed] = field(default_factory=dict)
    lines: int = 0
    numbers: int = 0
    octets: int = 0
    is_last: bool = False
    # The times of its first and its last line, where they have one.
    times: list[Time] = field(default_factory=list)

    def skip(self, reason: str, number: int, line: bytes) -> None:
        own = self.passed.get(reason)
        if own:
            own.count += 1
        else:
            self.passed[reason] = Passed(1, number, line)


class Looked(NamedTuple):
    """Lines with the region and the handle of each. A reason stands in place of one where a line gives no query."""

    lines: Lines
    regions: Sequence[Region]
    handles: Sequence[Handle]
    has_reasons: bool = True


def _has_reason(fields: Iterable[bytes | str]) -> bool:
    return str in map(type, fields)


class Reader:
    """Finds the region and the handle of each line of a log."""

    def __init__(self, reading: Reading, form: Form, take: Take, clock: Clock | None) -> None:
        self._reading, self._take, self._clock = reading, take, clock
        self._usual = None if form.pattern else USUAL.get(form.name)
        self._addresses = self._remembered("address", Remembered(reading.seek))
        self._regions = self._remembered("line end and address", Remembered(self._region_of))
        self._form, name = form, form.name if self._usual else "handle"
        own = {"proxy": self._handle_of, "server": form.handle_of}.get(name, lambda handle: handle)
        handles = self._remembered(name, Handles(own, reading.judge))
        assert isinstance(handles, Handles)
        self.handles = handles
        self._tags = Remembered(self._tag_of)
        self._tagged: dict[tuple[bytes | str, Region], Region] = {}

    def _remembered(self, name: str, fresh: Remembered) -> Remembered:
        return self._reading.remembered.setdefault(name, fresh)

    def _region_of(self, octets: bytes) -> Region:
        """The region of an address behind a line end."""
        return ALONE if octets[-1:] == b"]" else self._reading.seek(octets[1:])

    def _handle_of(self, request: bytes) -> Handle:
        return ALONE if request[-1:] == b"\\" else self._form.handle_of_request(request)

    def _tag_of(self, octets: bytes) -> bytes | str:
        """The tag of what a time is read of."""
        assert self._usual and self._reading.tag
        time = self._usual.time(octets)
        return self._reading.tag(time) if time else ALONE

    def look(self, lines: Lines) -> Looked:
        if not self._usual:
            return Looked(lines, *self._one_by_one(lines.text.split(b"\n")[:-1]))
        columns = self._usual.columns(lines.text, lines.total, self._clock is not None)
        return self._resolved(lines, *self._of_columns(columns)) if columns else self._of_most(lines)

    def _of_most(self, lines: Lines) -> Looked:
        """Where lines aren't alike: columns of those that have as many signs as most have, and the others by
        themselves."""
        assert self._usual
        texts = lines.text.split(b"\n")[:-1]
        signs = list(map(methodcaller("count", self._usual.sign), texts))
        most = Counter(signs).most_common(1)[0][0]
        alike = [number == most for number in signs]
        text = b"\n".join(itertools.compress(texts, alike)) + b"\n"
        columns = None if all(alike) else self._usual.columns(text, sum(alike), self._clock is not None)
        if not columns:
            return Looked(lines, *self._one_by_one(texts))
        own = zip(*self._of_columns(columns))
        found = [next(own) if is_alike else (ALONE, ALONE) for is_alike in alike]
        return self._resolved(lines, [region for region, _ in found], [handle for _, handle in found])

    def _of_columns(self, columns: Columns) -> tuple[list[Region], list[Handle]]:
        asked, tags = columns.asked, list(map(self._tags.__getitem__, columns.times))
        if _has_reason(tags):
            asked = [own if tag.__class__ is bytes else tag for own, tag in zip(asked, tags)]
        handles = list(map(self.handles.__getitem__, asked))
        regions = list(map(self._regions.__getitem__, columns.addresses))
        return ([self._with_tag(*own) for own in zip(tags, regions)] if tags else regions), handles

    def _resolved(self, lines: Lines, regions: list[Region], handles: list[Handle]) -> Looked:
        """Has lines looked at by themselves that have to be."""
        if not _has_reason(handles) and not _has_reason(regions):
            return Looked(lines, regions, handles, False)
        own = enumerate(zip(regions, handles))
        alone = [at for at, (a, b) in own if b is ALONE or a is ALONE and b.__class__ is bytes]
        texts = lines.text.split(b"\n") if alone else []
        for at in alone:
            regions[at], handles[at] = self._by_itself(texts[at])
        return Looked(lines, regions, handles)

    def _one_by_one(self, texts: list[bytes]) -> tuple[list[Region], list[Handle]]:
        found = list(map(self._by_itself, texts))
        return [region for region, _ in found], [handle for _, handle in found]

    def _by_itself(self, line: bytes) -> tuple[Region, Handle]:
        """The region and the handle of a line. Where it gives no query, one of them is the reason."""
        tag: bytes | str = b""
        try:
            if not line:
                return EMPTY, EMPTY
            time = self._clock(line) if self._clock else None
            if time and self._reading.tag:
                tag = self._reading.tag(time)
                if isinstance(tag, str):
                    return tag, tag
            address, handle = self._take(line)
        except Odd:
            return ODD, ODD
        if isinstance(handle, str):
            return handle, handle
        if self._clock and not time:
            return NO_TIME, NO_TIME
        if self._usual:
            self.handles.fresh.add(handle)
        else:
            handle = self.handles[handle]
        region = self._addresses[address]
        return (self._with_tag(tag, region) if self._clock else region), handle

    def _with_tag(self, tag: bytes | str, region: Region) -> Region:
        """A region behind a tag, or the tag where only tags are counted. A reason stays what it is."""
        found = self._tagged.get((tag, region))
        if found is None:
            found = region
            if isinstance(tag, bytes) and isinstance(region, bytes) and tag:
                is_bare = self._reading.are_tags and not self._reading.with_regions
                found = tag if is_bare else b"%b %b" % (tag, region)
            self._tagged[tag, region] = found
        return found


class _Counting:
    """Counts the lines of a piece, and passes them on in parts."""

    def __init__(self, piece: Piece, reading: Reading, keeps: bool) -> None:
        self._piece, self._reading, self._keeps = piece, reading, keeps
        self._part = Part()
        # The lines that wait to be judged, and their octets; then those of the part, and what its rows take.
        self._waiting: list[Looked] = []
        self._octets = self._read = self._weight = 0
        # The first and the last block of the part, and how a time is read of a line, where it has one.
        self._ends: list[bytes] = []
        self._clock: Clock | None = None
        # The file, its size, and what was read of it when the last part was passed on.
        self._file: io.BufferedReader | None = None
        self._size, self._at = 0, piece.begin

    def _watch(self, file: io.BufferedReader) -> None:
        self._file, self._size = file, os.fstat(file.fileno()).st_size

    def _skip(self, reason: str, number: int, line: bytes) -> None:
        self._part.skip(reason, number, line)

    def parts(self) -> Iterator[Part]:
        blocks = lines_of(self._piece, self._skip, self._watch)
        seen = list(_first_blocks(blocks)) if not self._piece.begin else []
        whole = numbered(self._piece.path, Skipped()) if self._piece.begin else nonempty(seen)
        first = list(itertools.islice(whole, SEEN_FIRST))
        if first:
            reader, is_headed = self._reader(first)
            if is_headed and seen:
                seen = _without_header(seen)
            for lines in itertools.chain(seen, blocks):
                self._look(reader, lines)
                if not self._waiting and self._is_full:
                    yield self._passed_on()
            self._judge(reader)
        self._part.is_last = True
        yield self._passed_on()

    def _reader(self, first: list[tuple[int, bytes]]) -> tuple[Reader, bool]:
        """What reads the log, and whether its first line is a header."""
        path, (number, line) = self._piece.path, first[0]
        form = form_of(path, self._reading.form, first)
        take = take_of(path, form, number, line)
        clock = clock_of(path, form, line) if self._reading.tag else None
        with contextlib.suppress(Odd):
            self._clock = form.clock(line)
        return Reader(self._reading, form, take, clock), form.name == "csv" and not form.pattern

    def _look(self, reader: Reader, lines: Lines) -> None:
        self._part.numbers = lines.number + lines.total - 1
        if lines.text:
            self._ends = [*self._ends[:1], lines.text]
            self._waiting.append(reader.look(lines))
            self._octets += len(lines.text)
        if not reader.handles.fresh or self._octets >= BATCH_OCTETS:
            self._judge(reader)

    def _judge(self, reader: Reader) -> None:
        """Has hsplan judge the handles of the lines that wait, and counts these."""
        faults, before = reader.handles.faults(), len(self._part.counts)
        for looked in self._waiting:
            self._count(looked, faults)
        self._weight += weight(itertools.islice(reversed(self._part.counts), len(self._part.counts) - before))
        self._read += self._octets
        self._waiting, self._octets = [], 0

    def _count(self, looked: Looked, faults: dict[bytes, str]) -> None:
        _, regions, handles, has_reasons = looked
        if has_reasons or faults and not faults.keys().isdisjoint(handles):
            regions, handles = self._queries(looked, faults)
        self._part.lines += len(regions)
        own = itertools.repeat(b"") if self._reading.are_tags else handles
        rows: Iterable[Query] = zip(regions, own)  # type: ignore[arg-type]
        if self._keeps:
            rows = list(rows)
            kept = b"".join([b"%b,%b\n" % (field_of(region), field_of(handle)) for region, handle in rows])
            self._weight += len(kept)
            self._part.kept.append(kept)
        self._part.counts.update(rows)

    def _queries(self, looked: Looked, faults: dict[bytes, str]) -> tuple[list[Region], list[Handle]]:
        """The regions and handles of those lines that give a query. The others are passed over."""
        texts: list[bytes] = []
        found: tuple[list[Region], list[Handle]] = [], []
        for at, (region, handle) in enumerate(zip(looked.regions, looked.handles)):
            reason = handle if isinstance(handle, str) else region if isinstance(region, str) else faults.get(handle)
            if reason is None:
                found[0].append(region)
                found[1].append(handle)
            elif reason:
                texts = texts or looked.lines.text.split(b"\n")
                self._part.skip(reason, looked.lines.number + at, texts[at])
                self._part.lines += 1
        return found

    @property
    def _is_full(self) -> bool:
        is_large = len(self._part.counts) > MOST_AT_ONCE or self._weight > OCTETS_OF_PART
        return is_large or self._read >= PIECE

    def _times(self) -> Iterator[Time]:
        """The times of the first and the last line of the part that have one, among the lines of their blocks."""
        for block, step in zip((self._ends[:1] + self._ends[-1:]), (1, -1)):
            lines = block.split(b"\n")[::step][:SEEN_FIRST]
            yield from itertools.islice(filter(None, map(self._time, filter(None, lines))), 1)

    def _time(self, line: bytes) -> Time | None:
        try:
            return self._clock(line) if self._clock else None
        except Odd:
            return None

    def _here(self) -> int:
        """How many octets of the file were read. It isn't known of a pipe."""
        if not self._file or self._file.closed or not self._file.seekable():
            return self._piece.end or self._size
        return self._file.tell()

    def _passed_on(self) -> Part:
        part, here = self._part, self._here()
        part.octets, self._at = max(0, here - self._at), here
        part.times = list(self._times())
        self._ends = []
        self._part, self._read, self._weight = Part(numbers=part.numbers), 0, 0
        return part


def _first_blocks(blocks: Iterator[Lines]) -> Iterator[Lines]:
    """As many blocks as have the lines by which a form is found."""
    number = 0
    for lines in blocks:
        yield lines
        number += sum(map(bool, lines.text.split(b"\n")))
        if number >= SEEN_FIRST:
            return


def _without_header(blocks: list[Lines]) -> list[Lines]:
    """Blocks whose first line that isn't empty is an empty one."""
    at = next(at for at, lines in enumerate(blocks) if lines.text.strip(b"\n"))
    number, text, total = blocks[at]
    bare = text.lstrip(b"\n")
    above = len(text) - len(bare)
    return [*blocks[:at], Lines(number, text[:above] + bare[bare.index(b"\n") :], total), *blocks[at + 1 :]]


def parts(piece: Piece, reading: Reading, keeps: bool = False) -> Iterator[Part]:
    """The queries of a piece in parts, of which the last one is marked. Those that are kept are rows of a log."""
    return _Counting(piece, reading, keeps).parts()
