"""What inputs are drawn: texts that are changed at random, services with their logs, and records, lists and bodies
(RFC 3651, section 3; RFC 3652, section 3), each written as a list of its fields."""

import re
from collections.abc import Callable, Iterable, Mapping, Sequence
from itertools import accumulate, chain
from typing import Any, NamedTuple

from hypothesis import strategies as st

from lib.oracle import Row, Service, Site, field_of

Draw = Callable[["st.SearchStrategy[Any]"], Any]
WORDS: list[bytes] = [
    *b"0 1 7 007 -1 +1 1000000 1000001 4294967295 4294967296 0x10 1_000 1e3 --index".split(),
    *b"10000000000000000 10000000000000001 inf true r1 E W 10/1 END PLAN SHORTAGE HS_SITE -- - \\u0041".split(),
    *(b'\n \r \r\n \n\n , ,, " "" # = [ ] [[ ]] { } . / @ \t \xff \xc3\xa9 \xef\xbb\xbf \'\'\' """'.split(b" ")),
    *(b"[[site]]\n;[[host]]\n;name = ;record = ;index = ;address = ;limit = ;HSPLAN 2\n;cost ;use ;row ".split(b";")),
    *(b"server ;host ;demand ;capacity ;--values list.values;--kind load;--fronts 2; ;\0".split(b";")),
]
NUMBERS = [0, 1, 2, 7, 255, 1023, 1024, 1025, 65535, 2**31, 2**31 - 1, 2**32 - 1]


pick = st.sampled_from
# Strategies that are made once: to make one takes longer than to draw. Numbers at the ends of 32 bits come often.
NUMBER = st.one_of(pick(NUMBERS), pick(NUMBERS), st.integers(0, 2**32 - 1))
OCTET, FOUR, SIX = st.binary(min_size=1, max_size=1), st.binary(max_size=4), st.binary(max_size=6)
FEW, TEN, WAY = st.integers(0, 3), st.integers(0, 9), st.integers(0, 11)
BOOLEAN, OFTEN = st.booleans(), pick([True, True, False])
WORD, FORTY, PART, TIMES = pick(WORDS), st.integers(1, 40), st.integers(0, 2**16 - 1), pick([0, 2, 3, 50])
LENGTH, CHANGES = pick([0, 0, 1, 1, 2, 4, 8, 40]), pick([1, 1, 1, 2, 3, 4])
OTHER = st.one_of(st.integers(0, 2000), pick([10**6, 10**12, 10**16]))


def at_random(draw: Draw, most: int) -> int:
    return int(draw(PART) * (most + 1) >> 16)


def _another_number(draw: Draw, text: bytes) -> bytes:
    """The run of digits behind a place is another one, so that many of the results can still be read."""
    found = re.compile(rb"[0-9]+").search(text, at_random(draw, len(text)))
    if not found:
        return text
    number, way = int(found[0][:18]), draw(FEW)
    other = number + 1 if way == 2 else max(0, number - 1) if way == 3 else draw(OTHER)
    return text[: found.start()] + b"%d" % other + text[found.end() :]


def _moved_line(draw: Draw, text: bytes) -> bytes:
    """One of its lines is moved or doubled."""
    lines = text.splitlines(keepends=True) or [b""]
    at, to = at_random(draw, len(lines) - 1), at_random(draw, len(lines))
    rest = lines if draw(BOOLEAN) else lines[:at] + lines[at + 1 :]
    return b"".join([*rest[:to], lines[at], *rest[to:]])


def _replaced(draw: Draw, text: bytes) -> bytes:
    """Something else stands in place of a few octets: a word, a number, octets, the same again, or another part. Or
    nothing stands in place of all that follow."""
    at, other, way = at_random(draw, len(text)), at_random(draw, len(text)), draw(WAY)
    end = at + draw(LENGTH)
    if way < 6:
        new = draw(WORD) if way < 3 else draw(NUMBER).to_bytes(4, "big") if way < 5 else draw(FOUR)
    else:
        new = text[at:end] * draw(TIMES) if way < 8 else text[other : other + draw(FORTY)]
    return text[:at] if way > 9 else bytes(text[:at] + new + text[end:])


CHANGE = pick([_another_number] * 3 + [_moved_line] + [_replaced] * 6)


@st.composite
def changed(draw: Draw, texts: st.SearchStrategy[bytes]) -> bytes:
    """A text with one to four changes."""
    text: bytes = draw(texts)
    for _ in range(draw(CHANGES)):
        text = draw(CHANGE)(draw, text)[:100_000]
    return text


class Where(NamedTuple):
    """Drawn places in a text that a judge needs: where it is cut, what is put behind it, how it is ordered, and in
    what pieces it is read."""

    part: int
    more: bytes
    order: int
    piece: int

    def cut(self, text: bytes) -> bytes:
        """A beginning of a text, which may be all of it."""
        return text[: self.part * (len(text) + 1) >> 16]

    def begun(self, text: bytes) -> bytes:
        """A beginning that lacks something."""
        return text[: self.part * len(text) >> 16]

    def continued(self, text: bytes) -> bytes:
        return text + self.more + self.cut(text)

    def ordered(self, parts: Sequence[Any]) -> list[Any]:
        places = sorted(range(len(parts)), key=lambda at: hash((self.order, at)))
        return [parts[at] for at in places]

    def reordered(self, files: Mapping[str, bytes], *names: str) -> dict[str, bytes]:
        """These tables with their rows in another order."""
        tables = {name: files[name].splitlines(keepends=True) for name in names}
        return {name: b"".join([lines[0], *self.ordered(lines[1:])]) for name, lines in tables.items()}


MORE = [b"x", b"0\n", b"\n", b"a,b,c\n", b"r1,E,1\n", b"row 1 1\n", bytes(4)]
WHERE = st.builds(Where, PART, pick(MORE), PART, pick([1, 2, 3, 7, 64, 1000]))


def number(value: int, width: int = 4) -> bytes:
    return value.to_bytes(width, "big")


def run(octets: bytes) -> list[bytes]:
    return [number(len(octets)), octets]


def several(parts: Sequence[Iterable[bytes]]) -> list[bytes]:
    return [number(len(parts)), *chain(*parts)]


def field_at(fields: Iterable[bytes], place: int) -> int:
    """Where the field with the octet at this place begins."""
    return max(begin for begin in accumulate(map(len, fields), initial=0) if begin <= place)


class Written(NamedTuple):
    """A record or a list that is written: its fields, and what `site` has to print of it on both streams, by words
    that name the index."""

    fields: list[bytes]
    printed: bytes
    reported: bytes = b""
    sought: int = 0


def _record(numbers: list[int], filtered: bytes, attributes: list[Any], servers: list[Any]) -> Written:
    version, major, minor, serial, mask, option = numbers
    fields = [number(version, 2), bytes([major, minor]), number(serial, 2), bytes([mask]), bytes([option])]
    fields += [*run(filtered), *several([run(name) + run(value) for name, value in attributes])]
    fields += several([[number(own), address, *run(key), *several(faces)] for own, address, key, faces in servers])
    lines = [f"version {version}\nprotocol {major} {minor}\nserial {serial}\nmask {mask}\noption {option}"]
    lines += [f"filter {len(filtered)}\nattributes {len(attributes)}\nservers {len(servers)}"]
    for at, (own, address, key, faces) in enumerate(servers):
        lines.append(f"server {at} {own} {address.hex()} {len(key)} {len(faces)}")
    return Written(fields, "".join(f"{line}\n" for line in lines).encode())


def _listed(first: int, sought: int, values: list[tuple[Written, bytes, list[bytes], list[Any]]]) -> Written:
    """A list of values of following indices, of which one is sought."""
    parts, said = [], (b"", b"hsplan: NoValue\n")
    for at, (record, kind, tail, references) in enumerate(values):
        parts.append([number(first + at), *run(kind), *run(b"".join(record.fields)), *tail])
        parts[-1] += several([[*run(handle), index] for handle, index in references])
        if at == sought:
            said = (record.printed, b"") if kind == b"HS_SITE" else (b"", b"hsplan: NotSiteValue\n")
    return Written(several(parts), *said, first + sought)


def body_of(handle: bytes, indices: Sequence[int] = (), kinds: Sequence[bytes] = ()) -> bytes:
    return b"".join([*run(handle), *several([[number(it)] for it in indices]), *several(list(map(run, kinds)))])


BYTE, QUAD = st.integers(0, 255), NUMBER.map(number)
FACES, ATTRIBUTES = st.lists(st.tuples(OCTET, OCTET, QUAD), max_size=3), st.lists(st.tuples(SIX, SIX), max_size=3)
SERVER = st.tuples(NUMBER, st.binary(max_size=16).map(lambda it: it.ljust(16, b"\0")), SIX, FACES)
SERVERS = pick([0, 1, 1, 2, 3, 5, 20]).flatmap(lambda count: st.lists(SERVER, min_size=count, max_size=count))
RECORD = st.builds(_record, st.tuples(PART, BYTE, BYTE, PART, BYTE, BYTE), FOUR, ATTRIBUTES, SERVERS)
TYPE = pick([b"HS_SITE", b"HS_SITE", b"HS_SITES", b"hs_site", b""])
TAIL = st.tuples(OCTET, OCTET, QUAD, st.tuples(QUAD, QUAD).map(b"".join))
VALUE = st.tuples(RECORD, TYPE, TAIL, st.lists(st.tuples(SIX, QUAD), max_size=3))
VALUES = st.builds(_listed, pick([0, 3, 9, 2**32 - 16]), FEW, st.lists(VALUE, max_size=3))

REGIONS = ("eu", "us", "asia", "mars")
SITES = ("alpha", "beta", "g-1_.x", "Delta", "e")
HANDLES = [
    *('10.7/a,"b"', "10/é", "10/É", "10/", "10//", "10/ ", "10/" + "x" * 300, "10/" + "y" * 4093),
    *(f"10.{at % 5}/h{at % 11}" for at in range(55)),
    *(f"10.1/H{at}" for at in range(11)),
    *(f"{at}/same" for at in range(20)),
]
ANY_HANDLES = [*HANDLES, "10/two\rlines", "10/two\nlines"]
REGION, HANDLE, ANY_HANDLE = pick(REGIONS), pick(HANDLES), pick(ANY_HANDLES)
HOSTS = pick([0, 0, 1, 3])
SITE = st.tuples(st.integers(0, 2), PART, pick([1, 1, 2, 2, 3, 4, 7, 12]))
SOME_SITES = st.lists(SITE, min_size=1, max_size=5)


@st.composite
def services(draw: Draw) -> Service:
    sites = [
        Site(SITES[at % len(SITES)], option, tuple(range(own, own + 7 * count, 7)))
        for at, (option, own, count) in enumerate(draw(SOME_SITES), draw(TEN))
    ]
    costs = {(region, site.name): draw(FEW) for region in REGIONS[:-1] for site in sites if draw(OFTEN)}
    return Service(tuple(sites), costs, not draw(OFTEN), draw(HOSTS))


class Entry(NamedTuple):
    """A row of a log, or one that is refused, with the words of its fault."""

    region: str
    handle: str
    number: int = 1
    refused: bytes = b""
    refusal: str = ""


class Log(NamedTuple):
    """Rows, and how they are written: the fields that they have, ends of lines, a mark, and empty lines."""

    entries: list[Entry]
    has_regions: bool = True
    has_counts: bool = False
    has_bodies: bool = False
    end: bytes = b"\n"
    mark: bytes = b""
    blank: int = 0
    last: bool = True

    @property
    def text(self) -> bytes:
        lines = [self._line("region", "body" if self.has_bodies else "handle", "count")]
        for it in self.entries:
            handle = body_of(it.handle.encode()).hex() if self.has_bodies else field_of(it.handle)
            lines.append(it.refused or self._line(it.region, handle, str(it.number)))
        at = self.blank % len(lines)
        lines[at:at] = [b""] * bool(at)
        return self.mark + self.end.join(lines) + self.end * self.last

    def _line(self, region: str, handle: str, count: str) -> bytes:
        return ",".join([region] * self.has_regions + [handle] + [count] * self.has_counts).encode()


# Rows that are refused, of handles and of bodies, by the words of their faults.
BAD = {"NoSlash": b"eu,10", "EmptySegment": b"eu,/x", "NotUtf8": b"eu,10/\xff", "TooLong": b"eu,10/" + b"x" * 4094}
REFUSED_HANDLES = [(row, f"BadHandle {word}") for word, row in BAD.items()]
REFUSED_BODIES = [(b"eu,zz", "BadBody"), (b"eu,", "BadBody"), (b"eu,000000023130" + b"00" * 8, "BadHandle NoSlash")]
REFUSED = {
    False: pick([(b"eu", "Fields"), (b"eu,10/1,", "Fields"), *REFUSED_HANDLES]),
    True: pick([(b"eu", "Fields"), (b"eu,00,", "Fields"), *REFUSED_BODIES]),
}
END = pick([b"\n", b"\n", b"\n", b"\r\n"])
MARK, BLANK, ROWS = pick([b"", b"", b"", b"\xef\xbb\xbf"]), pick([0, 0, 1, 5]), st.integers(0, 30)


@st.composite
def logs(draw: Draw, command: str, rows: Sequence[Row] = ()) -> Log:
    """Logs of `places`, whose rows are accepted, or of `answer`; many of some rows are asked for."""
    has_regions = command != "places" or draw(BOOLEAN)
    has_bodies = command == "answer" and not draw(OFTEN)
    log = Log([], has_regions, False, has_bodies, draw(END), draw(MARK), draw(BLANK), draw(OFTEN))
    named = [(region, handle) for region, handle, _ in rows if not set(handle) & set("\r\n")]
    for _ in range(draw(ROWS)):
        if command == "answer" and draw(TEN) == 0:
            log.entries.append(Entry("", "", 1, *draw(REFUSED[has_bodies])))
            continue
        if not named or not draw(OFTEN):
            named.append((draw(REGION), draw(HANDLE)))
        log.entries.append(Entry(*named[at_random(draw, len(named) - 1)]))
    return log
