"""The forms of access logs: from a line to the client's address and the handle that it asks for."""

import csv
import functools
import json
import operator
import re
from collections.abc import Callable, Iterable
from dataclasses import dataclass
from typing import Any
from urllib.parse import unquote_to_bytes

from hsp.intake.times import Span, Time, time_of

# The client's address, and its handle, or the reason why there is none.
Taken = tuple[bytes, "bytes | str"]
Take = Callable[[bytes], Taken]
# From a line to its time, or none.
Clock = Callable[[bytes], "Time | None"]
# From a time to the tag of its lines, a word or nothing, or the reason why they don't count.
Tag = Callable[[Time], "bytes | str"]

ODD = "not a line of this form"
OTHER_OPERATION = "another operation than a resolution"
OTHER_REQUEST = "another request than GET or HEAD"
OTHER_PREFIX = "a handle of another prefix"
LINE_END = "a line end in the handle"
NO_OCTET = "a % without two digits behind it"
NO_TIME, OTHER_TIME = "no time in the line", "another time than the wanted one"
RESOLUTION = b"1"
NAMES = ("server", "proxy", "json", "csv", "httplog")
# Values of so many octets are remembered, so that what comes again costs a look-up; and what each takes besides.
MOST_REMEMBERED, BESIDE = 1 << 26, 250
LONGEST_REMEMBERED = 1 << 10

REQUEST = re.compile(rb"(?:GET|HEAD) +(?:https?://[^/ ]*)?(/[^ ]*)(?: HTTP/\d(?:\.\d)?)?", re.IGNORECASE)
METHOD = re.compile(rb"[A-Z]+ ")
QUOTED = re.compile(rb'[^"\\]*(?:\\.[^"\\]*)*"')
# What stands behind the address in a log of hsp export haproxy; and what HAProxy logs as no other server does.
MARK, NO_REQUEST = b" haproxy - [", b"<BADREQ>"
OF_HAPROXY = re.compile(rb"\\|#([0-9A-F]{2})")
LONE_PERCENT = re.compile(rb"%(?![0-9A-Fa-f]{2})")
ESCAPED = re.compile(rb"\\(?:x([0-9A-Fa-f]{2})|(.))", re.DOTALL)
# What a proxy's address and path have before the handle.
BEFORE_HANDLE = re.compile(rb"(?:https?://[^/]*)?/*(?:api/handles/+)?(?:hdl:|doi:)?", re.IGNORECASE)


class Odd(Exception):
    """A line that isn't of the form."""


class Remembered(dict["bytes | str", "bytes | str"]):
    """What a function gives for octets, asked once while it is remembered. A reason stays what it is."""

    def __init__(self, function: Callable[[bytes], bytes | str]) -> None:
        super().__init__()
        self._function, self._octets = function, 0

    def __missing__(self, key: bytes | str) -> bytes | str:
        found = self._function(key) if isinstance(key, bytes) else key
        if self._octets > MOST_REMEMBERED:
            self.clear()
            self._octets = 0
        if len(key) <= LONGEST_REMEMBERED:
            self[key] = found
            self._octets += len(key) + len(found) + BESIDE
        return found


@dataclass(frozen=True)
class Form:
    """How the lines of a log are read: the name of the form, and the names of its fields."""

    name: str = "auto"
    client: str = "client"
    handle: str = "handle"
    path: str = ""
    pattern: re.Pattern[bytes] | None = None
    prefixes: frozenset[bytes] = frozenset()
    time: str = "time"

    def handle_of(self, handle: bytes) -> bytes | str:
        """The handle, where it is one of the wanted prefixes and stands in one line."""
        if b"\n" in handle or b"\r" in handle:
            return LINE_END
        if self.prefixes and handle.partition(b"/")[0].upper() not in self.prefixes:
            return OTHER_PREFIX
        return handle

    def handle_of_path(self, path: bytes) -> bytes | str:
        """The handle that a path of a proxy asks for: without the query, and percent-decoded."""
        plain = path.partition(b"?")[0]
        before = BEFORE_HANDLE.match(plain)
        handle = plain[before.end() if before else 0 :]
        return NO_OCTET if LONE_PERCENT.search(handle) else self.handle_of(unquote_to_bytes(handle))

    def handle_of_request(self, request: bytes) -> bytes | str:
        if b"\\" in request:
            request = ESCAPED.sub(lambda own: bytes([int(own[1], 16)]) if own[1] else own[2], request)
        match = REQUEST.fullmatch(request)
        if match:
            return self.handle_of_path(match[1])
        return OTHER_REQUEST if METHOD.match(request) or request == NO_REQUEST else ODD

    def take(self, first: bytes) -> Take:
        """How a line is taken. `first` is the first line, the header of a table."""
        if self.pattern:
            return self._of_pattern(self.pattern)
        if self.name == "csv":
            return self._of_table(first)
        own = {"server": self._of_server, "proxy": self._of_proxy, "json": self._of_json, "httplog": self._of_httplog}
        return own[self.name]()

    def clock(self, first: bytes) -> Clock:
        """How the time of a line is read. `first` is the first line, the header of a table."""
        if self.pattern:
            return self._clock_of_pattern(self.pattern)
        if self.name == "csv":
            return self._clock_of_table(first)
        if self.name == "json":
            return self._clock_of_json()
        if self.name == "httplog":
            return lambda line: time_of(line.partition(b" [")[2].partition(b"]")[0])
        if self.name == "proxy":
            return lambda line: time_of(line.partition(b" ")[2].partition(b"[")[2].partition(b"]")[0])
        return lambda line: time_of(line.partition(b'"')[2].partition(b'"')[0])

    def _clock_of_table(self, first: bytes) -> Clock:
        header = _row(first)
        if self.time not in header:
            raise Odd
        at = header.index(self.time)

        def clock(line: bytes) -> Time | None:
            row = [field.encode() for field in _row(line)] if b'"' in line else line.split(b",")
            return time_of(row[at]) if at < len(row) else None

        return clock

    def _clock_of_json(self) -> Clock:
        name, load = self.time, json.JSONDecoder().decode

        def clock(line: bytes) -> Time | None:
            try:
                return time_of(str(_in(load(line.decode()), name)).encode())
            except (ValueError, KeyError, TypeError, RecursionError):
                return None

        return clock

    def _clock_of_pattern(self, pattern: re.Pattern[bytes]) -> Clock:
        search = pattern.search
        if "time" not in pattern.groupindex:
            raise Odd

        def clock(line: bytes) -> Time | None:
            match = search(line)
            return time_of(match["time"]) if match and match["time"] is not None else None

        return clock

    def _of_server(self) -> Take:
        """A handle server's own log: `ADDRESS TYPE "DAY TIME" OPERATION RESPONSE DURATIONms HANDLE`."""
        handles = Remembered(self.handle_of)

        def take(line: bytes) -> Taken:
            try:
                address, _, day, clock, operation, _, time, handle = line.split(b" ", 7)
            except ValueError:
                raise Odd from None
            if day[:1] != b'"' or clock[-1:] != b'"' or time[-2:] != b"ms" or not operation.isdigit():
                raise Odd
            return address, handles[handle] if operation == RESOLUTION else OTHER_OPERATION

        return take

    def _of_proxy(self) -> Take:
        """The common or the combined log of an HTTP server: `ADDRESS - USER [TIME] "REQUEST" STATUS ..`."""
        handles = Remembered(self.handle_of_request)

        def take(line: bytes) -> Taken:
            head, _, rest = line.partition(b'"')
            address, _, middle = head.partition(b" ")
            request, quote, _ = rest.partition(b'"')
            if middle[-2:] != b"] " or not quote:
                raise Odd
            if MARK in head:
                return address, handles[as_others(request)]
            if request[-1:] == b"\\":
                match = QUOTED.match(rest)
                if not match:
                    raise Odd
                request = match[0][:-1]
            return address, handles[request]

        return take

    def _of_httplog(self) -> Take:
        """HAProxy's own log: `.. CLIENT:PORT [TIME] .. "REQUEST"`."""
        handles = Remembered(lambda request: self.handle_of_request(as_others(request)))

        def take(line: bytes) -> Taken:
            head, bracket, rest = line.partition(b" [")
            address, colon, port = head.rpartition(b" ")[2].rpartition(b":")
            request, quote, _ = rest.partition(b'"')[2].rpartition(b'"')
            if not bracket or not colon or not port.isdigit() or not quote:
                raise Odd
            return address, handles[request]

        return take

    def _field(self) -> tuple[str, Remembered]:
        """The name of the field with the handle or the path, and what its value gives."""
        return (self.path, Remembered(self.handle_of_path)) if self.path else (self.handle, Remembered(self.handle_of))

    def _of_table(self, first: bytes) -> Take:
        """Comma-separated values, a row in each line below a header."""
        name, handles = self._field()
        header = _row(first)
        if self.client not in header or name not in header:
            raise Odd
        client, handle, width = header.index(self.client), header.index(name), len(header)

        def take(line: bytes) -> Taken:
            row = [field.encode() for field in _row(line)] if b'"' in line else line.split(b",")
            if len(row) != width:
                raise Odd
            return row[client], handles[row[handle]]

        return take

    def _of_json(self) -> Take:
        """An object in each line."""
        name, handles = self._field()
        client = self.client
        load = json.JSONDecoder().decode

        def take(line: bytes) -> Taken:
            try:
                said: Any = load(line.decode())
                return _in(said, client).encode(), handles[_in(said, name).encode()]
            except (ValueError, KeyError, TypeError, AttributeError, RecursionError):
                raise Odd from None

        return take

    def _of_pattern(self, pattern: re.Pattern[bytes]) -> Take:
        """Lines of any form, by an expression with the groups `client` and `handle` or `path`."""
        search = pattern.search
        name = "path" if "path" in pattern.groupindex else "handle"
        handles = Remembered(self.handle_of_path if name == "path" else self.handle_of)

        def take(line: bytes) -> Taken:
            match = search(line)
            if not match or match["client"] is None or match[name] is None:
                raise Odd
            return match["client"], handles[match[name]]

        return take


def _in(said: Any, name: str) -> Any:
    """A field of an object, or `outer.inner` of an object in it."""
    return said[name] if name in said else functools.reduce(operator.getitem, name.split("."), said)


def as_others(request: bytes) -> bytes:
    """A request of HAProxy's log as other servers log it: for some octets HAProxy writes `#XX`, and `\\` as it is."""
    return OF_HAPROXY.sub(lambda match: b"\\x" + match[1] if match[1] else rb"\\", request)


def within(span: Span) -> Tag:
    """Has only the lines of a span of time counted, and doesn't tell them apart."""
    return lambda time: b"" if span.has(time.seconds) else OTHER_TIME


def _row(line: bytes) -> list[str]:
    try:
        return next(csv.reader([line.decode("utf-8")], strict=True), [])
    except (csv.Error, UnicodeDecodeError):
        raise Odd from None


def fits(form: Form, lines: list[bytes]) -> int:
    """How many of these first lines of a log are of a form."""
    fine = 0
    try:
        take = form.take(lines[0])
    except Odd:
        return 0
    for line in lines[form.name == "csv" :]:
        try:
            fine += take(line)[1] != ODD
        except Odd:
            pass
    return fine + (form.name == "csv")


def likeliest(forms: Iterable[Form], lines: list[bytes]) -> Form | None:
    """The form that most of these lines are of, the first one of several."""
    found = [(fits(form, lines), form) for form in forms]
    most = max((count for count, _ in found), default=0)
    return next((form for count, form in found if count == most), None) if most else None
