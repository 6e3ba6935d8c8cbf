"""What a running HAProxy says at its socket, and how its map is swapped."""

import os
import re
import socket
import time
from collections.abc import Iterable, Iterator, Mapping
from dataclasses import dataclass

from hsp.base.programs import Missing
from hsp.base.text import escaped

# So many seconds a whole answer is waited for, and so many octets one has at most.
PATIENCE = 5
MOST_OF_ANSWER = 1 << 24
# So many octets of a map are sent at once: HAProxy reads a command and what belongs to it into one buffer of 16 kB.
AT_ONCE = 8_000
# A number of HAProxy. What has more digits is none of its counters.
NUMBER = re.compile(r"[0-9]{1,15}")
VERSION = re.compile(r"New version created: ([0-9]+)")
# The states of a server that takes queries: it starts slowly, or it runs.
UP = ("1", "2")


@dataclass(frozen=True)
class Reading:
    """What HAProxy says at one time: which run of it this is, when it began, what each server was given since then,
    and which servers take no queries."""

    at: float
    run: str
    began: float
    counts: dict[str, int]
    down: frozenset[str]


def _number(text: str) -> int:
    if not NUMBER.fullmatch(text):
        raise ValueError
    return int(text)


def _counts(table: str) -> dict[str, int]:
    """What each server was given, by the lines of HAProxy's table."""
    lines = (dict(word.partition("=")[::2] for word in line.split()) for line in table.splitlines())
    return {line["key"]: _number(line["http_req_cnt"]) for line in lines if {"key", "http_req_cnt"} <= line.keys()}


def pieces(lines: Iterable[str]) -> Iterator[str]:
    """Lines in pieces that HAProxy takes at once."""
    piece: list[str] = []
    octets = 0
    for line in lines:
        if piece and octets + len(line.encode()) + 1 > AT_ONCE:
            yield "".join(piece)
            piece, octets = [], 0
        piece.append(f"{line}\n")
        octets += len(line.encode()) + 1
    if piece:
        yield "".join(piece)


class Runtime:
    """The socket of a running HAProxy."""

    def __init__(self, path: str) -> None:
        self.path = path

    def say(self, words: str, patience: float = PATIENCE) -> str:
        """What HAProxy answers to a command, whole within so many seconds."""
        until = time.monotonic() + patience
        try:
            with socket.socket(socket.AF_UNIX) as own:
                own.settimeout(patience)
                own.connect(self.path)
                own.sendall(f"{words}\n".encode())
                return b"".join(self._blocks(own, until)).decode("utf-8", "replace")
        except OSError as fault:
            raise Missing(f"{self.path}: HAProxy doesn't answer there: {fault.strerror or fault}") from None

    def _blocks(self, own: socket.socket, until: float) -> Iterator[bytes]:
        """The octets of an answer, which has to end in time, and isn't longer than HAProxy's are."""
        octets, block = 0, b" "
        while block:
            left = until - time.monotonic()
            if left <= 0:
                raise TimeoutError("timed out")
            own.settimeout(left)
            block = own.recv(1 << 16)
            octets += len(block)
            if octets > MOST_OF_ANSWER:
                raise self._no_haproxy()
            yield block

    def _no_haproxy(self) -> Missing:
        return Missing(f"{self.path}: what answers there isn't HAProxy")

    def down(self) -> frozenset[str]:
        """The servers that take no queries: their checks fail, or somebody has taken them out."""
        lines = (line.split() for line in self.say("show servers state").splitlines()[2:])
        return frozenset(line[3] for line in lines if len(line) > 6 and (line[5] not in UP or line[6] != "0"))

    def reading(self, patience: float = PATIENCE) -> Reading:
        """What HAProxy says now. Its first word is waited for so long."""
        said = dict(line.partition(": ")[::2] for line in self.say("show info", patience).splitlines())
        table = self.say("show table taken")
        down, now = self.down(), time.time()
        try:
            counts = _counts(table)
            run, began = f"{said['Pid']} {said.get('Start_time_sec', '')}", now - _number(said["Uptime_sec"])
        except (KeyError, ValueError):
            raise self._no_haproxy() from None
        return Reading(now, run, began, counts, down)

    def _names(self) -> dict[str, str]:
        """What HAProxy calls its maps, by the names of the files that it has read them from."""
        named = re.findall(r"^[0-9]+ \((.+?)\) ", self.say("show map"), re.MULTILINE)
        return {os.path.basename(name): name for name in named}

    def _prepared(self, name: str, lines: Iterable[str]) -> str:
        """A new version of a map, with these lines, which isn't in force yet: the words that put it in force."""
        match = VERSION.search(self.say(f"prepare map {name}"))
        if not match:
            raise Missing(f"{self.path}: HAProxy prepares no new {os.path.basename(name)}")
        faults = (self.say(f"add map @{match[1]} {name} <<\n{piece}").strip() for piece in pieces(lines))
        self._refuse(next(filter(None, faults), ""), name)
        return f"commit map @{match[1]} {name}"

    def _refuse(self, fault: str, name: str) -> None:
        if fault:
            file = os.path.basename(name)
            raise Missing(f"{self.path}: HAProxy doesn't take the new {file}: {escaped(fault)[:200]}")

    def swap(self, maps: Mapping[str, Iterable[str]]) -> None:
        """Puts lines in place of those of maps, by the names of their files, for all queries at once. What fails
        before the last word changes nothing."""
        names = self._names()
        for file in maps:
            if file not in names:
                raise Missing(f"{self.path}: the HAProxy that answers there has no {file}")
        words = [self._prepared(names[file], lines) for file, lines in maps.items()]
        self._refuse(self.say("; ".join(words)).strip(), "maps")
