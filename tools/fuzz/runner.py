"""A program that is run again and again in one process, on words and files in memory; what holds of its answers."""

import os
import re
import struct
import subprocess
from collections.abc import Callable, Mapping
from typing import Any, NamedTuple

from draws import Where
from hypothesis import strategies as st

from lib import preload

BOTH = """
2 Usage
3 WrongKind|check: (Shape|NoSuchUse|RowSum|Load|Cost|ArcPrice|UsedArcPrice|IdlePrice|DemandSum|CapacitySum|NotShort)
5 read failed
1 BadFronts|log: Header|log: Fields row #
1 settings: (NotToml|UnknownKey|BadSite site #|SiteTwice site #|TooManySites|BadHost host #|HostTwice host #|TooManyHosts)
1 build: (NoValue|NotSiteValue|BadHashOption|NoServer|ServerIdTwice) site #
1 build: (TooManyServers|UnknownSite table (costs|capacity) row #|UnknownServer row #|NoCapacity site # server_id #)
1 build: BadRecord site # (Truncated at #|Trailing at #|TooManyServers)
1 certificate: (BadLine line #|Ended|AfterEnd line #)
1 (demand|costs|capacity): (Header|TooManyRows|TooManyRegions|(Fields|BadName|BadNumber|RowTwice) row #|BadHandle row # @)
1 values: (Truncated at #|Trailing at #|TooManyServers|IndexTwice index #)
"""
OWN = {
    "hsplan": """
1 BadOption|BadServers|BadIndex|NoValue|NotSiteValue|handle: @|log: (BadHandle|BadBody|BadFront) row #
1 site: (Truncated at #|Trailing at #|TooManyServers|IndexTwice index #)
0 assigned # spent # unknown #
""",
    "hsplan-stream": """
1 BadFront|plan: TooLarge|log: (BadName|BadNumber|TooManyRegions) row #
1 log: BadHandle row # @
3 check: NoSuchServer
0 assigned # diverted # full # unknown # refused #
""",
}
HANDLE = "(TooLong|NotUtf8|NoSlash|EmptySegment)"
# The bounds of memory in octets and of time in seconds, and what each octet of the input adds.
MEMORY, MEMORY_EACH = {"hsplan": 1 << 19, "hsplan-stream": 1 << 20}, 200
SECONDS, SECONDS_EACH = 0.1, 0.00002
# The forms of a status with its line.
FORMS = {name: (BOTH + own).replace("#", "[0-9]+").replace("@", HANDLE) for name, own in OWN.items()}
FORM = {name: re.compile(re.sub(r"\n*(.) (.*)\n", r"|\1 (?:\2)", text).encode()) for name, text in FORMS.items()}
# The structures of runner.c, the most texts of a request, and a number beyond all lengths.
MOST_TEXTS, ALL = 98, 2**62
# The beginning of a certificate by prices of a shortage.
SHORT = b"HSPLAN PRICES 1\nSHORT\n"
REQUEST, ANSWER = struct.Struct(f"={3 + MOST_TEXTS}Q"), struct.Struct("=q8Q")
Files = Mapping[str, bytes]


class Answer(NamedTuple):
    """What a run printed on both streams, its status, the fault that it reported behind the program's name, the most
    octets of memory that it held, those at its end, its seconds, and of a read of the log that was noted how many
    octets were given and printed before it."""

    printed: bytes
    reported: bytes
    status: int
    fault: bytes
    most: int
    held: int
    seconds: float
    noted: tuple[int, int] | None

    @property
    def said(self) -> tuple[bytes, bytes, int]:
        return self[:3]


def built(folder: str) -> str:
    """The library that is preloaded before a program, compiled into a folder."""
    return preload.compiled("fuzz/runner.c", folder, "cc -O2 -Wall -Wextra -Wno-unused-parameter -shared -fPIC", "-ldl")


class Runner:
    """A program, by its path and its name, in a process that begins with the first run and anew where it died. Beside
    it stand the programs, by their names, that make what is judged."""

    def __init__(self, name: str, path: str, preloaded: str) -> None:
        self.name, self.path, self.means = name, path, dict(os.environ, LD_PRELOAD=preloaded)
        self.runs = 0
        self.beside: dict[str, Runner] = {}
        self._process: subprocess.Popen[bytes] | None = None

    def end(self) -> None:
        if self._process:
            self._process.kill()
            self._process.communicate()
            self._process = None

    def run(self, words: bytes, files: Files, by_words: bool = False, piece: int = ALL, noted: int = ALL) -> Answer:
        """Runs the program on these files. The words stand on its standard input, or are its arguments."""
        self.runs += 1
        texts = [words, b""] if by_words else [b"", words + b"\n"]
        texts += [it for name, text in files.items() for it in (name.encode(), text)]
        lengths = [*map(len, texts), *[0] * (MOST_TEXTS - len(texts))]
        request = REQUEST.pack(piece, noted, len(texts), *lengths) + b"".join(text + b"\0" for text in texts)
        pipe = subprocess.PIPE
        self._process = self._process or subprocess.Popen(
            [self.name], executable=self.path, env=self.means, stdin=pipe, stdout=pipe
        )
        asking, saying = self._process.stdin, self._process.stdout
        assert asking and saying
        try:
            asking.write(request)
            asking.flush()
            numbers = ANSWER.unpack(saying.read(ANSWER.size))
            printed, reported = map(saying.read, numbers[-2:])
        except (OSError, struct.error) as ended:
            self.end()
            raise AssertionError(f"the program ended its process, or took a minute: {words[:300]!r}") from ended
        status, most, held, spent, is_noted, given, before = numbers[:7]
        seen, head = (given, before) if is_noted else None, f"{self.name}: ".encode()
        fault = reported[len(head) : -1] if reported.startswith(head) else b""
        return Answer(printed, reported, status, fault, most, held, spent / 1e6, seen)


def is_suiting(name: str, words: bytes, answer: Answer) -> bool:
    """Whether the status suits what was printed on both streams."""
    line, fault = answer.reported, answer.fault
    if line and (not line.endswith(b"\n") or line.count(b"\n") > 1):
        return False
    if fault:
        # Only the commands that print as they read print something before they meet a fault.
        may_print = b"dispatch" in words or fault.startswith(b"log: ") and answer.printed.startswith(b"handle,site,")
        is_own = FORM[name].fullmatch(b"%d %s" % (answer.status, fault)) and answer.status > 0
        return bool(is_own) and (not answer.printed or may_print)
    is_no = answer.status == 3 and answer.printed.startswith((b"no ", b"HSPLAN 1\nSHORTAGE\n", SHORT))
    has_sums = re.search(rb"dispatch|answer", words) and FORM[name].fullmatch(b"0 " + line[:-1])
    return (answer.status == 0 or is_no) and (not line or bool(has_sums))


def answered(program: Runner, words: bytes, files: Mapping[str, bytes], by_words: bool = False, **how: int) -> Answer:
    """The answer of a program, after what holds of every one. Two runs agree."""
    first, again = (program.run(words, files, by_words, **how) for _ in range(2))
    same(f"two answers to {words!r}", first, again)
    size = len(words) + sum(map(len, files.values()))
    assert is_suiting(program.name, words, first), f"status or line of {words!r}: {first}"
    assert not first.held, f"memory kept: {words!r}: {first}"
    assert first.most <= MEMORY[program.name] + MEMORY_EACH * size, f"memory: {words!r}: {first}"
    bound = SECONDS + SECONDS_EACH * size
    # The machine may have stood still meanwhile, so what took too long is run again.
    quick = min(first.seconds, again.seconds) <= bound or program.run(words, files, by_words, **how).seconds <= bound
    assert quick, f"time: {words!r}: {first}"
    return first


def same(what: str, one: Answer, other: Answer) -> None:
    assert one.said == other.said, f"{what}: {one.said} and {other.said}"


def ends_plainly(text: bytes, header: bytes = b"") -> bool:
    """Whether a table has no quotes, begins with the header, and its last line has an end, so that what comes behind
    it are further rows."""
    is_ended = bool(text.strip(b"\n\xef\xbb\xbf")) and text.endswith(b"\n")
    return is_ended and not set(text) & set(b'"\r') and text.startswith(header)


class Kind(NamedTuple):
    """A kind of cases: what is drawn, the judge of it, who gets drawn places too, and the program that is judged."""

    drawn: st.SearchStrategy[Any]
    judge: Callable[[Runner, Any, Where], object]
    program: str = "hsplan"
