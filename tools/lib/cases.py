r"""Cases of the programs: transcripts of single runs, one file for each command, in checks/PROGRAM.

A line of a transcript begins with a mark:

  == NAME               a case begins
  @ FILE                a file of the case, whose lines follow; it stands beside the files that all cases share
  $ WORDS               the words of a run, on one line: once as arguments, and once on standard input
  % WORD                or one argument after the other, which are given only as arguments
  < LINE                a line of standard input
  | LINE                a line of the file, or of what has to be printed on standard output
  * FIRST LAST LINE     a line like those above it for each number from FIRST to LAST; {0} is the number, as Python's
                        format writes it ({0:5}; {{ for a brace)
  ...                   any text on standard output
  ! LINE                a line on standard error
  = STATUS              the status, where it isn't 0
  ~ LINE                what `check` has to print for the printed text, over the same inputs

In a line, \\ is a backslash, \xNN an octet, \<N TEXT> the text N times, and \version the version. A backslash at its
end leaves out the line's end. Lines above the first case are a comment.
"""

import os
import re
import shutil
import subprocess
from collections.abc import Iterator
from dataclasses import dataclass, field

from lib import oracle, programs

FOLDER = os.path.join(programs.TOP, "checks")
Ended = tuple[bytes, bytes, int]
# The words of a run, and its standard input.
Way = tuple[list[bytes], bytes]


@dataclass
class Case:
    """A case: its command's file, its own files, what it is given, and what it has to print."""

    name: str
    command: str
    files: dict[str, bytes] = field(default_factory=dict)
    words: bytes | None = None
    arguments: list[bytes] = field(default_factory=list)
    given: bytes = b""
    printed: list[bytes] = field(default_factory=lambda: [b""])
    reported: bytes = b""
    status: int = 0
    judged: bytes = b""

    def ways(self) -> list[Way]:
        if self.words is None:
            return [(self.arguments, self.given)]
        if self.given:
            return [(self.words.split(), self.given)]
        return [(self.words.split(), b""), ([], self.words)]

    def is_printed(self, text: bytes) -> bool:
        """Whether a text is what it has to print."""
        return re.fullmatch(b".*".join(map(re.escape, self.printed)), text, re.S) is not None

    def wanted(self, printed: bytes) -> Ended:
        """What a run has to print on both streams, and its status; of several right texts that which it printed."""
        text = printed if self.is_printed(printed) else b"..".join(self.printed)
        return text, self.reported, self.status


def _octets(text: str) -> bytes:
    text = text.replace(r"\version", programs.version())
    text = re.sub(r"\\<([0-9]+) (.*?)>", lambda it: it[2] * int(it[1]), text)
    ended = re.search(r"(?<!\\)(?:\\\\)*\\$", text)
    parts = re.split(r"(\\\\|\\x[0-9a-f]{2})", text[:-1] if ended else text)
    found = b"".join(
        b"\\" if it == "\\\\" else bytes.fromhex(it[2:]) if re.fullmatch(r"\\x[0-9a-f]{2}", it) else it.encode()
        for it in parts
    )
    return found if ended else found + b"\n"


def _lines(mark: str, text: str) -> bytes:
    """The lines that a line stands for."""
    if mark != "*":
        return _octets(text)
    first, last, *form = text.split(" ", 2)
    return b"".join(_octets("".join(form).format(number)) for number in range(int(first), int(last) + 1))


def _take(case: Case, into: str, mark: str, text: str) -> str:
    """Takes a line of a case. Returns what the lines behind it go into: a file by its mark and name, `<`, or `|`."""
    if mark == "@":
        case.files[text] = b""
        return f"@{text}"
    if mark in "|*" and into[0] == "@":
        case.files[into[1:]] += _lines(mark, text)
        return into
    if mark == "<" or mark == "*" and into == "<":
        case.given += _lines(mark, text)
        return "<"
    if mark in "|*":
        case.printed[-1] += _lines(mark, text)
    elif mark == "...":
        case.printed.append(b"")
    elif mark == "$":
        case.words = _octets(text)
    elif mark == "%":
        case.arguments.append(_octets(text)[:-1])
    elif mark == "!":
        case.reported += _octets(text)
    elif mark == "=":
        case.status = int(text)
    elif mark == "~":
        case.judged += _octets(text)
    else:
        raise ValueError(f"{case.command}: {case.name}: this is no line of a case: {mark} {text}")
    return "|"


def cases_of(path: str) -> Iterator[Case]:
    command = os.path.splitext(os.path.basename(path))[0]
    case, into = None, "|"
    with open(path, encoding="utf-8", newline="\n") as file:
        for line in file.read().split("\n"):
            mark, _, text = line.partition(" ")
            if mark == "==":
                if case:
                    yield case
                case, into = Case(text, command), "|"
            elif case and line:
                into = _take(case, into, mark, text)
    if case:
        yield case


def cases_in(program: str) -> list[Case]:
    folder = os.path.join(FOLDER, program)
    found = [case for name in sorted(os.listdir(folder)) for case in cases_of(os.path.join(folder, name))]
    names = [case.name for case in found]
    twice = {it for it in names if names.count(it) > 1}
    if twice:
        raise ValueError(f"cases of one name: {', '.join(sorted(twice))}")
    return sorted(found, key=lambda case: case.name)


def put_files(folder: str, files: dict[str, bytes]) -> None:
    for name, octets in files.items():
        path = os.fsencode(folder) + b"/" + _octets(name)[:-1]
        with open(path, "wb") as file:
            file.write(octets)


def base(program: str, room: str, hsplan: str) -> str:
    """A folder with the files that all cases of a program share."""
    data = os.path.join(room, "data")
    if program == "hsplan":
        shutil.copytree(os.path.join(programs.TOP, "examples", "base"), data)
        return data
    os.mkdir(data)
    oracle.put_cases(data)
    words = ["plan", *oracle.INPUTS.split()]
    plan = run(hsplan, [word.encode() for word in words], b"", data)[0]
    put_files(data, {"plan.txt": plan})
    return data


def folder_of(case: Case, room: str, data: str) -> str:
    """The folder in which a case is run: the shared files, with the case's own in their place."""
    if not case.files:
        return data
    folder = os.path.join(room, case.name.replace(" ", "_"))
    shutil.copytree(data, folder)
    put_files(folder, case.files)
    return folder


def run(program: str, words: list[bytes], given: bytes, folder: str, **means: str) -> Ended:
    """Runs a program. Returns what it printed on both streams, and its status."""
    whole, env = [program.encode(), *words], {**os.environ, **means}
    ended = subprocess.run(whole, input=given, cwd=folder, capture_output=True, env=env)
    return ended.stdout, ended.stderr, ended.returncode


def misjudged(program: str, case: Case, words: list[bytes], folder: str, text: bytes) -> list[str]:
    """The fault of a case where `check` prints something else for the text that the case printed."""
    if not case.judged or not words:
        return []
    put_files(folder, {"printed.txt": text})
    option = b"--prices" if text.startswith(b"HSPLAN PRICES") else b"--plan"
    said = run(program, [b"check", *words[1:], option, b"printed.txt"], case.given, folder)
    return [] if said == (case.judged, b"", 0) else [f"{case.name}: check of what was printed: {said}"]


def faults_of(program: str, case: Case, way: Way, folder: str) -> list[str]:
    got = run(program, *way, folder)
    wanted = case.wanted(got[0])
    if got != wanted:
        return [f"{case.name}: wanted {wanted}, got {got}"]
    return misjudged(program, case, way[0], folder, got[0])


def all_faults(program: str, room: str, name: str = "hsplan") -> list[str]:
    """The faults of all cases of a folder with a program hsplan. No allocation is refused."""
    data = base("hsplan", room, program)
    return [
        fault
        for case in cases_in(name)
        for folder in [folder_of(case, room, data)]
        for way in case.ways()
        for fault in faults_of(program, case, way, folder)
    ]
