"""How a front's rows are answered: hsplan gets them with their front, and its faults are turned back to file and
line."""

import contextlib
import io
import itertools
import os
import re
import subprocess
from collections.abc import Iterator
from typing import IO, Any

from hsp.base.ends import BROKEN, OUT_OF_MEMORY
from hsp.base.files import created
from hsp.base.grammar import LOG_HEADERS
from hsp.base.programs import program
from hsp.base.unfit import Unfit
from hsp.intake import logs

HEADER = LOG_HEADERS["dispatch"][0].encode()
OF_ALL = LOG_HEADERS["fronts"][0].encode()
FILES = ("settings", "values", "demand", "costs", "capacity", "plan", "prices")
# The first words of answers. Their first letters differ.
SUMS = ("assigned", "spent", "diverted", "full", "unknown", "nofront", "refused")
BLOCK = 1 << 22
# Statuses of hsplan that another try doesn't change: refused inputs, wrong words, no plan.
LASTING = (1, 2, 3)
DIES_WITH_ITS_PARENT = ["setpriv", "--pdeathsig", "KILL", "--"]


class Again(Exception):
    """A fault that may be gone at the next try."""

    def __init__(self, line: str, status: int) -> None:
        super().__init__(line)
        self.status = status


def blocks(path: str) -> Iterator[bytes]:
    """A log, unpacked, in blocks of whole lines. The last line gets its end."""
    rest, numbers = b"", [1]
    for block in logs.blocks(path, numbers, size=BLOCK):
        end = block.rfind(b"\n") + 1
        if end:
            numbers[0] += block.count(b"\n")
            yield rest + block[:end]
            rest = block[end:]
        else:
            rest += block
        if len(rest) > logs.MOST_OF_LINE:
            raise Unfit(f"{path}: line {numbers[0]}: longer than {logs.MOST_OF_LINE:,} octets")
    if rest:
        yield rest + b"\n"


def _is_row(line: bytes) -> bool:
    return bool(line.rstrip(b"\r\n"))


def rows_of_front(path: str, front: bytes) -> Iterator[tuple[bytes, int]]:
    """The rows of a front's log as a log of all fronts has them, without a header, and how many there are."""
    is_first = True
    for block in blocks(path):
        if is_first:
            is_first = False
            head, _, block = block.partition(b"\n")
            if head.rstrip(b"\r") != HEADER:
                raise Unfit(f"{path}: line 1: the header isn't {HEADER.decode()}")
        if b"\r" in block or b"\n\n" in block or block[:1] == b"\n":
            block = b"".join(row for row in io.BytesIO(block) if _is_row(row))
        if block:
            rows = front + block[:-1].replace(b"\n", b"\n" + front) + b"\n" if front else block
            yield rows, block.count(b"\n")
    if is_first:
        raise Unfit(f"{path}: line 1: the header isn't {HEADER.decode()}")


def line_of_row(path: str, row: int) -> int:
    """The line of a log's row. Rows count from 0 below the header, lines from 1, and an empty line is no row."""
    lines = itertools.chain.from_iterable(map(io.BytesIO, blocks(path)))
    numbers = (number for number, line in enumerate(lines, 1) if _is_row(line) and number > 1)
    return next(itertools.islice(numbers, row, None), 0)


def words_of(request: dict[str, Any]) -> list[str]:
    """The command that answers, with the files of the run."""
    files = [word for role in FILES if role in request["files"] for word in (f"--{role}", request["files"][role])]
    fronts = ["--fronts", str(request["fronts"])]
    if request["by_prices"]:
        return [program("hsplan-stream"), "answer", *files, *fronts, "--front", str(request["front"])]
    return [program("hsplan"), "dispatch", *files, *fronts]


def _feed(pipe: IO[bytes], request: dict[str, Any]) -> list[int]:
    """Passes all rows of a front on. Returns how many there are in each of its files.

    A log of all fronts is passed on as it is.
    """
    if request["front"] is None:
        with contextlib.suppress(BrokenPipeError):
            pipe.writelines(blocks(request["logs"][0]))
        with contextlib.suppress(BrokenPipeError):
            pipe.close()
        return []
    front = b"" if request["by_prices"] else b"%d," % request["front"]
    counts = [0] * len(request["logs"])
    with contextlib.suppress(BrokenPipeError):  # hsplan has ended, and says why
        pipe.write((OF_ALL if front else HEADER) + b"\n")
        for at, path in enumerate(request["logs"]):
            for rows, number in rows_of_front(path, front):
                counts[at] += number
                pipe.write(rows)
    with contextlib.suppress(BrokenPipeError):
        pipe.close()
    return counts


def _ran(request: dict[str, Any], out: IO[bytes]) -> tuple[int, str, list[int]]:
    """Runs the command. Returns its status, its last line and the rows of each file."""
    words = [*DIES_WITH_ITS_PARENT, *words_of(request), "--log", "/dev/stdin"]
    with subprocess.Popen(words, stdin=subprocess.PIPE, stdout=out, stderr=subprocess.PIPE) as run:
        assert run.stdin and run.stderr
        try:
            counts = _feed(run.stdin, request)
            said = run.stderr.read().decode("utf-8", "replace").strip()
        except BaseException:
            run.kill()
            with contextlib.suppress(BrokenPipeError):  # what still waits for hsplan hides no fault
                run.stdin.close()
            raise
    return run.returncode, said, counts


def _place(request: dict[str, Any], counts: list[int], row: int) -> str:
    """The file and the line of a row of a front's files. A row of a log of all fronts may be more than a line."""
    for path, count in zip(request["logs"], counts):
        if row < count:
            return f"{path}: line {line_of_row(path, row)}"
        row -= count
    return f"{request['logs'][-1]}: row {row}"


def _refused(request: dict[str, Any], status: int, said: str, counts: list[int]) -> dict[str, Any]:
    """The fault of a run that has ended with a status of its own."""
    line = re.sub(r"^hsplan(-stream)?: ", "", said)
    found = re.fullmatch(r"log: (.+?) row ([0-9]+)(.*)", line)
    if status not in LASTING:
        name = f"signal {-status}" if status < 0 else f"status {status}"
        line = f": {line}" if line else ""
        raise Again(
            f"{request['logs'][0]}: hsplan ended with {name}{line}", status if status == OUT_OF_MEMORY else BROKEN
        )
    if found:
        place = _place(request, counts, int(found[2]))
        return {"fault": f"{place}: {found[1]}{found[3]}", "status": status, "row": int(found[2]), "word": found[1]}
    if line.startswith("log: "):
        return {"fault": f"{request['logs'][0]}: {line.removeprefix('log: ')}", "status": status}
    return {"fault": f"hsplan refuses these files: {line}", "status": status}


def sums_of(path: str) -> dict[str, int]:
    """How many answers of each kind stand in a file. Their first letters differ."""
    sums, before = dict.fromkeys(SUMS, 0), b"\n"
    with open(path, "rb", buffering=0) as file:
        while block := file.read(BLOCK):
            text = before + block
            for name in SUMS:
                sums[name] += text.count(b"\n" + name[:1].encode())
            before = block[-1:]
    return sums


def _cut(whole: str, paths: list[str], counts: list[int]) -> None:
    """Parts the answers of several files."""
    with open(whole, "rb") as answers:
        for path, count in zip(paths, counts):
            with created(path) as file:
                file.writelines(itertools.islice(answers, count))
                file.flush()
                os.fsync(file.fileno())
    os.unlink(whole)


def answer(request: dict[str, Any]) -> dict[str, Any]:
    """Answers the rows of a front, or a log of all fronts where none is named. The answers aren't published yet."""
    paths = request["staged"]
    whole = paths[0] if len(paths) == 1 else f"{paths[0]}-all"
    with created(whole) as out:
        status, said, counts = _ran(request, out)
        os.fsync(out.fileno())
    if status:
        return _refused(request, status, said, counts)
    sums = sums_of(whole)
    if counts and sum(sums.values()) != sum(counts):
        names = ", ".join(request["logs"])
        raise Unfit(
            f"{names}: {sum(counts)} lines have {sum(sums.values())} rows: a row may have no line end in quotes"
        )
    if whole != paths[0]:
        _cut(whole, paths, counts)
    return {"sums": sums}
