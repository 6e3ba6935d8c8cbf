"""One log of all fronts: a log for each front, and the answers again in the order of the log."""

import io
import os

from hsp.base.files import growing
from hsp.base.grammar import MOST_LOG_ROWS
from hsp.base.unfit import Unfit
from hsp.fleet.answers import HEADER, OF_ALL, blocks


class Parted:
    """A log of all fronts in a folder of its own: a log for each front, and the front of each row.

    `is_plain` is false where a row may be more than its line, or where its front isn't a plain number: such a log is
    for one run of hsplan.
    """

    def __init__(self, path: str, folder: str, fronts: int) -> None:
        self.path, self.is_plain, self.order = path, True, bytearray()
        self.logs = [os.path.join(folder, f"{number}.csv") for number in range(fronts)]
        self._numbers = {b"%d" % number: number for number in range(fronts)}
        is_first = True
        files = [open(log, "wb") for log in self.logs]
        try:
            for log in files:
                log.write(HEADER + b"\n")
            for block in blocks(path):
                if is_first:
                    head, _, block = block.partition(b"\n")
                    is_first = False
                    if head.rstrip(b"\r") != OF_ALL:
                        raise Unfit(f"{path}: line 1: the header isn't {OF_ALL.decode()}; name a front: 0={path}")
                rows = self._rows(block)
                if rows is None:
                    self.is_plain = False
                    return
                for file, own in zip(files, rows):
                    file.write(b"".join(own))
        finally:
            for log in files:
                log.close()
        if is_first:
            raise Unfit(f"{path}: line 1: the header isn't {OF_ALL.decode()}")

    def _rows(self, block: bytes) -> list[list[bytes]] | None:
        """The rows of each front in a block of lines, or none where they aren't plain."""
        if b'"' in block or b"\r" in block:
            return None
        rows: list[list[bytes]] = [[] for _ in self.logs]
        for line in io.BytesIO(block):
            number, comma, rest = line.partition(b",")
            at = self._numbers.get(number)
            if at is None or not comma:
                if line == b"\n":
                    continue
                return None
            rows[at].append(rest)
            self.order.append(at)
        if len(self.order) > MOST_LOG_ROWS:
            raise Unfit(
                f"{self.path}: more than {MOST_LOG_ROWS:,} rows. Let each front write a file of its own, {HEADER.decode()}, "
                "and give them as 0=FILE 1=FILE .."
            )
        return rows

    def row(self, front: int, number: int) -> int:
        """Where a front's row is in the log of all."""
        at = -1
        for _ in range(number + 1):
            at = self.order.index(front, at + 1)
        return at

    def merge(self, answers: list[str], output: str) -> None:
        """Writes the answers in the order of the log."""
        files = [open(answer, "rb") for answer in answers]
        try:
            with growing(output) as out:
                for at in range(0, len(self.order), 1 << 16):
                    own = self.order[at : at + (1 << 16)]
                    out.write(b"".join(map(next, map(files.__getitem__, own))))
        finally:
            for file in files:
                file.close()
