"""Queries are counted by hour, region and handle, and become a demand of each hour.

All of them have the same rows in the same order, with the count 0 where nothing came. Each has a folder of its own.
"""

import contextlib
import io
import os
from collections.abc import Callable, Iterable, Iterator, Mapping, Sequence

import click

from hsp.base.bounds import BESIDE, MOST_HELD, Query
from hsp.base.files import Outputs
from hsp.base.grammar import MOST_DEMAND_ROWS
from hsp.base.paths import path_in
from hsp.base.programs import Missing, Programs
from hsp.base.signals import uncut
from hsp.intake.hours import Chosen, Cycle
from hsp.intake.regions import tag_of
from hsp.intake.tally import HEADER, MOST_PAIRS, Demand, Tally, most_first, rows_of
from hsp.plans.service import NAMES
from hsp.plans.titles import uncounted

# So many rows of a log are passed on at once.
AT_ONCE = 1 << 14
ZERO = b",0\n"


class HourTally(Tally):
    """How often each region asks for each handle in each hour. The tag of a region is the place of the hour."""

    def __init__(self, programs: Programs, chosen: Chosen, most: int = MOST_PAIRS) -> None:
        super().__init__(programs, most)
        hours = chosen.cycle.size
        self._hours: list[dict[Query, int]] = [{} for _ in range(hours)]
        self._files: list[str | None] = [None] * hours
        self._entries = 0
        self.busiest = chosen.busiest
        self._scaled = chosen.scaled
        # The octets of the demand of an hour, in pieces of whole rows, as soon as there is a demand.
        self.table: Callable[[int], Iterator[bytes]] = lambda hour: iter(())

    def count(self, counts: Mapping[Query, int]) -> None:
        """Counts queries by their hours, too."""
        plain: dict[Query, int] = {}
        for (tagged, handle), number in counts.items():
            tag, region = tag_of(tagged)
            hour, pair = int(tag), (region, handle)
            of_hour = self._hours[hour]
            self._entries += pair not in of_hour
            of_hour[pair] = of_hour.get(pair, 0) + number
            plain[pair] = plain.get(pair, 0) + number
        super().count(plain)

    @property
    def _is_full(self) -> bool:
        """Rows that a table holds are never put into a file, whatever the number of hours."""
        octets = self._octets + BESIDE * self._entries
        return len(self._counts) > MOST_DEMAND_ROWS and (len(self._counts) > self._most or octets > MOST_HELD)

    def _spill(self) -> None:
        """Puts the counts of each hour into a file of its own, in the order of all pairs, and these into another."""
        at = {pair: number for number, pair in enumerate(self._counts)}
        for hour, counts in enumerate(self._hours):
            order = sorted(counts, key=at.__getitem__)
            self._files[hour] = self._put(self._files[hour], ((pair, counts[pair]) for pair in order))
            counts.clear()
        self._entries = 0
        super()._spill()

    def _kept(self) -> Iterable[tuple[Query, int]]:
        return ((pair, 0) for pair in self._counts)

    def demand(self) -> Demand:
        """The demand of the busiest hour, without rows of 0. `table` has those of all hours."""
        own = super().demand()
        return Demand(own.rows, lambda: _without_zeros(self.table(self.busiest)), own.why_log)

    def _most_of_a_row(self) -> int:
        return max((max(counts.values(), default=0) for counts in self._hours), default=0)

    def _table(self) -> Demand:
        order = [pair for pair, _ in most_first(self._counts)]
        tables = [HEADER + b"".join(rows_of((pair, of.get(pair, 0)) for pair in order)) for of in self._hours]
        self._accepted(tables[self.busiest])
        self.table = lambda hour: iter(self._scaled(hour, [tables[hour]]))
        return Demand(len(order), lambda: iter(()))

    def _log(self, why: str) -> Demand:
        own = super()._log(why)
        self.table = lambda hour: iter(
            self._scaled(hour, _with_zeros(self._spilled or "", _rows_in(self._files[hour])))
        )
        return own


def _rows_in(path: str | None) -> Iterator[bytes]:
    """The rows of a file below its header; none where there is no file."""
    if path:
        with open(path, "rb") as file:
            next(file)
            yield from file


def _with_zeros(path: str, rows: Iterator[bytes]) -> Iterator[bytes]:
    """All rows of a file, whose counts are 0, with the counts of some of them. These come in the same order."""
    row = next(rows, b"")
    found: list[bytes] = []
    with open(path, "rb") as file:
        for line in file:
            if row and line.endswith(ZERO) and row.startswith(line[: 1 - len(ZERO)]):
                line, row = row, next(rows, b"")
            found.append(line)
            if len(found) == AT_ONCE:
                yield b"".join(found)
                found = []
    yield b"".join(found)


def _without_zeros(pieces: Iterable[bytes]) -> Iterator[bytes]:
    """The rows whose count isn't 0."""
    for piece in pieces:
        yield b"".join(row for row in io.BytesIO(piece) if not row.endswith(ZERO))


def folders_of(into: str | None, cycle: Cycle | None) -> list[str]:
    """The folders of the hours of a cycle. Refuses what can't be written there, before logs are read."""
    if not cycle:
        return []
    if not into:
        raise click.UsageError(f"--by {cycle.word} writes a table of each hour into a folder: give --into DIR")
    folders = [path_in(into, name) for name in cycle.names]
    for folder in folders:
        if os.path.islink(folder) or os.path.lexists(folder) and not os.path.isdir(folder):
            kind = "a link" if os.path.islink(folder) else "no folder"
            raise Missing(f"{folder}: it is {kind}, and the table of an hour goes there; take it away")
        uncounted(folder)
    return folders


def tables_in(folders: Sequence[str]) -> list[str]:
    return [path_in(folder, NAMES["demand"]) for folder in folders]


@contextlib.contextmanager
def in_folders(folders: Sequence[str]) -> Iterator[None]:
    """Makes the folders that aren't there, and takes them away again where what follows fails."""
    made: list[str] = []
    try:
        for folder in folders:
            with uncut(), contextlib.suppress(FileExistsError):
                os.mkdir(folder)
                made.append(folder)
        yield
    except BaseException:
        for folder in made:
            with contextlib.suppress(OSError):
                os.rmdir(folder)
        raise


def write_hours(tally: HourTally, folders: Sequence[str], files: Outputs) -> None:
    """Writes the demand of each hour, and the hsp.toml of its folder where that tells of another one."""
    for hour, (folder, path) in enumerate(zip(folders, tables_in(folders))):
        file = files.open(path, os.path.dirname(folder) or ".")
        for piece in tally.table(hour):
            file.write(piece)
        for titles, octets in uncounted(folder).items():
            files.open(titles, os.path.dirname(folder) or ".").write(octets)
