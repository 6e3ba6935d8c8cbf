"""Queries are counted by region and handle, and become a demand: a table, or a log where no table holds it."""

import csv
import itertools
import re
from collections import Counter
from collections.abc import Callable, Iterable, Iterator, Mapping
from dataclasses import dataclass

from hsp.base.bounds import MOST_HELD, Query, pieces, weight
from hsp.base.grammar import GREATEST_COUNT, HEADERS, MOST_DEMAND_ROWS, MOST_LOG_REGIONS, MOST_REGIONS, NAME_RULE
from hsp.base.programs import Programs, Refused
from hsp.base.unfit import Unfit
from hsp.intake.prefixes import Prefixes
from hsp.intake.queries import field_of
from hsp.plans.service import table

HEADER = f"{HEADERS['demand']}\n".encode()
REMEDIES = {"BadName": NAME_RULE, "TooManyRegions": f"join networks to at most {MOST_LOG_REGIONS:,} regions"}
# So many pairs are counted in memory, before they are put into a file.
MOST_PAIRS = 1 << 20
# So many octets of a log are written at once.
BLOCK = 1 << 20
MANY_ROWS = f"it has more than {MOST_DEMAND_ROWS:,} rows"
MANY_REGIONS = f"it has more than {MOST_REGIONS} regions"
LARGE_ROW = f"a row has more than {GREATEST_COUNT:,} queries"


def rows_of(counts: Iterable[tuple[Query, int]]) -> Iterator[bytes]:
    for (region, handle), count in counts:
        yield b"%b,%b,%d\n" % (field_of(region), field_of(handle), count)


def most_first(counts: Counter[Query]) -> list[tuple[Query, int]]:
    """Those with the most queries first, so that the same counts have the same table."""
    return sorted(counts.items(), key=lambda pair: (-pair[1], pair[0]))


@dataclass(frozen=True)
class Demand:
    """A demand that is to be written: how many rows it has, and its octets in pieces.

    Where no table holds its rows, it is a log, and it is said why.
    """

    rows: int
    pieces: Callable[[], Iterator[bytes]]
    why_log: str = ""


class Tally:
    """How often each region asks for each handle."""

    def __init__(self, programs: Programs, most: int = MOST_PAIRS) -> None:
        self._programs, self._most = programs, most
        self._counts: Counter[Query] = Counter()
        self._octets = 0
        self._spilled: str | None = None
        # How many rows the file has in which counts were put.
        self._rows = 0
        self.asked = 0
        self.regions: set[bytes] = set()
        # How many handles there are, where all were in memory at once.
        self.handles: int | None = None
        self.prefixes = Prefixes()

    def add(self, queries: Iterable[Query]) -> Iterator[list[Query]]:
        """Counts queries, and passes them on in pieces."""
        for chunk in pieces(queries):
            self.count(Counter(chunk))
            yield chunk

    def count(self, counts: Mapping[Query, int]) -> None:
        """Counts queries that were counted in a part of the logs, in the order in which pairs first come."""
        own, before = self._counts, len(self._counts)
        for pair, number in counts.items():
            own[pair] = own.get(pair, 0) + number
        self._octets += weight(itertools.islice(reversed(own), len(own) - before))
        self.asked += sum(counts.values())
        if self._is_full:
            self._spill()

    @property
    def _is_full(self) -> bool:
        return len(self._counts) > self._most or self._octets > MOST_HELD

    def _spill(self) -> None:
        """Puts the counts into a file in their order. A pair that comes again has another row, and both add up."""
        self.regions.update(region for region, _ in self._counts)
        self.prefixes.add(self._counts)
        self._spilled = self._put(self._spilled, self._kept())
        self._rows += len(self._counts)
        self._counts.clear()
        self._octets = 0

    def _kept(self) -> Iterable[tuple[Query, int]]:
        """The counts that are put into the file."""
        return self._counts.items()

    def _put(self, path: str | None, counts: Iterable[tuple[Query, int]]) -> str:
        """Writes counts on in a file, and returns its path."""
        file = path or self._programs.put(HEADER, ".csv")
        self._programs.add(file, rows_of(counts))
        return file

    def demand(self) -> Demand:
        """The demand: a table, or a log where no table holds it."""
        self.regions.update(region for region, _ in self._counts)
        self.handles = None if self._spilled else len({handle for _, handle in self._counts})
        if self._spilled or len(self._counts) > MOST_DEMAND_ROWS:
            return self._log(MANY_ROWS)
        if len(self.regions) > MOST_REGIONS:
            return self._log(MANY_REGIONS)
        if self._most_of_a_row() > GREATEST_COUNT:
            return self._log(LARGE_ROW)
        self.prefixes.add(self._counts)
        return self._table()

    def _most_of_a_row(self) -> int:
        return max(self._counts.values(), default=0)

    def _table(self) -> Demand:
        """The demand as a table of the pairs that are in memory."""
        text = HEADER + b"".join(rows_of(most_first(self._counts)))
        self._accepted(text)
        return Demand(len(self._counts), lambda: iter([text]))

    def _log(self, why: str) -> Demand:
        """The demand as a log of all pairs, which hsplan-stream reads once before it is written."""
        self._spill()
        path = self._spilled or ""
        fault = self._programs.fault_of_log(path)
        if fault:
            raise Unfit(f"hsplan-stream refuses this demand: {fault}{_remedy(fault)}")
        return Demand(self._rows, lambda: _blocks(path), why)

    def without_costs(self, costs: str) -> list[str]:
        """The regions that have no cost for any site by a table of costs."""
        try:
            paying = {row[0].encode() for row in table(costs)}
        except (csv.Error, UnicodeDecodeError) as error:
            raise Unfit(f"{costs}: not a table: {error}") from None
        return sorted(region.decode("utf-8", "replace") for region in self.regions - paying)

    def _accepted(self, demand: bytes) -> None:
        """Has hsplan read a table of demand before it is written."""
        try:
            self._programs.plan(self._programs.without_sites(demand))
        except Refused as fault:
            row = re.search(r"row ([0-9]+)", fault.line)
            line = demand.split(b"\n")[int(row[1]) + 1] if row else b""
            where = f" in the row {line.decode('utf-8', 'replace')!r}" if line else ""
            raise Unfit(f"hsplan refuses this demand: {fault.line}{where}{_remedy(fault.line)}") from None


def _remedy(line: str) -> str:
    """What an operator does about a fault of a demand, where it is one of these."""
    found = next((remedy for word, remedy in REMEDIES.items() if word in line), "")
    return f"; {found}" if found else ""


def _blocks(path: str) -> Iterator[bytes]:
    with open(path, "rb") as file:
        while block := file.read(BLOCK):
            yield block
