"""What the parts of a count pass on: the pairs of a log with their counts, and what was passed over."""

import csv
import io
import itertools
from collections.abc import Iterable, Mapping
from dataclasses import dataclass, field

from hsp.base.bounds import MOST_HELD, Query, weight
from hsp.base.unfit import Unfit
from hsp.intake.logs import Skipped
from hsp.intake.tally import HEADER, rows_of

# So many pairs a part counts and passes on.
MOST_PAIRS = 1 << 20


@dataclass
class Table:
    """The counts of a log, in the order in which its pairs first come."""

    log: str
    counts: dict[Query, int] = field(default_factory=dict)
    octets: int = 0

    def add(self, more: Mapping[Query, int]) -> None:
        """Adds the counts of a part of the log. Refuses more pairs than are passed on."""
        counts, before = self.counts, len(self.counts)
        for pair, count in more.items():
            counts[pair] = counts.get(pair, 0) + count
        self.octets += weight(itertools.islice(reversed(counts), len(counts) - before))
        if len(counts) > MOST_PAIRS or self.octets > MOST_HELD:
            raise Unfit(
                f"{self.log}: a part passes on {MOST_PAIRS:,} pairs of region and handle at most, fewer where handles "
                "are long, and this log has more; hsp demand counts any number"
            )

    @property
    def text(self) -> str:
        return (HEADER + b"".join(rows_of(self.counts.items()))).decode()


def counts_in(text: str) -> dict[Query, int]:
    rows = itertools.islice(csv.reader(io.StringIO(text, newline="")), 1, None)
    return {(region.encode(), handle.encode()): int(count) for region, handle, count in rows}


def skipped_of(parts: Iterable[dict[str, object]]) -> Skipped:
    """What was passed over in all parts, and where the first line of each reason stands."""
    whole = Skipped()
    for part in parts:
        counts, first = part["counts"], part["first"]
        assert isinstance(counts, dict) and isinstance(first, dict)
        for reason, count in counts.items():
            whole.first.setdefault(reason, first[reason])
            whole.counts[reason] = whole.counts.get(reason, 0) + count
    return whole
