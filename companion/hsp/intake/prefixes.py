"""The prefixes of the handles of a log. A path of a proxy that is no handle, as `static/css`, has a rare one."""

from collections import Counter
from collections.abc import Mapping

from hsp.base.numbers import some
from hsp.base.paths import shell_word

# A prefix with a smaller share of the queries is rare, and so many are named.
RARE, MOST_NAMED = 0.01, 5
# So many prefixes are counted; then the rarer half is left out.
MOST_PREFIXES = 1 << 16
# So many octets of a handle are held and shown.
MOST_SHOWN = 256


class Prefixes:
    """How many queries each prefix has, and a handle that has it."""

    def __init__(self) -> None:
        self._counts: Counter[bytes] = Counter()
        self._first: dict[bytes, bytes] = {}

    def add(self, counts: Mapping[tuple[bytes, bytes], int]) -> None:
        """Adds the counts of pairs of region and handle."""
        for (_, handle), count in counts.items():
            prefix = handle.partition(b"/")[0][:MOST_SHOWN]
            self._counts[prefix] += count
            self._first.setdefault(prefix, handle[:MOST_SHOWN])
            if len(self._counts) > MOST_PREFIXES:
                self._counts = Counter(dict(self._counts.most_common(MOST_PREFIXES // 2)))
                self._first = {own: self._first[own] for own in self._counts}

    def lines(self) -> list[str]:
        """The rare prefixes where others aren't rare, and how only the wanted ones are counted."""
        least = RARE * self._counts.total()
        common = [own for own, count in self._counts.most_common() if count >= least]
        rare = [(own, count) for own, count in self._counts.most_common() if count < least]
        if not common or not rare:
            return []
        options = [f"--prefix {shell_word(own.decode('utf-8', 'replace'))}" for own in common]
        remedy = " ".join(options) if len(options) <= 3 else f"--prefix for each of yours, as {options[0]}"
        words = "a prefix has" if len(rare) == 1 else f"{len(rare):,} prefixes have each"
        lines = [f"{words} less than 1% of the queries; where these are no handles of yours, give {remedy}"]
        for prefix, count in rare[:MOST_NAMED]:
            handle = self._first[prefix].decode("utf-8", "replace")
            lines.append(f"  {some(count, 'query', 'queries')} of {prefix.decode('utf-8', 'replace')}, as {handle}")
        return lines
