"""Numbers and lists as people read them."""

from collections.abc import Iterable
from fractions import Fraction

MINUS = "\u2212"


def signed(number: float) -> str:
    """A change with its sign: a minus as long as a plus, and none at 0."""
    return ("+" if number > 0 else MINUS if number < 0 else "") + f"{abs(number):,}"


def average(cost: int, asked: int) -> str:
    """The cost of a query."""
    each = cost / asked if asked else 0.0
    return f"{each:.1f}" if each < 1000 else f"{each:,.0f}"


def percent(part: int, whole: int) -> str:
    """A share. It is 0% or 100% only where that is exact."""
    if not whole or not part:
        return "0%"
    if part == whole:
        return "100%"
    share = 100 * part / whole
    return "<1%" if share < 1 else ">99%" if share > 99 else f"{round(share)}%"


def percent_exactly(share: Fraction) -> str:
    """A share that somebody gave in percent, with all of up to nine digits behind the point."""
    return f"{float(100 * share):.9f}".rstrip("0").rstrip(".") + "%"


def part(share: float) -> str:
    """A part in percent, as much of it as matters. It is 0% or 100% only where that is exact."""
    each = 100 * share
    if 0 < each < 0.05:
        return "<0.1%"
    if 99.5 <= each < 100:
        return f"{min(each, 99.9):.1f}%"
    return f"{each:,.0f}%" if each >= 10 else f"{each:.1f}%".replace(".0%", "%")


def some(number: int, word: str, many: str = "") -> str:
    """A number of things: `1 site`, `2 sites`."""
    return f"{number:,} {word if number == 1 else many or word + 's'}"


def queries_of(number: int) -> str:
    return some(number, "query", "queries")


# How long a time of a name is, in seconds.
PERIODS = {"day": 86_400, "hour": 3600, "minute": 60, "second": 1}


def duration(seconds: int) -> str:
    """A length of time in the two largest units that it has: `1 hour`, `2 days and 3 hours`."""
    words: list[str] = []
    left = seconds
    for name, own in PERIODS.items():
        if left >= own and len(words) < 2:
            words.append(some(left // own, name))
            left %= own
    return " and ".join(words) or "0 seconds"


def listed(words: Iterable[str], most: int = 4) -> str:
    """Words in a list, of which the last ones are only counted where there are more than `most`."""
    shown = list(words)
    if len(shown) > most:
        shown = shown[: most - 1] + [f"{len(shown) - most + 1:,} more"]
    return " and ".join(filter(None, [", ".join(shown[:-1]), *shown[-1:]]))
