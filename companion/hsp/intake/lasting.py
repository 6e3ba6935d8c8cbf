"""How long the time is that logs are of, and by which clocks; and logs that begin as another one does."""

import os
from collections.abc import Mapping, Sequence
from typing import NamedTuple

from hsp.base.numbers import duration, listed
from hsp.intake.logs import DAMAGE, opened
from hsp.intake.times import HOUR, Span, Time, shown_time, shown_zone

MINUTE = 60
# A longer time is one of whole minutes: between two lines of a log some seconds may pass.
ROUNDED = 10 * MINUTE
# So many first octets of logs are compared.
HEAD = 1 << 12


class Lasting(NamedTuple):
    """The time that counts are of: when it begins and ends, and the zone of its clock in seconds before UTC."""

    first: int
    last: int
    zone: int

    @property
    def seconds(self) -> int:
        """How long it is."""
        whole = self.last - self.first
        return whole if whole <= ROUNDED else -(-whole // MINUTE) * MINUTE

    def line(self) -> str:
        first, last = (shown_time(own, self.zone) for own in (self.first, self.first + self.seconds))
        long = duration(self.seconds)
        return f"time  {first} to {last} {shown_zone(self.zone)}: a count is of the queries in {long}"


def lasting(times: Mapping[str, Sequence[Time]], span: Span) -> Lasting | None:
    """The time from the first to the last line of all logs that is within a span; none where lines have no times, or
    all the same one."""
    own = [time for of_log in times.values() for time in of_log]
    if not own:
        return None
    first, last = max(min(own).seconds, span.first), min(max(own).seconds, span.last)
    return Lasting(first, last, min(own).offset) if first < last else None


def clock_lines(times: Mapping[str, Sequence[Time]]) -> list[str]:
    """Names logs by other clocks."""
    zones: dict[int, list[str]] = {}
    for path, own in times.items():
        for offset in dict.fromkeys(time.offset for time in own):
            zones.setdefault(offset, []).append(path)
    if len(zones) < 2:
        return []
    each = [f"{shown_zone(offset)} in {listed(paths)}" for offset, paths in sorted(zones.items())]
    return [f"clocks differ: {listed(each)}; the offset of each line counts"]


def short_line(minutes: Sequence[int], hour: int, zone: int) -> tuple[str, int]:
    """Says that logs have only a part of an hour, and how many seconds these are; an empty text where they have all.

    Minutes are those with a query, by their numbers since 1970 on the clock of a zone.
    """
    begin = hour * HOUR // MINUTE
    first, last = max(min(minutes), begin), min(max(minutes) + 1, begin + HOUR // MINUTE)
    seconds = (last - first) * MINUTE
    if seconds == HOUR:
        return "", HOUR
    words = [shown_time(minute * MINUTE - zone, zone)[11:] for minute in (first, last)]
    return (
        f"only {words[0]} to {words[1]} of it is in the logs: a count is of {duration(seconds)}, and no hour",
        seconds,
    )


def twice_lines(paths: Sequence[str]) -> list[str]:
    """Names logs that are given twice, by one path or by two, and those that begin as another one does, unpacked."""
    seen: dict[tuple[int, int] | bytes, str] = {}
    lines = []
    for path in filter(os.path.isfile, paths):
        found, head = os.stat(path), _head(path)
        file = found.st_dev, found.st_ino
        if file in seen:
            what = f"{path} is given twice" if seen[file] == path else f"{seen[file]} and {path} are one file"
            lines.append(f"{what}: its queries count twice")
        elif head and head in seen:
            lines.append(f"{path} begins as {seen[head]} does: where it is the same log, its queries count twice")
        seen = {file: path, head: path, **seen}
    return lines


def _head(path: str) -> bytes:
    """The first octets of a log; nothing of one that can't be read: that is said when it is counted."""
    try:
        with opened(path) as file:
            return file.read(HEAD)
    except (OSError, *DAMAGE):
        return b""
