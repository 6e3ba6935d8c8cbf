"""Times of log lines, in seconds since 1970. The offset of a line counts; a time without one is UTC."""

import datetime
import functools
import math
import re
from dataclasses import dataclass
from typing import NamedTuple

HOUR = 3600
# A time from the year 3058 on is none of a log, nor is one before 1970.
TOO_LATE = 1 << 35
# Earlier and later than any time of a log.
FIRST, LAST = -(1 << 60), 1 << 60
MONTHS = ("Jan", "Feb", "Mar", "Apr", "May", "Jun", "Jul", "Aug", "Sep", "Oct", "Nov", "Dec")
# The time of an HTTP server's log, as `26/Nov/2026:09:00:00 +0000`.
OF_SERVERS = re.compile(r"(\d\d)/([A-Z][a-z]{2})/(\d{4}):(\d\d:\d\d:\d\d)(?:\.\d+)?(?: ?([+-]\d{4}))?", re.ASCII)
SECONDS = re.compile(r"\d{9,10}(?:\.\d+)?", re.ASCII)
THOUSANDTHS = re.compile(r"\d{12,13}", re.ASCII)


class Time(NamedTuple):
    """A moment in seconds since 1970, and by how many seconds the clock that says it is before UTC."""

    seconds: int
    offset: int = 0


def _iso(text: str) -> Time:
    """The time of a text as `2026-11-26 10:00:00.123+0100`."""
    found = datetime.datetime.fromisoformat(text)
    own = found if found.tzinfo else found.replace(tzinfo=datetime.UTC)
    return Time(math.floor(own.timestamp()), math.floor((own.utcoffset() or datetime.timedelta()).total_seconds()))


def iso_seconds(text: str) -> int:
    """The seconds of a time as `2026-11-26 10:00:00.123+0100`."""
    return _iso(text).seconds


def _of_iso(text: str) -> Time | None:
    try:
        time = _iso(text)
    except (ValueError, OverflowError):
        return None
    return time if 0 <= time.seconds < TOO_LATE else None


@functools.lru_cache(maxsize=1 << 12)
def time_of(octets: bytes) -> Time | None:
    """The time of a text in ISO 8601, as HTTP servers write it, or in seconds or thousandths. None of another."""
    text = octets.decode("ascii", "replace").strip()
    if SECONDS.fullmatch(text):
        return Time(int(float(text)))
    if THOUSANDTHS.fullmatch(text):
        return Time(int(text) // 1000)
    match = OF_SERVERS.fullmatch(text)
    if not match:
        return _of_iso(text)
    day, month, year, clock, offset = match.groups()
    number = MONTHS.index(month) + 1 if month in MONTHS else 0
    return _of_iso(f"{year}-{number:02}-{day}T{clock}{offset or ''}")


def seconds_of(octets: bytes) -> int | None:
    """The seconds of a time, as `time_of` has them."""
    time = time_of(octets)
    return time.seconds if time else None


def shown_time(seconds: int, offset: int = 0) -> str:
    """A moment as a clock shows it that is so many seconds before UTC."""
    zone = datetime.timezone(datetime.timedelta(seconds=offset))
    return f"{datetime.datetime.fromtimestamp(seconds, zone):%Y-%m-%d %H:%M}"


def shown_zone(offset: int) -> str:
    """The zone of such a clock: `UTC`, `+01:00`."""
    return f"{datetime.timezone(datetime.timedelta(seconds=offset))}".removeprefix("UTC") or "UTC"


@dataclass(frozen=True)
class Span:
    """The times from the first on, and before the last."""

    first: int = FIRST
    last: int = LAST

    @property
    def is_all(self) -> bool:
        return self == Span()

    def has(self, seconds: int) -> bool:
        return self.first <= seconds < self.last
