"""How far the reading of logs is, on a terminal: lines, how many a second, the part that is read, and when it ends."""

import os
import stat
import time
from collections.abc import Sequence

from hsp.base.text import show_progress

# So many seconds stand between two lines.
PAUSE = 0.5


def octets_of(paths: Sequence[str]) -> int | None:
    """The octets of all files. Those of a pipe aren't known."""
    whole = 0
    for path in paths:
        try:
            found = os.fstat(0) if path == "-" else os.stat(path)
        except OSError:
            return None
        if not stat.S_ISREG(found.st_mode):
            return None
        whole += found.st_size
    return whole


class Gauge:
    """How much of all logs was read, by the octets of their files, packed or plain. Each is read so many times."""

    def __init__(self, paths: Sequence[str], times: int = 1) -> None:
        whole = octets_of(paths)
        self._whole = whole * times if whole else 0

    def share(self, octets: int) -> float | None:
        """The part of all octets that so many are. It isn't known of a pipe."""
        return min(1.0, octets / self._whole) if self._whole else None


class Progress:
    """Shows a line twice a second."""

    def __init__(self, gauge: Gauge) -> None:
        self._gauge = gauge
        self._begun, self._last = time.monotonic(), 0.0

    def show(self, path: str, lines: int, octets: int) -> None:
        """Shows how many lines and octets of all logs were read, and of which log the last ones."""
        now = time.monotonic()
        if now - self._last <= PAUSE:
            return
        self._last = now
        spent = max(now - self._begun, 0.001)
        show_progress(f"{path}: {lines:,} lines, {lines / spent:,.0f} a second{self._rest(spent, octets)}")

    def _rest(self, spent: float, octets: int) -> str:
        """The part that was read, and when all will be."""
        share = self._gauge.share(octets)
        if not share:
            return ""
        end = time.localtime(time.time() + spent * (1 - share) / share)
        return f", {share:.0%}, until {time.strftime('%H:%M:%S', end)}"
