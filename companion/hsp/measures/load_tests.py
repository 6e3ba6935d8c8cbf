"""What load tests report: how many answers a second there were, and how many of them came within a time."""

import math
import re
from typing import Any, NamedTuple

from hsp.base.unfit import Unfit
from hsp.measures.timed import UNITS, Found, Timed, times_of

MILLISECONDS = {**UNITS, "m": 60_000.0, "h": 3_600_000.0}
TIME = r"[0-9]{1,9}(?:[.,][0-9]{1,9})?(?:us|ms|s|m|h)"
RATE = r"([0-9]{1,20}(?:\.[0-9]{1,9})?)"
# What a report of each tool has: its mark, the times, the answers a second, and how many were asked for.
REPORTS = {
    "wrk": (
        r"^Requests/sec:|^Running ",
        rf"^ +Latency +(?P<mean>{TIME}) +(?P<deviation>{TIME}) +(?P<most>{TIME}) ",
        rf"^Requests/sec: +{RATE}",
        r"^ +([0-9]{1,15}) requests in ",
    ),
    "h2load": (
        "^time for request:",
        rf"^time for request: +{TIME} +(?P<most>{TIME}) +(?P<mean>{TIME}) +(?P<deviation>{TIME}) ",
        rf"^finished in [^,]+, {RATE} req/s",
        r"^requests: ([0-9]{1,15}) total, .* ([0-9]{1,15}) succeeded, ",
    ),
}
# What failed, by wrk, and the parts of a hundred.
FAILED = re.compile(r"(?:Non-2xx or 3xx responses:| connect| read| write| timeout) ([0-9]{1,15})")
PARTS = re.compile(rf"(?m)^ +([0-9]{{1,3}}(?:\.[0-9]+)?)% +({TIME})\s*$")
# The parts that vegeta's report has.
VEGETA_PARTS = {"50th": 0.5, "90th": 0.9, "95th": 0.95, "99th": 0.99, "max": 1.0}
# A line of the log that h2load keeps: when, the status, and how long in microseconds.
H2LOAD_LOG = re.compile(rb"([0-9]{16})\t(-?[0-9]{1,3})\t([0-9]{1,12})")


class LoadTest(NamedTuple):
    """Good answers a second, the part of all that were good, and by which time each part of them came.

    Where a mean and a deviation are known, they bound other parts.
    """

    rate: float
    good: float
    parts: tuple[tuple[float, float], ...]
    mean: float = math.inf
    deviation: float = 0.0

    def within(self, time: float) -> float:
        """At least this part of all answers was good and came within a time."""
        known = max((part for part, most in self.parts if most <= time), default=0.0)
        left = time - self.mean
        bound = left**2 / (left**2 + self.deviation**2) if left > 0 else 0.0
        return self.good * max(known, bound)


def _time(text: str) -> float:
    unit = text.lstrip("0123456789.,")
    return float(text.removesuffix(unit).replace(",", ".")) * MILLISECONDS[unit]


def of_report(path: str, octets: bytes) -> LoadTest | None:
    """What wrk or h2load printed; none where the octets are something else."""
    text = octets.decode("utf-8", "replace")
    tool = next((name for name, (mark, *_) in REPORTS.items() if re.search(mark, text, re.MULTILINE)), "")
    if not tool:
        return None
    times, rate, asked = (re.search(form, text, re.MULTILINE) for form in REPORTS[tool][1:])
    if not times or not rate or not asked:
        raise Unfit(f"{path}: a report of {tool} that isn't whole, or of no answer")
    number = int(asked[1])
    failed = number - int(asked[2]) if asked.lastindex == 2 else sum(map(int, FAILED.findall(text)))
    good = max(0.0, 1 - failed / number) if number else 0.0
    most, mean, deviation = (_time(times[name]) for name in ("most", "mean", "deviation"))
    parts = [(float(part) / 100, _time(own)) for part, own in PARTS.findall(text)]
    return LoadTest(float(rate[1]) * good, good, (*parts, (1.0, most)), mean, deviation)


def of_vegeta(path: str, said: Any) -> LoadTest:
    """What `vegeta report -type=json` prints. Its times are in nanoseconds."""
    try:
        parts = tuple((part, float(said["latencies"][name]) / 1e6) for name, part in VEGETA_PARTS.items())
        found = LoadTest(float(said["throughput"]), float(said["success"]), parts)
    except (KeyError, TypeError, ValueError, OverflowError):
        raise Unfit(f"{path}: a report of vegeta without latencies, throughput or success") from None
    if not 0 <= found.rate < math.inf or not 0 <= found.good <= 1:
        raise Unfit(f"{path}: a report of vegeta with numbers that none can be")
    return found


def is_h2load(line: bytes) -> bool:
    return bool(H2LOAD_LOG.fullmatch(line))


def of_h2load_log(line: bytes) -> Found:
    """The request of a line that h2load kept, at the second of its answer."""
    match = H2LOAD_LOG.fullmatch(line)
    if not match:
        return ["not a line of h2load"]
    if not 200 <= int(match[2]) < 400:
        return ["a request that failed"]
    second = (int(match[1]) + int(match[3])) // 1_000_000
    return times_of([match[3].decode()], Timed(second=second), UNITS["us"])
