"""hsp demand by the times of lines, against sums made here; rare prefixes; files that are given twice."""

import csv
import datetime
import io
import json
import random
from collections import Counter
from collections.abc import Callable
from pathlib import Path
from typing import NamedTuple

import pytest

from hsp.intake.prefixes import MOST_PREFIXES, Prefixes

from conftest import Hsp
from test_demand import counts_of
from test_sites import invoke

BEGIN = datetime.datetime(2026, 11, 26, 0, 0, tzinfo=datetime.UTC)
ZONES = [datetime.timezone(datetime.timedelta(minutes=it)) for it in (0, 60, -480, 330)]
CLIENTS = {"10.1.0.1": "eu", "10.2.0.1": "us"}


class Asked(NamedTuple):
    """A query at a time, which its line has with an offset of its own."""

    time: datetime.datetime
    client: str
    handle: str


def asked(number: int, seed: int) -> list[Asked]:
    """Queries of two days, with most of them about noon."""
    draw = random.Random(seed)
    found = []
    for _ in range(number):
        hours = draw.choice((draw.uniform(0, 48), draw.gauss(12, 2), draw.gauss(36, 3)))
        time = BEGIN + datetime.timedelta(seconds=int(3600 * max(0.0, hours)))
        handle = f"20.500.1/item-{draw.randrange(40)}"
        found.append(Asked(time.astimezone(draw.choice(ZONES)), draw.choice(list(CLIENTS)), handle))
    return found


def row(*fields: str) -> str:
    out = io.StringIO()
    csv.writer(out, lineterminator="").writerow(fields)
    return out.getvalue()


# A line of each form, the line before the first one where there is one, and the options that it needs.
LINES: dict[str, Callable[[Asked], str]] = {
    "server": lambda it: f'{it.client} UDP:HDL "{it.time:%Y-%m-%d %H:%M:%S.123%z}" 1 1 3ms {it.handle}',
    "proxy": lambda it: f'{it.client} - - [{it.time:%d/%b/%Y:%H:%M:%S %z}] "GET /{it.handle} HTTP/1.1" 302 - "-" "[x]"',
    "json": lambda it: json.dumps({"client": it.client, "handle": it.handle, "at": it.time.isoformat()}),
    "json of seconds": lambda it: json.dumps({"client": it.client, "handle": it.handle, "time": it.time.timestamp()}),
    "csv": lambda it: row(f"{it.time:%Y-%m-%dT%H:%M:%S%z}", it.client, it.handle),
    "csv of thousandths": lambda it: row(it.client, it.handle, str(int(it.time.timestamp() * 1000))),
    "regex": lambda it: f"<{it.time:%d/%b/%Y:%H:%M:%S %z}> {it.client} asks {it.handle}",
}
HEADS = {"csv": ["when,client,handle"], "csv of thousandths": ["client,handle,time"]}
OPTIONS = {"json": ["--time", "at"], "csv": ["--time", "when"]}
OPTIONS["regex"] = ["--regex", r"^<(?P<time>[^>]+)> (?P<client>\S+) asks (?P<handle>\S+)$"]


def written(tmp_path: Path, name: str, rows: list[Asked]) -> list[str]:
    lines = [*HEADS.get(name, []), *map(LINES[name], rows)]
    (tmp_path / "log").write_text("\n".join(lines) + "\n")
    (tmp_path / "networks.csv").write_text("network,region\n10.1.0.0/16,eu\n10.2.0.0/16,us\n")
    return ["demand", str(tmp_path / "log"), "--regions", str(tmp_path / "networks.csv"), *OPTIONS.get(name, [])]


def wanted(rows: list[Asked], first: datetime.datetime, last: datetime.datetime) -> dict[tuple[str, str], int]:
    return dict(Counter((CLIENTS[it.client], it.handle) for it in rows if first <= it.time < last))


@pytest.mark.parametrize("name", LINES)
def test_a_span_of_time_in_each_form(tmp_path: Path, name: str) -> None:
    """The offset of each line counts, and that of the options."""
    rows = asked(4000, 1)
    words = written(tmp_path, name, rows)
    first, last = BEGIN + datetime.timedelta(hours=9, minutes=30), BEGIN + datetime.timedelta(hours=13)
    found = invoke(*words, "--from", "2026-11-26T10:30+01:00", "--to", "2026-11-26T13:00")
    own = wanted(rows, first, last)
    assert counts_of(found.stdout) == own and 0 < sum(own.values()) < 4000
    assert f"{4000 - sum(own.values()):,}  another time than the wanted one; first {tmp_path}/log:" in found.stderr
    later = invoke(*words, "--from", "2026-11-26 13:00Z")
    assert counts_of(later.stdout) == wanted(rows, last, BEGIN + datetime.timedelta(days=9))


@pytest.mark.parametrize("name", LINES)
def test_the_busiest_hour_in_each_form(tmp_path: Path, name: str) -> None:
    rows = asked(4000, 2)
    words = written(tmp_path, name, rows)
    zone = datetime.UTC if "of" in name.split() else rows[0].time.tzinfo  # numbers of seconds have no zone
    hours = Counter(it.time.astimezone(zone).replace(minute=0, second=0) for it in rows)
    first = min(hours, key=lambda it: (-hours[it], it))
    last = first + datetime.timedelta(hours=1)
    found = invoke(*words, "--busiest-hour")
    assert counts_of(found.stdout) == wanted(rows, first, last)
    own = f"{zone}".removeprefix("UTC") or "UTC"
    shown = f"busiest hour {first:%Y-%m-%d %H:%M} to {last:%Y-%m-%d %H:%M} {own}: {hours[first]} of 4,000 queries"
    assert found.stderr.splitlines()[0] == shown


def test_fleet_counts_the_same_span(hsp: Hsp, tmp_path: Path) -> None:
    words = written(tmp_path, "proxy", asked(4000, 5))
    span = ["--from", "2026-11-26T09:00", "--to", "2026-11-26T12:00"]
    one = invoke(*words, *span).stdout
    assert counts_of(hsp("fleet", *words, *span, "--workers", "1").stdout) == counts_of(one)


def test_any_number_of_prefixes_is_counted_within_bounds() -> None:
    """What is rarest is left out, and the common ones keep their counts."""
    found = Prefixes()
    found.add({(b"eu", b"20.1/a"): 10**6, (b"eu", b"static/a"): 5000})
    found.add({(b"eu", b"%d/a" % at): 1 for at in range(3 * MOST_PREFIXES)})
    lines = found.lines()
    assert lines[0].endswith("give --prefix 20.1") and lines[1] == "  5,000 queries of static, as static/a"
    assert len(found._counts) <= MOST_PREFIXES
