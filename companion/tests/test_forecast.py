"""What the hours of weeks usually ask for, and how well the last week would have been planned by those before it."""

import csv
import datetime
import random
import re
import shutil
from collections import Counter
from fractions import Fraction
from pathlib import Path

import pytest

from hsp.intake.usual import of_many

from conftest import TOP, Hsp

CLIENTS = {"192.0.2.1": "eu", "198.51.100.7": "us", "203.0.113.7": "asia"}
BEGIN = datetime.datetime(2026, 11, 2, tzinfo=datetime.timezone(datetime.timedelta(hours=1)))  # a Monday
Asked = Counter[tuple[int, str, str]]


def weeks(path: Path, days: int, seed: int = 1, rate: int = 9) -> Asked:
    """Writes a log of so many days, and returns how often each hour is asked for each handle by each region."""
    draw = random.Random(seed)
    asked: Asked = Counter()
    lines = []
    for hour in range(24 * days):
        for at, (client, region) in enumerate(CLIENTS.items()):
            busy = rate if (hour + 8 * at) % 24 > 12 else rate // 3
            for _ in range(draw.randrange(busy) + (hour % 168 == 9) * rate):
                handle = f"20.500.1234/item-{min(11, int(draw.paretovariate(1)))}"
                moment = BEGIN + datetime.timedelta(hours=hour, seconds=draw.randrange(3600))
                lines.append(f'{client} - - [{moment:%d/%b/%Y:%H:%M:%S %z}] "GET /{handle} HTTP/1.1" 302 -\n')
                asked[hour, region, handle] += 1
    path.write_text("".join(lines) + "junk\n")
    return asked


@pytest.fixture
def service(tmp_path: Path) -> Path:
    """A service whose demand comes of logs."""
    folder = tmp_path / "service"
    folder.mkdir()
    for name in ("settings.toml", "costs.csv", "demand.csv"):
        shutil.copy(TOP / "examples" / "two-sites" / name, folder)
    rooms = "".join(f"paris,{at},30\n" for at in (1, 2)) + "".join(f"reston,{at},30\n" for at in (1, 2, 3))
    (folder / "capacity.csv").write_text(f"site,server_id,capacity\n{rooms}")
    shutil.copy(TOP / "examples" / "bring-in" / "networks.csv", tmp_path)
    return folder


def sums(path: Path) -> Counter[str]:
    found: Counter[str] = Counter()
    with open(path, newline="") as file:
        for row in csv.DictReader(file):
            found[row["region"]] += int(row["count"])
    return found


@pytest.mark.parametrize("words, part", [(["--percentile", "60"], Fraction(3, 5)), (["--mean"], None)])
@pytest.mark.parametrize("word, size", [("hour", 24), ("weekday-hour", 168)])
def test_each_hour_asks_for_what_its_turns_stay_below(
    words: list[str], part: Fraction | None, word: str, size: int, service: Path, hsp: Hsp
) -> None:
    log = service.parent / "access.log"
    asked = weeks(log, 28)
    regions = str(service.parent / "networks.csv")
    said = hsp("demand", str(log), "--regions", regions, "--into", str(service), "--by", word, *words).stdout
    names = sorted(path.parent.name for path in service.glob("*h*/demand.csv"))
    assert len(names) == size and ("4 weeks of each hour" if size > 24 else "28 days of each hour") in said
    days = ["mon", "tue", "wed", "thu", "fri", "sat", "sun"]
    by_region: Counter[tuple[int, str]] = Counter()
    for (hour, region, _), count in asked.items():
        by_region[hour, region] += count
    for place in range(size):
        name = f"h{place:02}" if size == 24 else f"{days[place // 24]}-h{place % 24:02}"
        found = sums(service / name / "demand.csv")
        for region in CLIENTS.values():
            turns = [by_region[hour, region] for hour in range(place, 24 * 28, size)]
            assert found[region] == of_many(turns, part), (name, region)
    busiest = re.search(r"busiest hour (\S+) \+01:00: (\d+) queries", said)
    assert busiest and sum(sums(service / busiest[1] / "demand.csv").values()) == int(busiest[2])
    assert sums(service / "demand.csv") == sums(service / busiest[1] / "demand.csv")


def test_rows_share_what_their_region_asks_for(service: Path, hsp: Hsp) -> None:
    log = service.parent / "access.log"
    asked = weeks(log, 14)
    words = ["--regions", str(service.parent / "networks.csv"), "--into", str(service), "--by", "hour"]
    hsp("demand", str(log), *words, "--percentile", "100")
    with open(service / "h18" / "demand.csv", newline="") as file:
        found = {(row["region"], row["handle"]): int(row["count"]) for row in csv.DictReader(file)}
    for region in CLIENTS.values():
        all_of = {handle: 0 for (own, handle) in found if own == region}
        for (hour, own, handle), count in asked.items():
            all_of[handle] = all_of.get(handle, 0) + (count if own == region and hour % 24 == 18 else 0)
        whole, wanted = sum(all_of.values()), sum(
            found[region, handle] for handle in all_of if (region, handle) in found
        )
        for handle, count in all_of.items():
            if (region, handle) in found:
                assert abs(found[region, handle] - count * wanted / whole) < 1


def test_a_forecast_follows_the_plans_of_the_weeks_before(service: Path, hsp: Hsp) -> None:
    log = service.parent / "access.log"
    weeks(log, 21)
    said = hsp("forecast", str(service), str(log), "--regions", str(service.parent / "networks.csv")).stdout
    assert "\nlast  2026-11-16 00:00 to 2026-11-23 00:00 +01:00: " in said and "planned by 14 days before\n" in said
    form = r"  (50%|75%|90%|95%|100%|mean|as it came) +(paris|reston) \d +(\d+)% +([\d,]+) \(.*\) +([\d.]+)  (\d+)"
    rows = {match[1]: match for match in re.finditer(form, said)}
    assert list(rows) == ["50%", "75%", "90%", "95%", "100%", "mean", "as it came"]
    came = rows["as it came"]
    assert int(came[3]) <= 100 and came[4] == "0" and came[6] == "0"  # a plan of what came keeps to capacity
    assert all(int(row[3]) >= int(came[3]) for row in rows.values())
    assert re.search(r"check yes to each of [\d,]+ plans and shortages\n$", said)


def test_days_that_are_alike_are_foreseen_as_they_come(service: Path, hsp: Hsp) -> None:
    log = service.parent / "access.log"
    weeks(log, 1)
    first = log.read_text().splitlines(keepends=True)[:-1]
    log.write_text("".join(first + [line.replace("[02/", "[03/") for line in first]))
    words = [str(service), str(log), "--regions", str(service.parent / "networks.csv"), "--by", "hour"]
    rows = re.findall(r"^  (?:\d+%|mean|as it came)  +(.*)$", hsp("forecast", *words).stdout, re.M)
    assert len(rows) == 7 and len({" ".join(row.split()) for row in rows}) == 1


def test_what_cannot_be_foreseen_is_refused(service: Path, hsp: Hsp) -> None:
    log, regions = service.parent / "access.log", str(service.parent / "networks.csv")
    weeks(log, 8)
    words = ["--regions", regions]
    done = hsp("forecast", str(service), str(log), *words, status=1)
    assert "the logs are of 8 days, and two whole weeks are needed; with --by hour" in done.stderr
    assert (
        done.stderr.splitlines()[:-1] == [it for it in done.stderr.splitlines() if "warning" in it] and not done.stdout
    )
    for more in (["--busiest-hour"], ["--by", "hour", "--regions", "absent"]):
        hsp("forecast", str(service), str(log), *words, *more, status=2 if more[0] == "--busiest-hour" else 5)
    into = ["--into", str(service)]
    for more in (
        ["--percentile", "90"],
        ["--mean"],
        ["--by", "hour", "--mean", "--percentile", "9"],
        ["--by", "hour", "--percentile", "0"],
    ):
        hsp("demand", str(log), *words, *into, *more, status=2)
    (service / "costs.csv").write_text("region,site,cost\neu,paris,1\n")
    (service / "demand.csv").write_text("region,handle,count\neu,20.1/a,1\n")
    done = hsp("forecast", str(service), str(log), *words, "--by", "hour", status=1)
    assert "no cost of asia and us, so no plan has them" in done.stderr
    for octets in (
        b"",
        b"\0" * 999,
        b"x" * 10_000_000,
        b'192.0.2.1 - - [99/Nov/2026:09:00:00 +0000] "GET /20.1/a HTTP/1.1" 302 -\n',
    ):
        log.write_bytes(octets)
        done = hsp("forecast", str(service), str(log), *words, status=1)
        assert done.stderr.count("\n") <= 2 and "Traceback" not in done.stderr
