"""hsp grow: by hand for two sites, and against the planner for drawn services."""

import json
import random
import re
from fractions import Fraction
from pathlib import Path

import pytest

from hsp.base.programs import Programs
from hsp.plans.counted import times
from hsp.plans.service import Service, read_service
from hsp.scenarios.growth import STEP, Growing, Growth, grown, percent_of
from hsp.scenarios.judged import Judged

from conftest import Example, Hsp, rewrite
from scenarios import demand_of, drawn_service, service_in


def test_two_sites_by_hand(hsp: Hsp, folder: Path) -> None:
    """All servers take 7,390, and 6,282 queries are asked for: a share of 1.17637, and so short from 1.1764 on. The
    rows count 6,282 x 1.1733 rounded up one by one, and what is then asked for fits."""
    service = read_service(str(folder), Judged(), {})
    assert sum(service.capacities.values()) == 7_390 and service.asked == 6_282
    assert Fraction(7_390, 6_282) * STEP > 11_763 and Fraction(7_390, 6_282) * STEP < 11_764
    found = grown(service, Judged())[0]
    assert found.short_from == 11_764 and found.fits == 11_733
    assert sum(times(row.count, Fraction(11_734, STEP)) for row in service.rows) > 7_390
    asked = [sum(times(row.count, Fraction(at, STEP)) for row in service.rows) for at in (11_733, 11_764)]
    assert asked[0] <= 7_390 < asked[1]


def status_at(folder: Path, factor: int, region: str | None, programs: Programs) -> bool:
    """Whether hsplan has a plan where each row, or each of a region, counts so many times as much, rounded up."""
    service = read_service(str(folder), programs, {})
    grown_by = Fraction(factor, STEP)
    counts = [times(row.count, grown_by) if region in (None, row.region) else row.count for row in service.rows]
    rows = [(row.region, row.handle, count) for row, count in zip(service.rows, counts)]
    path = programs.put(demand_of(rows), ".csv")
    return programs.plan(service.inputs.but(demand=path))[0].is_plan


@pytest.mark.parametrize("seed", range(40))
def test_growth_is_what_the_planner_says(tmp_path: Path, seed: int) -> None:
    """Up to `fits` there is a plan, and from `short_from` on there is none: at both ends, and for a smaller factor and
    a greater one."""
    draw, programs = random.Random(seed), Judged()
    folder = drawn_service(draw, tmp_path, hosts=bool(seed % 2))
    service = read_service(str(folder), programs, {})
    for region in [None, *service.regions]:
        found = Growing(service, programs).growth(region)
        if found.fits is None:
            assert not status_at(folder, 0, region, programs)
            continue
        fitting = [found.fits, draw.randint(0, found.fits)]
        assert all(status_at(folder, at, region, programs) for at in fitting)
        if found.short_from is not None and found.short:
            assert found.fits < found.short_from
            later = [found.short_from, found.short_from + draw.randint(1, STEP)]
            assert not any(status_at(folder, at, region, programs) for at in later)
            assert STEP * found.short.above < found.short_from <= STEP * found.short.above + 1


def one_site(folder: Path, rows: list[tuple[str, str, int]], rooms: list[int]) -> Path:
    addresses = [f"192.0.2.{at}" for at in range(len(rooms))]
    costs = [(region, "a", 1) for region in {row[0] for row in rows}]
    return service_in(folder, {"a": addresses}, rows, costs, [("a", at, room) for at, room in enumerate(rooms, 1)])


def test_some_handles_are_full(hsp: Hsp, tmp_path: Path) -> None:
    """One of two servers is full: the handles whose hash names it are, and not the service."""
    folder = one_site(tmp_path / "one", [("x", "20.1/0", 10), ("x", "20.1/1", 10)], [15, 1000])
    service = read_service(str(folder), Programs(), {})
    here = [row.handle for row in service.rows if service.server(0, row.handle).id == 1]
    if not here:  # then both handles are at the other server
        folder = one_site(tmp_path / "two", [("x", "20.1/0", 10), ("x", "20.1/1", 10)], [1000, 15])
        here = ["20.1/0", "20.1/1"]
    printed = hsp("grow", str(folder)).stdout
    assert "the servers of some handles are full" in printed and here[0] in printed
    assert "the service as a whole" not in printed


def test_what_has_no_end_and_what_has_no_begin(hsp: Hsp, tmp_path: Path) -> None:
    """Room for all that a table can count, and a region that lacks room whatever the other asks."""
    wide = one_site(tmp_path / "wide", [("x", "20.1/0", 1000)], [1_000_000_000])
    assert hsp("grow", str(wide)).stdout.splitlines()[1] == (
        "all demand  fits until 1,000 times as much, as far as a demand can count"
    )
    short = one_site(tmp_path / "short", [("x", "20.1/0", 9), ("y", "20.1/0", 1)], [5])
    lines = hsp("grow", str(short)).stdout.splitlines()
    assert "fits until \u221255.56%; from \u221249.99% on" in lines[1]
    assert lines[3].endswith("fits until \u221255.56%; from \u221255.55% on short")
    assert lines[4].endswith("y  short whatever it asks")


def test_what_rounding_adds_is_said(hsp: Hsp, tmp_path: Path) -> None:
    """By hand: three rows of 1 ask for 6 at 10% more, and rows of 100 and 200 for 330."""
    folder = one_site(tmp_path / "few", [("x", f"20.1/{at}", 1) for at in range(3)], [5])
    line = next(it for it in hsp("grow", str(folder), "--percent", "10").stdout.splitlines() if it.startswith("buy"))
    assert line.startswith("buy   +10%  6 queries, as each row is rounded up: room for 1 query more, the least")
    assert json.loads(hsp("grow", str(folder), "--json").stdout)["purchases"][0]["queries"] == 6
    folder = one_site(tmp_path / "many", [("x", "20.1/0", 100), ("x", "20.1/1", 200)], [1000])
    assert "buy   +10%  no room; " in hsp("grow", str(folder), "--percent", "10").stdout
    assert json.loads(hsp("grow", str(folder), "--json").stdout)["purchases"][0]["queries"] == 330


def test_nothing_asked_is_refused(hsp: Hsp, tmp_path: Path) -> None:
    folder = one_site(tmp_path / "none", [("x", "20.1/0", 0)], [5])
    last = hsp("grow", str(folder), status=1).stderr.splitlines()[-1]
    assert last == f"hsp: {folder}/demand.csv: nothing is asked for"


def test_json_has_the_same(hsp: Hsp, example: Example) -> None:
    found = json.loads(hsp("grow", str(example("two-sites")), "--json", "--percent", "20").stdout)
    first = found["growth"][0]
    assert (first["region"], first["fits_until"], first["short_from"]) == (None, 1.1733, 1.1764)
    assert first["rows"] == 36 and first["capacity"] == 7_390 and len(first["servers"]) == 5
    assert [it["region"] for it in found["growth"][1:]] == ["asia", "eu", "us"]
    assert found["purchases"] == [
        {
            "percent": 20,
            "queries": 7_553,
            "lack": 163,
            "cost": 407_143,
            "least_purchase": [{"site": "reston", "server_id": 2, "more": 163}],
        }
    ]


def test_a_log_grows_as_its_table(example: Example, monkeypatch: pytest.MonkeyPatch) -> None:
    """A log is rounded up as a whole, so it fits at least as long."""
    folder, programs = example("two-sites"), Judged()
    monkeypatch.setattr("hsp.plans.counted.MOST_DEMAND_ROWS", 2)
    service = read_service(str(folder), programs, {})
    assert service.log
    found = {own.region: own for own in grown(service, programs)}
    assert 11_733 <= (found[None].fits or 0) < (found[None].short_from or 0) == 11_764
    table = {own.region: own for own in grown(as_table(folder, monkeypatch), programs)}
    for region, own in found.items():
        other: Growth = table[region]
        assert own.short_from == other.short_from and own.fits and other.fits and own.fits >= other.fits
        assert own.short and other.short and set(own.short.servers) == set(other.short.servers)


def as_table(folder: Path, monkeypatch: pytest.MonkeyPatch) -> Service:
    monkeypatch.undo()
    return read_service(str(folder), Programs(), {})


def test_more_growth_lacks_no_less() -> None:
    """Where only a short set is known, a smaller growth may have the set that lacks more."""
    from hsp.scenarios.growth import Purchase, at_least

    known = [
        Purchase(10, 11, 9, None, None),
        Purchase(20, 12, 4, None, None),
        Purchase(30, 13, 0, {}, 5),
        Purchase(50, 15, 12, None, None),
    ]
    assert [it.lack for it in at_least(known)] == [9, 9, 0, 12]


def test_percents_are_signed() -> None:
    assert [percent_of(own) for own in (11_733, 10_000, 9_999, 0)] == [
        "+17.33%",
        "+0.00%",
        "\u22120.01%",
        "\u2212100.00%",
    ]


def test_counts_near_their_greatest(hsp: Hsp, tmp_path: Path) -> None:
    """A count of 800,000 can grow by a quarter, and not by half: no table holds that."""
    folder = one_site(tmp_path / "large", [("x", "20.1/0", 800_000)], [1_000_000_000])
    lines = hsp("grow", str(folder)).stdout.splitlines()
    assert lines[1] == "all demand  fits until +25.00%, as far as a demand can count"
    assert [line[6:] for line in lines[2:5]] == [
        "+10%  no room; the cost is then 880,000",
        "+20%  no room; the cost is then 960,000",
        "+50%  more than a demand can count",
    ]


@pytest.mark.parametrize("said", [-1.0, 1e9])
def test_growth_over_a_log_says_beforehand_what_it_does(
    hsp: Hsp, folder: Path, monkeypatch: pytest.MonkeyPatch, said: float
) -> None:
    """Where that takes long: what is read once more, how many plans follow, and how long both take. Of a table nothing is
    said."""
    monkeypatch.setattr("hsp.scenarios.command.SAID", said)
    monkeypatch.setattr("hsp.scenarios.judged.SAID", said)
    assert "planned" not in hsp("grow", str(folder)).stderr and "made" not in hsp("grow", str(folder)).stderr
    rewrite(folder / "capacity.csv", r"(\d)$", r"\g<1>000")
    demand = (folder / "demand.csv").read_text()
    (folder / "demand.csv").write_text(re.sub(r",(\d+)$", r",\g<1>0000", demand, count=3, flags=re.M))
    words = ("grow", str(folder), "--percent", "10", "--percent", "20", "--percent", "10")
    lines = [line for line in hsp(*words).stderr.splitlines() if "warning" not in line]
    if said > 0:
        assert lines == []
    else:
        of = "all demand, 3 regions and 2 purchases"
        joined, planned = lines
        how = r"36 rows are joined where they have the same servers, about \d+ seconds"
        assert re.fullmatch(rf"hsp: {how}; then some 18 plans are made, of {of}", joined)
        assert re.fullmatch(r"hsp: 18 plans, about \d+ seconds on \d+ processors", planned)


def test_a_growth_above_1000_percent_is_a_factor() -> None:
    assert [percent_of(own) for own in (110_000, 110_859)] == ["+1,000.00%", "11.0859 times as much"]
