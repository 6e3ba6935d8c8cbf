"""hsp whatif, against plans of changed inputs."""

import re
import shutil
from pathlib import Path
from xml.etree import ElementTree

import pytest

from hsp.base.programs import Programs
from hsp.plans.plans import capacity_file
from hsp.plans.service import read_service

from conftest import Example, Hsp, rewrite
from services import read, rows, table_of


def cases(hsp: Hsp, *words: str) -> list[dict[str, str]]:
    return table_of(hsp("whatif", *words, "--csv").stdout)


def test_each_case_is_a_plan_of_hsplan(hsp: Hsp, example: Example) -> None:
    folder = example("two-sites")
    service, programs = read(folder)
    found = cases(hsp, str(folder))
    assert [it["case"] for it in found] == ["more", "more", "lost", "lost", "demand"]
    for it in found[:2]:
        site, _, number = it["what"].partition(" ")
        room = {**service.capacities, (site, int(number)): int(it["room"])}
        certificate, _ = programs.plan(service.inputs.but(capacity=capacity_file(programs, room)))
        assert int(it["cost"]) == certificate.cost == 307_216 + int(it["change"])
    for it in found[2:4]:
        costs = [(region, site, cost) for (region, site), cost in service.costs.items() if site != it["what"]]
        changed = service.inputs.but(costs=programs.put_table("region,site,cost", costs))
        certificate, _ = programs.plan(changed)
        assert int(it["lack"]) == certificate.demand - certificate.capacity > 0


def changes_of(hsp: Hsp, folder: Path) -> dict[str, int]:
    return {it["what"]: abs(int(it["change"])) for it in cases(hsp, str(folder)) if it["change"]}


def test_a_demand_may_grow_beyond_a_table(hsp: Hsp, folder: Path) -> None:
    """A table has counts up to 1,000,000. What is more is planned as a log is, and costs a tenth more where all ask
    their cheapest site."""
    (folder / "demand.csv").write_text("region,handle,count\neu,20.500.1234/film-5,1000000\nus,20.500.1234/a,20\n")
    rewrite(folder / "capacity.csv", r"\d+$", "9000000")
    now = 12 * 1_000_000 + 17 * 20
    last = cases(hsp, str(folder))[-1]
    assert (last["case"], int(last["cost"]), int(last["change"])) == ("demand", now * 11 // 10, now // 10)


def test_all_bars_of_a_chart_have_one_scale(hsp: Hsp, example: Example) -> None:
    """A bar is as long as its change, whichever head it stands under: 330 for the greatest."""
    folder = example("base")
    chart = folder / "chart.svg"
    hsp("whatif", str(folder), "--chart", str(chart))
    tags = list(ElementTree.parse(chart).getroot())
    bars = {
        str(text.text): float(bar.get("width", "0"))
        for text, bar in zip(tags, tags[1:])
        if bar.tag.endswith("rect") and text.tag.endswith("text")
    }
    changes = changes_of(hsp, folder)
    most = max(changes.values())
    assert len({it["case"] for it in cases(hsp, str(folder)) if it["change"]}) > 1 and set(bars) == set(changes)
    for what, change in changes.items():
        assert bars[what] == pytest.approx(max(1, 330 * change / most), abs=0.06)


def test_all_bars_of_a_terminal_have_one_scale(hsp: Hsp, example: Example) -> None:
    """A full block is a twenty-fourth of the greatest change of all cases; what is shorter ends in an eighth."""
    folder = example("base")
    changes = changes_of(hsp, folder)
    most = max(changes.values())
    for line in hsp("whatif", str(folder)).stdout.splitlines():
        what = line[2:20].strip()
        if what in changes and line.startswith("  "):
            wanted = round(8 * 24 * changes[what] / most)
            drawn = sum(8 if it == "\u2588" else 8 - (ord(it) - 0x2588) for it in line if 0x2588 <= ord(it) <= 0x258F)
            assert drawn == wanted, line


def test_charts_are_svg(hsp: Hsp, folder: Path) -> None:
    for words in ([], ["--server", "paris:2"]):
        chart = folder / "chart.svg"
        hsp("whatif", str(folder), *words, "--chart", str(chart))
        assert ElementTree.parse(chart).getroot().tag.endswith("svg")


def test_more_room_is_more_by_the_step(hsp: Hsp, folder: Path) -> None:
    """10% of 1,500, 25% of 1,510 rounded, and one where the step is less than a query."""
    room = {f"{site} {own}": int(room) for site, own, room in rows(folder / "capacity.csv")}
    for step, wanted in (("10", lambda it: it + round(it / 10)), ("25", lambda it: it + round(it / 4))):
        found = {it["what"]: int(it["room"]) for it in cases(hsp, str(folder), "--step", step) if it["case"] == "more"}
        assert found == {what: wanted(room[what]) for what in found} and len(found) == 2
    found = {it["what"]: int(it["room"]) for it in cases(hsp, str(folder), "--step", "0.1") if it["case"] == "more"}
    assert found == {what: room[what] + round(room[what] / 1000) for what in found}
    (folder / "capacity.csv").write_text((folder / "capacity.csv").read_text().replace("paris,2,1510", "paris,2,9"))
    for it in cases(hsp, str(folder), "--step", "0.1"):
        assert it["what"] != "paris 2" or it["case"] != "more" or int(it["room"]) == 10


def number_in(text: str | None) -> int | None:
    digits = (text or "").replace(",", "")
    return int(digits) if digits.isdigit() else None


def test_a_curve_has_its_numbers_where_they_belong(hsp: Hsp, example: Example) -> None:
    """The axes have the sizes and the costs, in their order, outside of the drawn line; the title has both ends."""
    folder, chart = example("two-sites"), example("base") / "chart.svg"
    sizes = ["--server", "paris:2", "--from", "1400", "--to", "1600", "--points", "5"]
    hsp("whatif", str(folder), *sizes, "--chart", str(chart))
    costs = {int(it["room"]): int(it["cost"]) for it in cases(hsp, str(folder), *sizes)}
    root = ElementTree.parse(chart).getroot()
    tag = root.tag.removesuffix("svg")
    ends = ", ".join(f"{costs[room]:,} at {room:,}" for room in (1400, 1600))
    assert root.findtext(f"{tag}title") == f"Cost of the plan by room at paris 2: {ends}"
    circles = [it for it in root.iter(f"{tag}circle") if it.get("r") == "3"]
    dots = [(float(it.get("cx", "")), float(it.get("cy", ""))) for it in circles]
    assert len(dots) == len(costs)
    soft = [it for it in root.iter(f"{tag}text") if it.get("class") == "soft"]
    texts = [it for it in soft if number_in(it.text) is not None]
    along = [(float(it.get("x", "")), number_in(it.text) or 0) for it in texts if it.get("text-anchor") == "middle"]
    up = [(float(it.get("y", "")), number_in(it.text) or 0) for it in texts if it.get("text-anchor") == "end"]
    assert along == sorted(along) and up == sorted(up, reverse=True) and len(along) > 2 and len(up) > 2
    lowest = max(y for _, y in dots)
    for it in texts:
        if it.get("text-anchor") == "middle":
            assert lowest < float(it.get("y", "")) < float(root.get("viewBox", "").split()[3])
    rooms, (first, last) = sorted(costs), (along[0], along[-1])
    each = (last[0] - first[0]) / (last[1] - first[1])
    for room, (x, _) in zip(rooms, dots):
        assert x == pytest.approx(first[0] + each * (room - first[1]), abs=0.3)
    each = (up[-1][0] - up[0][0]) / (up[-1][1] - up[0][1])
    for room, (_, y) in zip(rooms, dots):
        assert y + 4 == pytest.approx(up[0][0] + each * (costs[room] - up[0][1]), abs=0.3)


def test_changes_are_one_plan_together(hsp: Hsp, folder: Path) -> None:
    """Two servers, a cost, a region and a handle by a factor: the plan of the changed files."""
    changed = folder.parent / "changed"
    words = ["--server", "paris:1=1700", "--server", "reston:3=1200", "--cost", "us:paris=60"]
    words += ["--times", "eu=0.5", "--times", "20.500.1234/film-5=1.5"]
    found = cases(hsp, str(folder), *words)
    shutil.copytree(folder, changed)
    for name, key, number in (("capacity", "paris,1", 1700), ("capacity", "reston,3", 1200), ("costs", "us,paris", 60)):
        text = (changed / f"{name}.csv").read_text()
        (changed / f"{name}.csv").write_text(re.sub(f"(?m)^{key},.*$", f"{key},{number}", text))
    rows = [line.split(",") for line in (changed / "demand.csv").read_text().splitlines()]
    for row in rows[1:]:
        row[2] = str(-(-int(row[2]) // 2)) if row[0] == "eu" else row[2]
        row[2] = str(-(-int(row[2]) * 3 // 2)) if row[1] == "20.500.1234/film-5" else row[2]
    (changed / "demand.csv").write_text("".join(",".join(row) + "\n" for row in rows))
    wanted = read_service(str(changed), Programs(), {}).certificate
    assert [(it["case"], it["cost"]) for it in found] == [("together", str(wanted.cost))] and wanted.is_plan
    lost = cases(hsp, str(folder), "--lose", "paris", "--server", "reston:1=99")[0]
    assert int(lost["lack"]) > int(next(it for it in cases(hsp, str(folder)) if it["what"] == "paris")["lack"])


@pytest.mark.parametrize(
    ("words", "status", "said"),
    [
        (["--server", "paris:1", "--server", "reston:1"], 2, "give each server as SITE:ID=N"),
        (["--server", "paris:1=9", "--from", "3"], 2, "no other sizes"),
        (["--lose", "pariss"], 5, "no site 'pariss': did you mean paris?"),
        (["--times", "uss=2"], 5, "no region or handle 'uss': did you mean us?"),
        (["--cost", "us:paris=x"], 5, "'us:paris=x' is no change"),
        (["--server", "paris:1=1.5"], 5, "and a whole number"),
    ],
)
def test_odd_changes_are_refused(hsp: Hsp, example: Example, words: list[str], status: int, said: str) -> None:
    assert said in hsp("whatif", str(example("two-sites")), *words, status=status).stderr
