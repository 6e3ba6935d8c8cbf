"""hsp day: hours against the planner, blocks against all that could be, and against their hours' own queries."""

import os
import random
import re
import shutil
import subprocess
from fractions import Fraction
from pathlib import Path
from typing import Any

import pytest

from hsp.base.programs import Programs, program
from hsp.plans.service import Service, read_service
from hsp.scenarios.blocks import fewest, price
from hsp.scenarios.hours import all_planned, names_in, of_hour, read_hour
from hsp.scenarios.judged import Judged
from hsp.scenarios.nearest import homes_of, portions_of

from browsers import WIDTHS, Page, allowed, assert_stands, browser
from conftest import TOP, Example, Hsp, rewrite
from scenarios import Flows, demand_of, drawn_service
from services import table_of

__all__ = ["browser"]


def drawn_day(draw: random.Random, folder: Path, hours: int, hosts: bool = False) -> Path:
    """A drawn service with some hours, in which each row counts at most what it counts in the service."""
    drawn_service(draw, folder, hosts)
    rows = [line.split(",") for line in (folder / "demand.csv").read_text().splitlines()[1:]]
    for hour in range(hours):
        own = folder / f"h{hour:02}"
        own.mkdir()
        counts = [(region, handle, draw.randint(0, int(count))) for region, handle, count in rows]
        (own / "demand.csv").write_bytes(demand_of(counts))
    return folder


def read_day(folder: Path, programs: Judged) -> tuple[Service, list[Any]]:
    service = read_service(str(folder), programs, {"demand": str(folder / "h00/demand.csv")})
    names = names_in(str(folder))
    return service, [read_hour(service, str(folder / name), name) for name in names]


def greatest(hours: list[Any]) -> list[int]:
    return [max(own) for own in zip(*(hour.counts for hour in hours))]


def has_plan(service: Service, counts: list[int], programs: Programs) -> bool:
    rows = [(row.region, row.handle, count) for row, count in zip(service.rows, counts)]
    return programs.plan(service.inputs.but(demand=programs.put(demand_of(rows), ".csv")))[0].is_plan


def fewest_of_all(service: Service, hours: list[Any], programs: Programs) -> int:
    """The fewest blocks, of all ways to cut the hours."""
    least = [0]
    for end in range(1, len(hours) + 1):
        ways = [
            least[begin] + 1
            for begin in range(end)
            if least[begin] < 100 and has_plan(service, greatest(hours[begin:end]), programs)
        ]
        least.append(min(ways, default=100))
    return least[-1]


@pytest.mark.parametrize("seed", range(20))
def test_blocks_are_the_fewest_and_serve_their_hours(tmp_path: Path, seed: int) -> None:
    """Each hour's queries, one after the other, are answered by the block's plan without a single `spent`."""
    programs = Judged()
    folder = drawn_day(random.Random(seed), tmp_path / "it", 6, hosts=bool(seed % 2))
    service, hours = read_day(folder, programs)
    plans = all_planned(service, hours, programs)
    blocks = fewest(service, plans, programs)
    assert [hour.name for block in blocks for hour in block.hours] == [it.hour.name for it in plans if it.is_plan]
    if all(it.is_plan for it in plans):
        assert len(blocks) == fewest_of_all(service, hours, programs)
    whole = Fraction(0)
    for block in blocks:
        assert block.counts == greatest(list(block.hours))
        for hour in block.hours:
            asked = [row for row, count in zip(service.rows, hour.counts) for _ in range(count)]
            log = programs.put_table("region,handle", ((row.region, row.handle) for row in asked))
            words = [program("hsplan"), "dispatch", *block.inputs.words(), "--plan", block.plan_file, "--log", log]
            done = subprocess.run(words, capture_output=True, text=True)
            assert done.stderr.strip() == f"assigned {len(asked)} spent 0 unknown 0", done.stderr
            shares = {(row, site): Fraction(n, block.counts[row]) for row, site, n in block.certificate.uses}
            costs = {
                (row, site): service.costs[service.rows[row].region, service.sites[site].name] for row, site in shares
            }
            whole += sum((share * hour.counts[key[0]] * costs[key] for key, share in shares.items()), Fraction(0))
    least = sum(it.certificate.cost for it in plans if it.is_plan)
    assert price(service, plans, blocks) == ((whole - least) / least if least else 0)


def test_each_hour_is_planned(hsp: Hsp, tmp_path: Path) -> None:
    folder = drawn_day(random.Random(11), tmp_path / "it", 4)
    text = hsp("day", str(folder), "--csv").stdout
    programs = Programs()
    rows = table_of(text)
    assert [it["hour"] for it in rows] == ["h00", "h01", "h02", "h03"]
    for it in rows:
        service = read_service(str(folder), programs, {"demand": str(folder / it["hour"] / "demand.csv")})
        assert int(it["cost"]) == service.certificate.cost and int(it["queries"]) == service.asked
        assert programs.verdict(service.inputs, str(folder / it["hour"] / "plan.txt")) == "yes"
        kept = folder / "blocks" / it["block"]
        block = service.inputs.but(demand=str(kept / "demand.csv"))
        assert programs.verdict(block, str(kept / "plan.txt")) == "yes"


@pytest.mark.parametrize("seed", range(8))
def test_a_chain_moves_the_fewest_from_hour_to_hour(hsp: Hsp, tmp_path: Path, seed: int) -> None:
    folder = drawn_day(random.Random(seed), tmp_path / "it", 4)
    text = hsp("day", str(folder), "--near", "--csv", status=status_of(folder)).stdout
    rows = table_of(text)
    programs = Judged()
    service, hours = read_day(folder, programs)
    before: Service | None = None
    for it, hour in zip(rows, hours):
        if it["served"] == "false":
            before = None
            continue
        now = of_hour(service, hour)
        certificate = type(service.certificate)((folder / it["hour"] / "plan.txt").read_text())
        flows = Flows(now)
        assert certificate.cost == flows.cheapest() == int(it["cost"])
        if before is not None:
            homes = homes_of(before, before.certificate)
            old = {(own.row, own.home): own.queries for own in portions_of(now, homes) if own.home is not None}
            assert int(it["moved"]) == flows.fewest_moved(certificate.cost, old)
        else:
            assert it["moved"] == ""
        before = Service(**{**now.__dict__, "certificate": certificate})


def status_of(folder: Path) -> int:
    """3 where an hour has no plan."""
    programs = Judged()
    return 0 if all(it.is_plan for it in all_planned(*read_day(folder, programs), programs)) else 3


@pytest.fixture
def day(example: Example) -> Path:
    """The example of two sites with a day: each region asks for most when it is afternoon there."""
    return with_hours(example("two-sites"))


def with_hours(folder: Path) -> Path:
    noon = {"eu": 13, "us": 19, "asia": 6}
    rows = [line.split(",") for line in (folder / "demand.csv").read_text().splitlines()[1:]]
    for hour in range(24):
        own = folder / f"h{hour:02}"
        own.mkdir()
        part = {region: 12 - min(abs(hour - at), 24 - abs(hour - at)) for region, at in noon.items()}
        counts = [(region, handle, int(count) * (4 + part[region]) // 13) for region, handle, count in rows]
        (own / "demand.csv").write_bytes(demand_of(counts))
    return folder


def test_short_hours_keep_no_plan(hsp: Hsp, day: Path) -> None:
    """An hour that lacks room is named, ends with status 3, and loses the plan that it had."""
    hsp("day", str(day))
    assert (day / "h13/plan.txt").exists()
    rewrite(day / "h13/demand.csv", r"\d+$", lambda it: f"{3 * int(it[0])}")
    lines = hsp("day", str(day), status=3).stdout.splitlines()
    assert any(re.match(r"  13 +\d+,\d+  short by [\d,]+ queries", line) for line in lines)
    assert "short 1 hour: 13" in lines and any(line.startswith("worst 13:00: short by") for line in lines)
    assert not (day / "h13/plan.txt").exists() and (day / "h12/plan.txt").exists()
    names = sorted(it.name for it in (day / "blocks").iterdir() if (it / "plan.txt").exists())
    assert any(name.endswith("to-h12") for name in names) and any(name.startswith("h14") for name in names)


def test_what_is_no_day(hsp: Hsp, day: Path, tmp_path: Path) -> None:
    ended = hsp("day", str(tmp_path), status=5)
    assert ended.stderr == (f"hsp: {tmp_path}/h00: no demand of hours is here; hsp demand --by hour --into writes it\n")
    assert "weekday-hour" in hsp("day", str(day), "--week", status=5).stderr
    (day / "h05/demand.csv").write_text("region,handle,count\neu,20.1/x,1\n")
    assert f"{day}/h05/demand.csv: its rows are others than those of {day}/h00/demand.csv" in (
        hsp("day", str(day), status=1).stderr
    )
    (day / "h05/demand.csv").write_text((day / "h04/demand.csv").read_text())
    (day / "h05/hsp.toml").write_text('[demand]\nrows = "kinds"\n')
    said = hsp("day", str(day), status=1).stderr
    assert said.startswith(f"hsp: {day}/h05/hsp.toml: the demand was joined by kinds") and said.count("\n") == 1
    (day / "h05/hsp.toml").unlink()


@pytest.mark.parametrize(
    "wrong, fault",
    [
        (b",x1\n", "BadNumber row 35"),
        (b"," + b"9" * 5000 + b"\n", "BadNumber row 35"),
        (b",1\n\xff\n", "Fields row 36"),
        (b',1\neu,"' + b"x" * 200_000 + b'",1\n', "BadHandle row 36 TooLong"),
    ],
    ids=["letters", "digits", "octets", "field"],
)
def test_a_faulty_hour_is_named_with_its_fault(hsp: Hsp, day: Path, wrong: bytes, fault: str) -> None:
    """As the doctor shows it. hsplan's line by itself has no file, and there may be 168 of them."""
    path = day / "h06/demand.csv"
    path.write_bytes(path.read_bytes().rpartition(b",")[0] + wrong)
    ended = hsp("day", str(day), status=1)
    assert f"hsplan says demand: {fault}" in ended.stderr and f" --> {path}:3" in ended.stderr
    assert not (day / "h05/plan.txt").exists()


def test_a_week_has_its_own_hours(hsp: Hsp, day: Path) -> None:
    for name in ("mon-h09", "sun-h23", "tue-h00"):
        (day / name).mkdir()
        (day / name / "demand.csv").write_bytes((day / "h09/demand.csv").read_bytes())
    assert len(names_in(str(day))) == 24
    rows = table_of(hsp("day", str(day), "--week", "--csv").stdout)
    assert [it["hour"] for it in rows] == ["mon-h09", "tue-h00", "sun-h23"]
    assert "plans through the week" in (day / "day.html").read_text()


def test_hours_are_answered_by_their_commands(hsp: Hsp, day: Path) -> None:
    """By the plan of an hour and by that of a block, with the capacities less a reserve that are kept."""
    rewrite(day / "capacity.csv", r"(\d)$", r"\g<1>0")
    hsp("day", str(day), "--reserve", "10")
    page = (day / "day.html").read_text()
    first = min((day / "blocks").iterdir()).name
    for name in ("h13", f"blocks/{first}"):
        command = re.search(rf"hsplan dispatch [^\"<]*{name}/plan.txt --log /dev/stdin", page)
        assert command and "capacity-less-reserve.csv" in command[0] and f"{name}/demand.csv" in command[0]
        words = command[0].replace("\\u0026", "&").split()[1:]
        done = subprocess.run(
            [program("hsplan"), *words], input="region,handle\neu,20.500.1234/film-5\n", capture_output=True, text=True
        )
        assert done.stdout.startswith("assigned "), done


def test_inputs_of_earlier_hours_go_where_no_other_plan_may_stand_by_them(hsp: Hsp, day: Path) -> None:
    less, other = day / "capacity-less-reserve.csv", day / "mon-h05/plan.txt"
    hsp("day", str(day), "--reserve", "1")
    assert less.is_file()
    assert "\nold " not in hsp("day", str(day)).stdout and not less.exists()
    line = f"old   {less}: of {day}/plan.txt or of other hours; not of these plans"
    other.parent.mkdir()
    for beside in (day / "plan.txt", other):
        hsp("day", str(day), "--reserve", "1")
        beside.write_text("a plan")
        assert line in hsp("day", str(day)).stdout.splitlines() and less.is_file()
        beside.unlink()
    hsp("day", str(day), "--capacity", str(less))
    assert less.is_file(), "it is read"


def test_one_plan_of_all_hours_costs_more(hsp: Hsp, day: Path) -> None:
    """Where there is room for all, one block has all hours."""
    rewrite(day / "capacity.csv", r"(\d)$", r"\g<1>00")
    assert "block 1 plan serves 24 hours as it stands: 00-23; " in hsp("day", str(day)).stdout
    assert re.search(r"1 plan for a block of hours costs [0-9.<]+% more\.", (day / "day.html").read_text())


def test_a_count_of_0_is_meant_in_an_hour(hsp: Hsp, day: Path) -> None:
    rows = (day / "h00/demand.csv").read_text().splitlines()
    (day / "h00/demand.csv").write_text("\n".join([rows[0], rows[1].rpartition(",")[0] + ",0", *rows[2:], ""]))
    assert hsp("day", str(day)).stderr == ""
    (day / "demand.csv").write_bytes((day / "h00/demand.csv").read_bytes())
    assert "1 warning: eu asks 0 times" in hsp("plan", str(day)).stderr


def test_a_link_is_not_written_through(hsp: Hsp, day: Path, tmp_path: Path) -> None:
    (tmp_path / "other").mkdir()
    (day / "blocks").symlink_to(tmp_path / "other")
    ended = hsp("day", str(day), status=1)
    assert ended.stderr == f"hsp: {day}/blocks: no folder of its own; plans are written there\n"
    assert list((tmp_path / "other").iterdir()) == []


def test_a_link_among_blocks_is_not_written_through(hsp: Hsp, day: Path, tmp_path: Path) -> None:
    hsp("day", str(day))
    first = min((day / "blocks").iterdir())
    first.rename(tmp_path / "other")
    (tmp_path / "other/plan.txt").write_text("mine")
    first.symlink_to(tmp_path / "other")
    ended = hsp("day", str(day), status=1)
    assert ended.stderr == f"hsp: {first}: no folder of its own; plans are written there\n"
    assert (tmp_path / "other/plan.txt").read_text() == "mine"


def test_a_plan_is_not_written_over_a_demand(hsp: Hsp, day: Path) -> None:
    before = (day / "h06/demand.csv").read_bytes()
    (day / "h05/plan.txt").symlink_to("../h06/demand.csv")
    ended = hsp("day", str(day), status=1)
    assert ended.stderr == f"hsp: {day}/h05/plan.txt: it would be read and written\n"
    assert (day / "h06/demand.csv").read_bytes() == before and not (day / "blocks").exists()


def test_folders_that_are_no_blocks_stay(hsp: Hsp, example: Example, tmp_path: Path) -> None:
    """A path may have the words of a block's name. A block that is none any more leaves no folder, unless somebody
    keeps a file there."""
    day = with_hours(Path(example("two-sites").rename(tmp_path / "from-a-to-b")))
    (day / "blocks/mine").mkdir(parents=True)
    for name in ("h00-to-h99", "h00-to-mon-h01", "h01-to-h02", "h02-to-h03"):
        (day / "blocks" / name).mkdir()
    for own in (day / "blocks").iterdir():
        (own / "plan.txt").write_text("mine")
        (own / "demand.csv").write_text("mine")
    (day / "blocks/h02-to-h03/note.txt").write_text("mine")
    hsp("day", str(day))
    for name in ("mine", "h00-to-h99", "h00-to-mon-h01"):
        assert (day / "blocks" / name / "plan.txt").read_text() == "mine"
    assert not (day / "blocks/h01-to-h02").exists()
    assert [it.name for it in (day / "blocks/h02-to-h03").iterdir()] == ["note.txt"]


def test_no_block_goes_over_an_hour_without_a_demand(hsp: Hsp, day: Path) -> None:
    """All hours ask for little, so that one plan serves all that stand in a row."""
    rewrite(day / "capacity.csv", r"(\d)$", r"\g<1>0")
    assert "block 1 plan serves 24 hours as it stands: 00-23; " in hsp("day", str(day)).stdout
    (day / "h05/demand.csv").unlink()
    lines = hsp("day", str(day)).stdout.splitlines()
    assert "none  1 hour has no demand: 05" in lines
    block = next(line for line in lines if line.startswith("block"))
    assert block.startswith("block 2 plans serve 23 hours, each as it stands: 00-04 and 06-23; ")
    assert block.endswith(" above 23 plans; fewer blocks of hours in a row don't serve them")
    assert sorted(it.name for it in (day / "blocks").iterdir()) == ["h00-to-h04", "h06-to-h23"]


@pytest.fixture(scope="module")
def page_of_day(hsp: Hsp, tmp_path_factory: pytest.TempPathFactory) -> Path:
    folder = Path(shutil.copytree(TOP / "examples/two-sites", tmp_path_factory.mktemp("day") / "two"))
    (folder / "plan.html").unlink()
    hsp("day", str(with_hours(folder)), "--near", "--unit", "ms")
    return folder / "day.html"


@pytest.mark.parametrize("scheme", ["light", "dark"])
@pytest.mark.parametrize("width", WIDTHS)
def test_the_page_stands(browser: Any, page_of_day: Path, width: int, scheme: str) -> None:
    page = assert_stands(browser, page_of_day, width, scheme)
    text = page.path.read_text(encoding="utf-8")
    assert f"default-src 'none'; {allowed('style', text)}; {allowed('script', text)}" in text
    assert " style=" not in text and " onclick=" not in text


def test_a_click_shows_an_hour(browser: Any, page_of_day: Path) -> None:
    """The worst hour stands there first; another one's numbers are those of hsplan's report."""
    page, programs = Page(browser, page_of_day, 1200, "light"), Programs()
    pressed = "return [...document.querySelectorAll('#columns [aria-pressed=true]')].map(it => it.innerText)"
    worst = re.search(r"(\d\d):00 is the dearest", page.text())
    assert worst and page.run(pressed) == [worst[1]]
    page.run("document.querySelectorAll('#columns button')[13].click()")
    assert page.run(pressed) == ["13"] and page.run("return document.getElementById('chosen').innerText") == "13:00"
    folder = page_of_day.parent
    service = read_service(str(folder), programs, {"demand": str(folder / "h13/demand.csv")})
    loads, _ = programs.loads(service.inputs, str(folder / "h13/plan.txt"))
    cells = "return [...document.getElementById('loads').rows].map(r => [...r.cells].map(c => c.innerText))"
    shown = page.run(cells)
    assert [row[0] for row in shown] == [server.label for server in service.servers]
    assert [row[1] for row in shown] == [f"{own.load:,} / {own.capacity:,}" for own in loads]
    assert f"--plan {folder}/h13/plan.txt" in page.run("return document.getElementById('commands').innerText")
    asked = f"{service.asked:,} queries cost {service.certificate.cost:,} ms"
    assert asked in page.run("return document.getElementById('sums').innerText")


def test_the_grid_has_each_hour(browser: Any, page_of_day: Path) -> None:
    page = Page(browser, page_of_day, 1200, "light")
    rows = page.run(
        "return [...document.querySelectorAll('#servers-by-hours tbody tr')]"
        ".map(r => [...r.cells].map(c => c.className + c.innerText))"
    )
    assert rows and all(len(row) == 25 for row in rows)
    priced = sum("is-dear" in cell for row in rows for cell in row)
    folder, programs = page_of_day.parent, Programs()
    wanted = 0
    for hour in range(24):
        inputs = read_service(str(folder), programs, {"demand": str(folder / f"h{hour:02}/demand.csv")}).inputs
        wanted += sum(load.price > 0 for load in programs.loads(inputs, str(folder / f"h{hour:02}/plan.txt"))[0])
    assert priced == wanted > 0


def test_each_block_is_seen_with_its_plan(browser: Any, page_of_day: Path) -> None:
    """On a narrow window, too."""
    for width in WIDTHS:
        text = Page(browser, page_of_day, width, "light").text()
        blocks = sorted((page_of_day.parent / "blocks").iterdir())
        assert blocks and all(f"{own}/plan.txt" in re.sub(r"\s", "", text) for own in blocks)


def test_only_what_is_shown_is_called_the_fewest(
    browser: Any, hsp: Hsp, day: Path, monkeypatch: pytest.MonkeyPatch
) -> None:
    """Where an hour has more portions than a table holds, its plan is a plain one, and nothing shows the fewest."""
    sums = "return document.getElementById('sums').innerText"
    press = "document.querySelectorAll('#columns button')[1].click()"
    assert "near  no" not in hsp("day", str(day), "--near").stdout
    page = Page(browser, day / "day.html", 1200, "light")
    page.run(press)
    assert page.run(sums).endswith("from the hour before, the fewest.")
    monkeypatch.setattr("hsp.scenarios.nearest.MOST_DEMAND_ROWS", 35)
    lines = hsp("day", str(day), "--near").stdout.splitlines()
    said = [line for line in lines if line.startswith("near  no: nothing shows the fewest moves at 01, 02, ")]
    assert len(said) == 1 and said[0].endswith("; plain plans are there")
    page = Page(browser, day / "day.html", 1200, "light")
    page.run(press)
    assert page.run(sums).endswith("from the hour before.") and "servers are full" in page.run(sums)


def test_a_page_without_scripts_has_its_hours(browser: Any, page_of_day: Path, tmp_path: Path) -> None:
    text = re.sub(r"<script.*?</script>", "", page_of_day.read_text(encoding="utf-8"), flags=re.S)
    plain = tmp_path / "plain.html"
    plain.write_text(text, encoding="utf-8")
    page = Page(browser, plain, 1200, "light")
    assert "Everyone is served at every hour." in page.text() and "hsplan dispatch" in page.text()


def test_hours_and_losses_of_a_log(hsp: Hsp, day: Path, monkeypatch: pytest.MonkeyPatch) -> None:
    """A demand that no table holds is planned by prices: each hour and each loss, without portions and blocks."""
    as_table = table_of(hsp("day", str(day), "--csv").stdout)
    losses = hsp("survive", str(day), "--csv", "--no-save", status=3).stdout
    monkeypatch.setattr("hsp.plans.counted.MOST_DEMAND_ROWS", 2)
    rows = table_of(hsp("day", str(day), "--csv").stdout)
    assert [(it["hour"], it["queries"], it["cost"]) for it in rows] == [
        (it["hour"], it["queries"], it["cost"]) for it in as_table
    ]
    assert (day / "h09/plan.txt").read_text().startswith("HSPLAN PRICES 1\n")
    assert "near  no: the rows of a log have no portions" in hsp("day", str(day), "--near").stdout
    assert f"--prices {day}/h09/plan.txt" in (day / "day.html").read_text()
    for kept, own in zip(table_of(losses), table_of(hsp("survive", str(day), "--csv", "--no-save", status=3).stdout)):
        assert (kept["what"], kept["lack"], kept["cost"]) == (own["what"], own["lack"], own["cost"])
    printed = hsp("plan", str(day), "--near", str(day), "--more").stdout
    assert "near  no: the rows of a log have no portions; this is the plain plan" in printed
    assert "loss  without site reston short by 3,272 queries" in printed
    rewrite(day / "capacity.csv", r"(\d)$", r"\g<1>0")
    printed = hsp("survive", str(day), "--buy").stdout
    assert "kept  8 fallback plans" in printed and "the rows of a log have no portions" in printed
    programs = Programs()
    service = read_service(str(day), programs, {"costs": str(day / "fallback/site-paris/costs.csv")})
    assert service.log and programs.verdict(service.inputs, str(day / "fallback/site-paris/plan.txt")) == "yes"


def test_one_purchase_serves_all_losses_of_a_log(hsp: Hsp, day: Path, monkeypatch: pytest.MonkeyPatch) -> None:
    monkeypatch.setattr("hsp.plans.counted.MOST_DEMAND_ROWS", 2)
    printed = hsp("survive", str(day), "--buy", "--no-save", status=3).stdout
    assert "buy   room for 5,174 queries more at 5 servers serves every loss" in printed
    assert "no purchase below 5,174 does, by 2 short sets of weight 1" in printed


@pytest.mark.parametrize("kind", ["pipe", "folder", "device"])
def test_an_hour_whose_demand_is_no_file_is_refused(hsp: Hsp, tmp_path: Path, kind: str) -> None:
    folder = drawn_day(random.Random(11), tmp_path / "it", 4)
    demand = folder / "h02/demand.csv"
    demand.unlink()
    if kind == "pipe":
        os.mkfifo(demand)
    elif kind == "folder":
        demand.mkdir()
    else:
        demand.symlink_to("/dev/zero")
    said = hsp("day", str(folder), status=1).stderr
    assert said == f"hsp: {demand}: no regular file; the demand of an hour is read more than once\n"
    assert not (folder / "h00/plan.txt").exists()


def test_hours_that_lack_a_plan_are_named_where_plans_are_kept(hsp: Hsp, tmp_path: Path) -> None:
    """Those without a demand, and those that are short."""
    folder = drawn_day(random.Random(11), tmp_path / "it", 7)
    kept = [line for line in hsp("day", str(folder)).stdout.splitlines() if line.startswith("kept")]
    assert kept[0].startswith("kept  7 plans beside the demands of h00 to h06, ")
    shutil.rmtree(folder / "h02")
    (folder / "h06/demand.csv").unlink()
    for hour in ("h00", "h04"):
        rewrite(folder / hour / "demand.csv", r"\d+$", "999")
    kept = [line for line in hsp("day", str(folder), status=3).stdout.splitlines() if line.startswith("kept")]
    assert kept[0].startswith("kept  3 plans beside the demands of h01 to h05 but h02 and h04, ")
    for hour in ("h01", "h03"):
        shutil.rmtree(folder / hour)
    kept = [line for line in hsp("day", str(folder), status=3).stdout.splitlines() if line.startswith("kept")]
    assert kept[0].startswith("kept  1 plan beside the demand of h05, ")
    shutil.rmtree(folder / "h05")
    kept = [line for line in hsp("day", str(folder), status=3).stdout.splitlines() if line.startswith("kept")]
    assert kept == [f"kept  0 plans; page {folder}/day.html"]
