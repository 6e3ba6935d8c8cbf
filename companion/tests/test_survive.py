"""hsp survive: each fallback against the planner, and purchases by hand and against an integer programme."""

import fcntl
import json
import os
import random
import re
import shutil
from dataclasses import replace
from fractions import Fraction
from pathlib import Path

import numpy
import pytest
from scipy import optimize

from hsp.base.grammar import HEADERS
from hsp.base.programs import Programs
from hsp.base.unfit import Unfit
from hsp.fleet.dispatch import of_these_files
from hsp.plans.plans import capacity_file, to_buy
from hsp.plans.service import Service, inputs_in, read_service
from hsp.scenarios.fallbacks import Fallbacks
from hsp.scenarios.judged import Judged
from hsp.scenarios.losses import HOST, SERVER, SITE, Loss, losses_of, survived, without
from hsp.scenarios.nearest import Portions, homes_of
from hsp.scenarios.purchase import Purchases
from hsp.scenarios.reserve import reserved

from conftest import Example, Hsp
from scenarios import Flows, demand_of, drawn_service, put, service_in
from services import read, table_of


def own_without(service: Service, programs: Programs, kind: str, what: str) -> tuple[str, str]:
    """The costs and capacities after a loss, by the rows of the folder's own tables."""
    costs = [(region, site, cost) for (region, site), cost in service.costs.items() if kind != SITE or site != what]
    gone = {it.label for it in service.servers if kind == SERVER and it.label == what}
    if kind == HOST:
        octets = bytes(12) + bytes(int(part) for part in what.split("."))
        gone = {it.label for it in service.servers if it.address == octets.hex()}
    rooms = {key: 0 if f"{key[0]} {key[1]}" in gone else room for key, room in service.capacities.items()}
    return programs.put_table(HEADERS["costs"], costs), capacity_file(programs, rooms)


def test_two_sites_lose_all(hsp: Hsp, folder: Path) -> None:
    printed = hsp("survive", str(folder), "--buy", status=3).stdout
    assert "buy   room for 5,174 queries more" in printed
    assert "no purchase below 5,174 does, by 2 short sets of weight 1" in printed


@pytest.mark.parametrize("seed", range(25))
def test_each_loss_is_planned_and_judged(hsp: Hsp, tmp_path: Path, seed: int) -> None:
    """Costs and lacks are the planner's over tables that are made here, and each fallback has a yes by these."""
    folder = drawn_service(random.Random(seed), tmp_path / "it", hosts=bool(seed % 2))
    service, programs = read(folder)
    if not service.certificate.is_plan:
        assert "with nothing lost" in hsp("survive", str(folder), status=3).stdout
        return
    printed = hsp("survive", str(folder), "--csv", status=expected(service, programs)).stdout
    rows = table_of(printed)
    assert printed == (folder / "fallback/losses.csv").read_text()
    assert {it["kind"] for it in rows} <= {SITE, SERVER, HOST}
    assert len([it for it in rows if it["kind"] == SITE]) == len(service.sites)
    assert len([it for it in rows if it["kind"] == SERVER]) == len(service.servers)
    worst = [(int(it["lack"]), int(it["cost"] or 0)) for it in rows]
    assert worst == sorted(worst, key=lambda pair: (-pair[0], -pair[1]))
    for it in rows:
        costs, capacity = own_without(service, programs, it["kind"], it["what"])
        inputs = service.inputs.but(costs=costs, capacity=capacity)
        certificate, _ = programs.plan(inputs)
        assert (it["served"] == "true") == certificate.is_plan
        if not certificate.is_plan:
            assert int(it["lack"]) == certificate.demand - certificate.capacity
            continue
        assert int(it["cost"]) == certificate.cost == service.certificate.cost + int(it["change"])
        plan = folder / "fallback" / it["plan"]
        assert programs.verdict(inputs, str(plan)) == "yes"
        kept = {name: str(plan.parent / name) for name in ("costs.csv", "capacity.csv")}
        own = {name.removesuffix(".csv"): path for name, path in kept.items() if Path(path).exists()}
        assert len(own) == 1 and programs.verdict(service.inputs.but(**own), str(plan)) == "yes"
        assert int(it["lost"]) <= int(it["moved"])


def expected(service: Service, programs: Programs) -> int:
    """3 where some loss leaves a shortage."""
    own = Judged()
    return 3 if any(it.cost is None for it in survived(service, own, None)) else 0


@pytest.mark.parametrize("seed", range(30))
def test_fallbacks_move_the_fewest(tmp_path: Path, seed: int) -> None:
    """Against integer programmes: of the cheapest plans after the loss, the fewest that are no longer at home."""
    folder, programs = drawn_service(random.Random(seed), tmp_path, hosts=bool(seed % 2)), Judged()
    service = read_service(str(folder), programs, {})
    if not service.certificate.is_plan:
        return
    portions = Portions(service, homes_of(service, service.certificate), programs)
    old = {(row, site): queries for row, site, queries in service.certificate.uses}
    for found in survived(service, programs, portions):
        if found.cost is None or found.moved is None:
            continue
        left = without(service, found.loss, programs)
        flows = Flows(left)
        assert flows.cheapest() == found.cost
        gone = sum(queries for key, queries in old.items() if key not in flows.arcs)
        assert found.moved == gone + flows.fewest_moved(found.cost, {k: n for k, n in old.items() if k in flows.arcs})


def test_a_plan_of_other_rows_is_said_to_be_none(hsp: Hsp, tmp_path: Path) -> None:
    folder = three_sites(tmp_path / "three", 300)
    (folder / "plan.txt").write_text("HSPLAN 1\nPLAN\ncost 0\nEND\n")
    line = hsp("survive", str(folder)).stdout.splitlines()[-2]
    assert line.endswith(f"near the plan that hsp plan makes, as {folder}/plan.txt is no plan of these files")


def test_stale_plans_are_taken_away(hsp: Hsp, tmp_path: Path) -> None:
    """A loss that had a fallback and has none any more keeps none; other files stay."""
    folder = three_sites(tmp_path / "three", 300)
    hsp("survive", str(folder))
    plan = folder / "fallback/site-a/plan.txt"
    assert plan.exists()
    (folder / "fallback/note.txt").write_text("mine")
    capacity = folder / "capacity.csv"
    capacity.write_text(capacity.read_text().replace(",300", ",100"))
    hsp("survive", str(folder), status=3)
    assert not plan.parent.exists() and (folder / "fallback/note.txt").read_text() == "mine"


def test_what_has_left_the_service_keeps_no_fallback(hsp: Hsp, tmp_path: Path) -> None:
    """Its folders go, by the table of the run before. What isn't a file of a fallback stays, and what is behind a
    link. A table that is read is not written."""
    folder = three_sites(tmp_path / "three", 300)
    hsp("survive", str(folder))
    kept, other = folder / "fallback", tmp_path / "other"
    assert (kept / "site-c/plan.txt").exists() and (kept / "server-c-1/capacity.csv").exists()
    (kept / "server-c-1/note.txt").write_text("mine")
    put(kept / "site-mine", {"plan.txt": b"mine"})
    (kept / "site-c").rename(other)
    (kept / "site-c").symlink_to(other)
    with (kept / "losses.csv").open("a") as file:
        file.write("site,../../other,true,0,0,0,0,0,x\nsite\n\n")
    for name in ("settings.toml", "costs.csv", "capacity.csv"):
        text = (folder / name).read_text()
        head, *blocks = text.split("[[site]]")
        blocks = [f"[[site]]{own}" for own in blocks if 'name = "c"' not in own] if blocks else []
        lines = "".join(line for line in head.splitlines(keepends=True) if ",c," not in line and line[:2] != "c,")
        (folder / name).write_text(lines + "".join(blocks))
    hsp("survive", str(folder), "--costs", str(kept / "site-b/costs.csv"), status=1)
    hsp("survive", str(folder))
    left = {str(path.relative_to(kept)) for path in kept.rglob("*") if path.is_file() and path.name != "costs.csv"}
    assert {name.partition("/")[0] for name in left if "-a" not in name and "-b" not in name} == {
        "losses.csv",
        "server-c-1",
        "site-mine",
    }
    assert [path.name for path in (kept / "server-c-1").iterdir()] == ["note.txt"]
    assert sorted(path.name for path in other.iterdir()) == ["costs.csv", "plan.txt"]


def test_a_fallback_has_no_file_of_another_form(hsp: Hsp, tmp_path: Path) -> None:
    """Where a part was kept back before, its capacities go."""
    folder = three_sites(tmp_path / "three", 400)
    hsp("survive", str(folder), "--reserve", "5")
    assert (folder / "fallback/server-a-1/capacity-less-reserve.csv").exists()
    hsp("survive", str(folder))
    names = sorted(path.name for path in (folder / "fallback/server-a-1").iterdir())
    assert names == ["capacity.csv", "plan.txt"]


@pytest.mark.parametrize("name", ["fallback", "fallback/site-a"])
def test_a_link_is_not_written_through(hsp: Hsp, tmp_path: Path, name: str) -> None:
    folder = three_sites(tmp_path / "three", 300)
    (tmp_path / "other").mkdir()
    (tmp_path / "other/plan.txt").write_text("mine")
    (folder / name).parent.mkdir(exist_ok=True)
    (folder / name).symlink_to(tmp_path / "other")
    ended = hsp("survive", str(folder), status=1)
    assert ended.stderr == f"hsp: {folder}/{name}: no folder of its own; fallback plans are written there\n"
    assert (tmp_path / "other/plan.txt").read_text() == "mine"
    assert [it.name for it in (tmp_path / "other").iterdir()] == ["plan.txt"]


def test_a_link_that_is_planted_after_the_check_is_not_followed(
    hsp: Hsp, tmp_path: Path, monkeypatch: pytest.MonkeyPatch
) -> None:
    folder, victim = three_sites(tmp_path / "three", 300), put(tmp_path / "victim", {"plan.txt": b"mine"})
    checked = Fallbacks.refuse

    def planted(own: Fallbacks, losses: list[str]) -> None:
        checked(own, losses)
        (folder / "fallback").mkdir()
        (folder / "fallback/site-a").symlink_to(victim)

    monkeypatch.setattr(Fallbacks, "refuse", planted)
    assert "no folder of its own" in hsp("survive", str(folder), status=1).stderr
    assert [(it.name, it.read_text()) for it in victim.iterdir()] == [("plan.txt", "mine")]


def three_sites(folder: Path, room: int) -> Path:
    sites = {name: [f"192.0.2.{at}"] for at, name in enumerate("abc")}
    costs = [("x", name, 1 + at) for at, name in enumerate("abc")]
    return service_in(folder, sites, [("x", "20.1/0", 300)], costs, [(name, 1, room) for name in "abc"])


def test_three_sites_want_half_weights(hsp: Hsp, tmp_path: Path) -> None:
    """By hand: each loss of one of three sites of 100 lacks 100. 50 more at each serve all losses. Any purchase p, q, r
    has q + r, p + r and p + q at least 100, so p + q + r is at least 150: half of each of the three."""
    folder = three_sites(tmp_path, 100)
    service, programs = read_service(str(folder), Judged(), {}), Judged()
    found = Purchases(service, programs).search()
    assert sorted(found.bought.values()) == [50, 50, 50] and found.least == found.size == 150
    assert [lack.weight for lack in found.lacks] == [Fraction(1, 2)] * 3
    assert [lack.queries for lack in found.lacks] == [100, 100, 100]
    printed = hsp("survive", str(folder), "--buy", status=3).stdout
    assert "buy   room for 150 queries more at 3 servers serves every loss" in printed
    assert "no purchase below 150 does, by 3 short sets of weight 1/2" in printed


def least_by_programme(service: Service, losses: list[Loss], programs: Judged) -> int | None:
    """The least purchase for all losses as one integer programme: the room at each server, and a plan for each loss."""
    servers = service.servers
    parts = [Flows(without(service, loss, programs)) for loss in losses]
    width = len(servers) + sum(part.number for part in parts)
    rows, low, high = [], [], []
    begin = len(servers)
    for loss, part in zip(losses, parts):
        for at, (own, least, most) in enumerate(part.bounds(), -len(part.service.rows)):
            weights = numpy.zeros(width)
            weights[begin : begin + part.number] = own
            is_server = 0 <= at < len(servers)
            if is_server and servers[at] not in loss.servers:
                weights[at] = -1
            rows.append(weights), low.append(-numpy.inf if is_server else least), high.append(most)
        begin += part.number
    found = optimize.milp(
        numpy.r_[numpy.ones(len(servers)), numpy.zeros(width - len(servers))],
        constraints=optimize.LinearConstraint(numpy.array(rows), low, high),
        integrality=numpy.ones(width),
    )
    return None if found.x is None else round(found.fun)


@pytest.mark.parametrize("seed", range(40))
def test_a_purchase_serves_every_loss_and_none_below_the_bound_does(tmp_path: Path, seed: int) -> None:
    folder, programs = drawn_service(random.Random(seed), tmp_path, hosts=seed % 4 == 0), Judged()
    service = read_service(str(folder), programs, {})
    if not service.certificate.is_plan or not service.asked:
        return
    found = Purchases(service, programs).search()
    served = [loss for loss in losses_of(service) if loss not in found.unserved]
    for loss in served:
        left = without(service, loss, programs, found.bought)
        assert programs.plan(left.inputs)[0].is_plan
    least = least_by_programme(service, served, programs)
    assert least is not None and found.least <= least <= found.size
    if not found.unserved and "host" not in service.settings:
        assert found.size - found.least <= 1
    for loss in found.unserved:
        assert least_by_programme(service, [loss], programs) is None
    sums = [sum(it.weight for it in found.lacks if own in it.servers) for own in service.servers]
    assert all(own <= 1 for own in sums)


def test_the_rounds_run_out(tmp_path: Path, monkeypatch: pytest.MonkeyPatch, hsp: Hsp) -> None:
    """Then each loss buys what it still lacks, and both numbers are printed."""
    monkeypatch.setattr("hsp.scenarios.purchase.MOST_ROUNDS", 1)
    folder = three_sites(tmp_path, 100)
    service, programs = read_service(str(folder), Judged(), {}), Judged()
    found = Purchases(service, programs).search()
    assert found.size >= 150 and found.lacks == [] and found.least == 0
    for loss in losses_of(service):
        assert programs.plan(without(service, loss, programs, found.bought).inputs)[0].is_plan
    printed = hsp("survive", str(folder), "--buy", status=3).stdout
    assert re.search(r"buy   room for \d+ queries more at \d servers? serves every loss: ", printed)
    assert "less than 0 can't do, by 0 short sets; between the two it's open" in printed


def test_the_page_shows_losses_and_growth(hsp: Hsp, folder: Path) -> None:
    hsp("view", str(folder), "--more")
    page = (folder / "plan.html").read_text()
    for words in (
        "Fits until",
        "+17.33%",
        "short from +17.64% on",
        "Worst loss",
        "site reston",
        "short by 3,272 queries",
    ):
        assert words in page
    lines = hsp("plan", str(folder), "--more", "--no-save").stdout.splitlines()
    assert lines[-3].startswith("grow  fits until +17.33%; from +17.64% on 36 rows ask for more than 7,390")
    assert lines[-2].startswith("loss  without site reston short by 3,272 queries; 0 of 8 losses leave a plan")


def test_the_plan_before_is_known_where_it_is_kept(hsp: Hsp, folder: Path, tmp_path: Path) -> None:
    hsp("plan", str(folder))
    capacity = folder / "capacity.csv"
    capacity.write_text(capacity.read_text().replace("paris,2,1510", "paris,2,1723"))
    old = Path(shutil.copytree(folder, tmp_path / "old"))
    lines = hsp("plan", str(folder), "--more").stdout
    assert "moves 3.4% of the queries since the plan before" in lines
    hsp("view", str(folder), "--before", str(old))
    assert "<dt>Moves</dt><dd><b>3.4%</b><small>213 queries since the plan before" in (folder / "plan.html").read_text()


def test_a_plan_less_a_reserve_is_answered_by_many(hsp: Hsp, example: Example) -> None:
    """hsp fleet dispatch takes the capacities that are kept beside it, and refuses a plan of neither."""
    folder, programs = example("two-sites"), Programs()
    hsp("plan", str(folder), "--reserve", "2")
    inputs, plan = inputs_in(str(folder), {}), folder / "plan.txt"
    found = of_these_files(str(folder), programs, inputs, str(plan))
    assert programs.verdict(inputs, str(plan)) != "yes" == programs.verdict(found, str(plan))
    assert Path(found.capacity).name == "capacity-less-reserve.csv"
    assert "plan isn't one" not in hsp("doctor", str(folder)).stdout
    plan.write_text(plan.read_text().replace("\ncost ", "\ncost 1"))
    with pytest.raises(Unfit, match="the plan isn't one of these files"):
        of_these_files(str(folder), programs, inputs, str(plan))


def test_a_plan_less_a_reserve_is_no_old_plan(hsp: Hsp, folder: Path) -> None:
    """The doctor judges it by the capacities that are kept beside it, until the folder's own are newer."""
    hsp("plan", str(folder), "--reserve", "5", "--settings", str(folder / "settings.toml"))
    assert "the plan isn't" not in hsp("doctor", str(folder)).stdout
    kept = folder / "capacity-less-reserve.csv"
    os.utime(folder / "capacity.csv", (kept.stat().st_mtime + 9, kept.stat().st_mtime + 9))
    assert "the plan is older than capacity.csv" in hsp("doctor", str(folder)).stdout
    kept.unlink()
    os.utime(folder / "capacity.csv", (0, 0))
    assert "the plan isn't one of these files" in hsp("doctor", str(folder)).stdout


def test_what_is_kept_back_is_said_exactly(hsp: Hsp, folder: Path) -> None:
    """Not as 100% or 12.3457%."""
    for part in ("99.9999999", "12.3456789", "0.000000001", "2.5", "10"):
        words = ("plan", str(folder), "--reserve", part, "--no-save")
        assert f", {part}% of each capacity kept back" in hsp(*words, status=3 if float(part) > 50 else 0).stdout
    lines = hsp("plan", str(folder), "--reserve", "1.2345678").stdout
    assert "the capacities less 1.2345678%, rounded down" in lines


def bought_by(text: str, folder: Path) -> None:
    """Buys what a line says has to be bought where a part of it is kept back."""
    line = next(line for line in text.splitlines() if "of new room is kept back too, buy " in line)
    found = re.findall(r"(\w+) (\d) ([\d,]+)(?= and |, |$)", line.partition("too, buy ")[2])
    assert found
    for site, number, more in found:
        rooms = (folder / "capacity.csv").read_text()
        own = re.search(rf"(?m)^{site},{number},(\d+)$", rooms)
        assert own
        room = int(own[1]) + int(more.replace(",", ""))
        (folder / "capacity.csv").write_text(rooms.replace(own[0], f"{site},{number},{room}"))


@pytest.mark.parametrize("part", ["20", "33.3", "7"])
def test_a_purchase_serves_where_a_part_of_it_is_kept_back(hsp: Hsp, folder: Path, part: str) -> None:
    """What is bought is more than what has to remain of it."""
    if part != "7":
        bought_by(hsp("plan", str(folder), "--reserve", part, "--no-save", status=3).stdout, folder)
    hsp("plan", str(folder), "--reserve", part, "--no-save")
    bought_by(hsp("survive", str(folder), "--reserve", part, "--buy", "--no-save", status=3).stdout, folder)
    assert "8 fallback plans" in hsp("survive", str(folder), "--reserve", part).stdout
    assert "kept back too" not in hsp("survive", str(folder), "--buy").stdout


@pytest.mark.parametrize("part", [Fraction(1, 50), Fraction(1, 3), Fraction(9, 10), Fraction(999, 1000)])
def test_no_less_is_bought_so_that_as_much_remains(example: Example, part: Fraction) -> None:
    """With one query less at any server less would remain there. Of a plan without a reserve all remains."""
    programs, draw = Programs(), random.Random(7)
    plain = read_service(str(example("two-sites")), programs, {})
    plain = replace(plain, capacities={key: draw.randint(0, 3000) for key in plain.capacities})
    service = reserved(plain, part, programs)
    for _ in range(200):
        bought = {server: draw.randint(1, 500) for server in service.servers}
        assert to_buy(plain, bought) == bought
        for server, more in to_buy(service, bought).items():
            whole, wanted = plain.capacity(server), service.capacity(server) + bought[server]
            assert int((whole + more) * (1 - part)) >= wanted > int((whole + more - 1) * (1 - part))


@pytest.mark.parametrize("part", ["20", "33.3"])
def test_other_programs_and_the_page_have_what_to_buy(hsp: Hsp, folder: Path, part: str) -> None:
    """What has to remain of it stands beside it."""
    words = ("plan", str(folder), "--no-save", "--reserve", part)
    purchase = json.loads(hsp(*words, "--json", status=3).stdout)["least_purchase"]
    assert purchase and all(it["more"] > it["remains"] > 0 for it in purchase)
    hsp("view", str(folder), "--reserve", part, status=3)
    page = re.sub(r"<[^>]*>", "", (folder / "plan.html").read_text())
    assert f"Buy room for {sum(it['more'] for it in purchase):,}." in page
    rooms = (folder / "capacity.csv").read_text()
    for it in purchase:
        assert f"{it['more']:,} at {it['site']} {it['server_id']}" in page
        own = re.search(rf"(?m)^{it['site']},{it['server_id']},(\d+)$", rooms)
        assert own
        rooms = rooms.replace(own[0], f"{it['site']},{it['server_id']},{int(own[1]) + it['more']}")
    (folder / "capacity.csv").write_text(rooms)
    hsp(*words)


def test_all_servers_of_a_purchase_are_shown(hsp: Hsp, tmp_path: Path) -> None:
    """Each loss of one of eight sites of 100 lacks 50 of 750, so the least purchase is spread over all of them."""
    folder, names = tmp_path / "eight", "abcdefgh"
    sites = {name: [f"192.0.2.{at}"] for at, name in enumerate(names)}
    costs, rooms = [("x", name, 1) for name in names], [(name, 1, 100) for name in names]
    service_in(folder, sites, [("x", "20.1/0", 750)], costs, rooms)
    words = ("survive", str(folder), "--buy", "--no-save")
    line = next(it for it in hsp(*words, status=3).stdout.splitlines() if it.startswith("buy"))
    number = re.match(r"buy   room for (\d+) queries more at (\d) servers serves every loss: ", line)
    assert number and int(number[2]) > 5 and line.endswith(f" and {int(number[2]) - 4} more (--all)")
    printed = hsp(*words, "--all", "--reserve", "1", status=3).stdout
    bought = re.findall(r"(?m)^      (\w 1) +(\d+) more: 99 to (\d+)$", printed)
    assert bought and all(int(more) + 99 == int(after) for _, more, after in bought)
    head = f"buy   room for {sum(int(more) for _, more, _ in bought)} queries more at {len(bought)} servers"
    assert f"{head} serves every loss\n" in printed
    kept = next(it for it in printed.splitlines() if "too, buy" in it)
    assert all(f"{label} " in kept for label, *_ in bought)


def test_many_losses_are_announced(hsp: Hsp, tmp_path: Path, monkeypatch: pytest.MonkeyPatch) -> None:
    monkeypatch.setattr("hsp.scenarios.command.MANY", 2)
    monkeypatch.setattr("hsp.scenarios.judged.SAID", 0)
    ended = hsp("survive", str(three_sites(tmp_path, 300)), "--no-save")
    assert ended.stderr.startswith("hsp: 6 losses, about ") and "processors" in ended.stderr


def test_a_certificate_without_a_yes_ends_all(example: Example, monkeypatch: pytest.MonkeyPatch) -> None:
    from hsp.base.programs import Missing

    service = read_service(str(example("two-sites")), Programs(), {})
    programs = Judged()
    monkeypatch.setattr(Programs, "verdict", lambda *words: "no: cost")
    with pytest.raises(Missing, match="hsplan check says no: cost to hsplan's own plan"):
        programs.plan(service.inputs)


def test_files_that_are_read_are_not_written(hsp: Hsp, tmp_path: Path) -> None:
    folder = three_sites(tmp_path, 300)
    service = read_service(str(folder), Judged(), {})
    kept = Fallbacks(str(folder), service, Judged())
    (folder / "losses.csv").symlink_to(folder / "demand.csv")
    with pytest.raises(Unfit, match="read and written"):
        kept.refuse([])
    (folder / "losses.csv").unlink()
    (folder / "site-b").mkdir()
    (folder / "site-b/costs.csv").symlink_to(folder / "costs.csv")
    with pytest.raises(Unfit, match="site-b/costs.csv: it would be read and written"):
        kept.refuse(["site-a", "site-b"])


def test_one_run_at_a_time_writes_fallbacks(hsp: Hsp, tmp_path: Path, monkeypatch: pytest.MonkeyPatch) -> None:
    """Another run has the folder. Its table stays, and with it what it says of the plans."""
    folder = three_sites(tmp_path, 300)
    hsp("survive", str(folder))
    monkeypatch.setattr("hsp.base.files.PATIENCE", 0)
    descriptor = os.open(folder / "fallback", os.O_RDONLY)
    try:
        fcntl.flock(descriptor, fcntl.LOCK_EX)
        ended = hsp("survive", str(folder), status=5)
    finally:
        os.close(descriptor)
    assert "fallback: another run has it locked" in ended.stderr and (folder / "fallback/losses.csv").exists()


def test_where_nothing_is_asked_for_nothing_lies_ahead(hsp: Hsp, tmp_path: Path) -> None:
    """No demand grows, and none is moved since the plan before."""
    folder = three_sites(tmp_path, 300)
    (folder / "demand.csv").write_bytes(demand_of([("x", "20.1/0", 0)]))
    hsp("plan", str(folder))
    lines = hsp("plan", str(folder), "--more").stdout.splitlines()
    assert "moves 0% of the queries since the plan before" in lines
    assert not [line for line in lines if line.startswith(("grow", "loss"))]
    hsp("view", str(folder), "--more", "--before", str(folder))
    page = (folder / "plan.html").read_text()
    assert "<dt>Moves</dt><dd><b>0%</b>" in page and "Fits until" not in page and "When the demand grows" not in page
