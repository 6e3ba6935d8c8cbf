"""Plans near the one in force: against integer programmes, and as hsp plan --near prints them."""

import json
import random
import re
import shutil
from fractions import Fraction
from pathlib import Path

import pytest

from hsp.base.programs import Programs
from hsp.base.unfit import Unfit
from hsp.plans.service import read_service
from hsp.scenarios.in_force import in_force
from hsp.scenarios.judged import Judged
from hsp.scenarios.nearest import Portions, TooMany, homes_of, moved_between, portions_of, shared
from hsp.scenarios.reserve import reserved

from conftest import Hsp, rewrite
from lib import examples
from scenarios import Flows, demand_of, drawn_service
from services import read


def rows_of(folder: Path) -> list[list[str]]:
    return [line.split(",") for line in (folder / "demand.csv").read_text().splitlines()[1:]]


@pytest.mark.parametrize("seed", range(100))
def test_a_nearest_plan_is_that_of_an_integer_programme(
    tmp_path: Path, monkeypatch: pytest.MonkeyPatch, seed: int
) -> None:
    """The plan in force is one of other counts and capacities; both optima are the programme's. In each third network
    costs leave no room but for the smaller weight."""
    draw = random.Random(seed)
    if seed % 3 == 0:
        monkeypatch.setattr("hsp.scenarios.nearest.GREATEST_COST", 45)
    folder = drawn_service(draw, tmp_path / "now")
    old = Path(shutil.copytree(folder, tmp_path / "old"))
    counts = [(region, handle, draw.randint(0, 6)) for region, handle, _ in rows_of(folder)]
    (old / "demand.csv").write_bytes(demand_of(counts))
    rewrite(old / "capacity.csv", r"(\d)$", r"\g<1>0")
    rewrite(old / "settings.toml", r"(?s)^\[\[host\]\].*", "")
    programs = Judged()
    before, now = (read_service(str(own), programs, {}) for own in (old, folder))
    assert before.certificate.is_plan
    flows = Flows(now)
    cost = flows.cheapest()
    assert now.certificate.is_plan == (cost is not None)
    homes = homes_of(before, before.certificate)
    near = Portions(now, homes, programs).nearest(now, now.certificate)
    if cost is None:
        assert near is None
        return
    assert near and near.certificate.cost == cost == now.certificate.cost
    at_home = {(it.row, it.home): it.queries for it in portions_of(now, homes) if it.home is not None}
    fewest = flows.fewest_moved(cost, {key: queries for key, queries in at_home.items() if key in flows.arcs})
    gone = sum(queries for key, queries in at_home.items() if key not in flows.arcs)
    assert near.moved == fewest + gone == moved_between(now, homes, near.certificate)
    assert programs.verdict(now.inputs, near.plan_file) == "yes"
    assert programs.verdict(near.portions, near.portions_plan) == "yes"


def test_shares_are_whole_and_fair() -> None:
    """By hand: 10 in parts of 1:2 are 3 and 7; the greater remainder gets the rest."""
    assert shared(10, {0: 1, 1: 2}) == {0: 3, 1: 7}
    assert shared(4, {0: 1, 1: 1, 2: 1}) == {0: 2, 1: 1, 2: 1}
    assert shared(0, {0: 5}) == {} and shared(5, {}) == {} and shared(7, {3: 2}) == {3: 7}


def test_a_plan_moves_nothing_from_itself(hsp: Hsp, folder: Path) -> None:
    hsp("plan", str(folder))
    plan = (folder / "plan.txt").read_bytes()
    printed = hsp("plan", str(folder), "--near", str(folder)).stdout
    line = next(line for line in printed.splitlines() if line.startswith("near"))
    assert "moves 0 (0%) of 6,282 queries" in line and "the fewest of all cheapest plans" in line
    assert (folder / "plan.txt").read_bytes() == plan


def test_what_is_kept_shows_both(hsp: Hsp, twelve: Path, tmp_path: Path) -> None:
    """Yesterday's plan, and a demand that differs by a tenth: far fewer queries move than by a plain plan, and
    hsplan check says yes to both certificates."""
    old, now = (Path(shutil.copytree(twelve, tmp_path / name)) for name in ("old", "now"))
    hsp("plan", str(old))
    draw = random.Random(3)
    rows = [(region, handle, round(int(count) * draw.uniform(0.9, 1.1))) for region, handle, count in rows_of(now)]
    (now / "demand.csv").write_bytes(demand_of(rows))
    printed = hsp("plan", str(now), "--near", str(old)).stdout
    line = next(line for line in printed.splitlines() if line.startswith("near  moves"))
    moved, plain = (int(part.split(" (")[0].replace(",", "")) for part in (line[12:], line.rpartition("plain ")[2]))
    assert 0 < moved < plain / 4
    service, programs = read(now)
    assert programs.verdict(service.inputs, str(now / "plan.txt")) == "yes"
    portions = service.inputs.but(demand=str(now / "near/demand.csv"), costs=str(now / "near/costs.csv"))
    assert programs.verdict(portions, str(now / "near/plan.txt")) == "yes"
    assert f"check yes: {now}/near/plan.txt shows" in printed


@pytest.mark.parametrize(
    "wrong, why",
    [
        (("row 35 ", "server 35 "), "a plan of 35 rows"),
        (("server 4 ", "host 4 "), "a plan of 4 servers"),
        (("use 0 0 475\n", "use 1 0 475\n"), "another demand"),
        (("use 0 0 475\n", "use 99 0 475\n"), "other files"),
        (("use 0 0 475\n", "use 0 2 475\n"), "other files"),
        (("PLAN", "SHORTAGE"), "no plan of hsplan"),
        (("cost 3", "cost x"), "no plan of hsplan"),
        (("use 0 0 475\n", "use x\n"), "no plan of hsplan"),
        (("use 0 0 475\n", "use 0 0 -5\nuse 0 1 480\n"), "no plan of hsplan"),
        (("use 0 0 475\n", "use -36 0 475\n"), "no plan of hsplan"),
        (("use 0 0 475\n", "use 0 -2 475\n"), "no plan of hsplan"),
        (("use 0 0 475\n", "use 0 0 +475\n"), "no plan of hsplan"),
        (("use 0 0 475\n", "use 0 0 4_75\n"), "no plan of hsplan"),
        (("use 0 0 475\n", "use 0 0 \u0664\u0667\u0665\n"), "no plan of hsplan"),
        (("use 0 0 475\n", f"use 0 0 {'9' * 5000}\n"), "no plan of hsplan"),
        (("use 0 0 475\n", "use 0 0 475 use 0 1 0\n"), "no plan of hsplan"),
        (("use 0 0 475\n", "use 0 0 475\nsite 0 1 2\n"), "no plan of hsplan"),
        (("END\n", "END"), "no plan of hsplan"),
        (("END\n", "END\nEND\n"), "no plan of hsplan"),
        (("HSPLAN 1\nPLAN\n", "HSPLAN PRICES 1\nPLAN\n"), "by prices"),
    ],
)
def test_a_wrong_certificate_is_no_plan_in_force(hsp: Hsp, folder: Path, wrong: tuple[str, str], why: str) -> None:
    """Other rows than those of the demand, and what isn't a certificate by rows, octet for octet."""
    hsp("plan", str(folder))
    service = read_service(str(folder), Programs(), {})
    text = (folder / "plan.txt").read_text()
    assert wrong[0] in text
    (folder / "old.txt").write_text(text.replace(*wrong, 1), encoding="utf-8")
    with pytest.raises(Unfit, match=why):
        in_force(str(folder / "old.txt"), service, Judged())


def test_a_fault_beside_the_plan_in_force_is_said_to_be_there(hsp: Hsp, folder: Path) -> None:
    hsp("plan", str(folder))
    old = Path(shutil.copytree(folder, folder.parent / "old"))
    (old / "demand.csv").write_text("region,handle,count\neu,20.1/x,many\n")
    ended = hsp("plan", str(folder), "--near", str(old), status=1)
    why = "hsplan refuses the files beside it: demand: BadNumber row 0"
    assert ended.stderr == f"hsp: {old}/plan.txt: {why}\n"


def test_an_absent_certificate_is_named(hsp: Hsp, folder: Path) -> None:
    ended = hsp("plan", str(folder), "--near", str(folder / "absent.txt"), status=5)
    assert ended.stderr == f"hsp: {folder}/absent.txt: no such file; give a certificate, or a folder with plan.txt\n"


@pytest.mark.parametrize(
    "name", ["settings.toml", "demand.csv", "costs.csv", "capacity.csv", "sites.values", "hsp.toml"]
)
def test_files_of_the_plan_in_force_are_not_written_over(hsp: Hsp, folder: Path, name: str) -> None:
    hsp("plan", str(folder))
    old = Path(shutil.copytree(folder, folder.parent / "old"))
    (old / name).touch()
    (old / "plan.txt").rename(old / "in-force.txt")
    before = (old / name).read_bytes()
    for near in (f"{old}/in-force.txt", f"{old}"):
        words = ["--near", near, "-o", f"{old}/{name}"]
        ended = hsp("plan", str(folder), *words, status=1)
        assert ended.stderr == f"hsp: {old}/{name}: it would be read and written\n"
    assert (old / name).read_bytes() == before


def test_portions_are_not_written_over_the_plan_in_force(hsp: Hsp, folder: Path) -> None:
    """The plan of portions is no plan in force of the rows, and stays."""
    hsp("plan", str(folder))
    hsp("plan", str(folder), "--near", str(folder))
    before = (folder / "near/demand.csv").read_bytes()
    ended = hsp("plan", str(folder), "--near", f"{folder}/near")
    assert "none of its rows is asked for" in ended.stdout
    assert (folder / "near/demand.csv").read_bytes() == before


def test_portions_are_not_written_through_a_link(hsp: Hsp, folder: Path, tmp_path: Path) -> None:
    hsp("plan", str(folder))
    (tmp_path / "other").mkdir()
    (tmp_path / "other/plan.txt").write_text("mine")
    (folder / "near").symlink_to(tmp_path / "other")
    plan = (folder / "plan.txt").read_bytes()
    why = "no folder of its own; what shows that a plan is near is written there"
    assert hsp("plan", str(folder), "--near", str(folder), status=1).stderr == f"hsp: {folder}/near: {why}\n"
    (folder / "near").unlink()
    (folder / "near").write_text("mine")
    assert why in hsp("plan", str(folder), "--near", str(folder), status=1).stderr
    assert (tmp_path / "other/plan.txt").read_text() == "mine" and (folder / "plan.txt").read_bytes() == plan


def test_a_plan_of_another_service_moves_nothing_that_is_asked_for(hsp: Hsp, folder: Path) -> None:
    old = Path(shutil.copytree(folder, folder.parent / "old"))
    (old / "demand.csv").write_text((old / "demand.csv").read_text().replace("20.500.1234/", "10.1/"))
    hsp("plan", str(old))
    printed = hsp("plan", str(folder), "--near", str(old)).stdout
    why = f"none of its rows is asked for in {folder}/demand.csv"
    assert f"near  no: {why}; this is the plain plan, which moves 0 (0%) from {old}/plan.txt\n" in printed
    assert "the fewest of all cheapest plans" not in printed


def test_beyond_the_tables_a_line_says_so(hsp: Hsp, folder: Path, monkeypatch: pytest.MonkeyPatch) -> None:
    hsp("plan", str(folder))
    monkeypatch.setattr("hsp.scenarios.nearest.MOST_REGIONS", 2)
    printed = hsp("plan", str(folder), "--near", str(folder), "--no-save").stdout
    assert (
        "near  no: 6 regions with their homes, more than tables hold; this is the plain plan, which moves 0" in printed
    )
    monkeypatch.setattr("hsp.scenarios.nearest.MOST_DEMAND_ROWS", 30)
    with pytest.raises(TooMany, match="38 portions and 6 regions with their homes"):
        service = read_service(str(folder), Programs(), {})
        Portions(service, homes_of(service, service.certificate), Judged())


def test_what_had_a_server_that_is_gone_is_moved(hsp: Hsp, folder: Path) -> None:
    """A site whose number of servers changed has other servers for its handles. Every plan moves what they had, so it
    counts as moved, and no portion is at home."""
    service = read_service(str(folder), Programs(), {})
    homes = homes_of(service, service.certificate)
    renamed = {
        key: {(site, server + 10): number for (site, server), number in own.items()} for key, own in homes.items()
    }
    assert all(it.home is None for it in portions_of(service, renamed))
    assert moved_between(service, renamed, service.certificate) == service.asked == 6_282
    programs = Judged()
    portions = Portions(service, renamed, programs)
    near = portions.nearest(service, service.certificate)
    assert near and near.moved == 6_282 and portions.forced(()) == 6_282


def test_a_site_that_is_gone_has_moved_its_queries(hsp: Hsp, folder: Path) -> None:
    """What yesterday's plan sent to reston is moved today, since reston is gone. Paris has room for all of it."""
    rewrite(folder / "capacity.csv", r"(\d)$", r"\g<1>0")
    old = Path(shutil.copytree(folder, folder.parent / "old"))
    shares = hsp("plan", str(old), "--csv").stdout
    of_reston = sum(int(line.split(",")[2]) for line in shares.splitlines()[1:] if line.split(",")[1] == "reston")
    assert 0 < of_reston < 6_282
    for name in ("costs.csv", "capacity.csv"):
        lines = (folder / name).read_text().splitlines(keepends=True)
        (folder / name).write_text("".join(line for line in lines if "reston" not in line))
    settings = (folder / "settings.toml").read_text()
    (folder / "settings.toml").write_text(settings[: settings.index("[[site]]", 1)])
    printed = hsp("plan", str(folder), "--near", str(old)).stdout
    share = f"{of_reston:,} ({100 * of_reston / 6_282:.0f}%)"
    assert f"near  moves {share} of 6,282 queries from {old}/plan.txt, the fewest of all cheapest plans" in printed
    assert f"plain {share}" in printed


def with_site(folder: Path, name: str, addresses: list[str], first: bool = False) -> None:
    """Puts a site beside the others, or before them. Nothing costs anything there, and there is room for all."""
    octets, own = (folder / "settings.toml").read_bytes(), examples.site_octets(name, 1, addresses)
    added = examples.settings_text([(name, own)])
    (folder / "settings.toml").write_bytes(added + octets if first else octets + added)
    with (folder / "costs.csv").open("a") as file:
        file.writelines(f"{region},{name},0\n" for region in ("eu", "us", "asia"))
    with (folder / "capacity.csv").open("a") as file:
        file.writelines(f"{name},{at + 1},10000\n" for at in range(len(addresses)))


def test_all_that_goes_to_a_new_site_has_moved(hsp: Hsp, folder: Path, tmp_path: Path) -> None:
    """And all that was at a site which is gone."""
    rewrite(folder / "capacity.csv", r"(\d)$", r"\g<1>0")
    hsp("plan", str(folder))
    old = Path(shutil.copytree(folder, tmp_path / "old"))
    assert "near  moves 0 (0%) of 6,282 queries" in hsp("plan", str(folder), "--near", str(old)).stdout
    with_site(folder, "lima", ["203.0.113.1", "203.0.113.2"])
    printed = hsp("plan", str(folder), "--near", str(old)).stdout
    assert "near  moves 6,282 (100%) of 6,282 queries" in printed and "plain 6,282 (100%)" in printed
    assert "near  moves 6,282 (100%) of 6,282" in hsp("plan", str(old), "--near", str(folder)).stdout


def test_a_plan_of_other_settings_is_no_plan_in_force(hsp: Hsp, folder: Path) -> None:
    """Its sites have other numbers, since a site stands before them."""
    hsp("plan", str(folder))
    with_site(folder, "lima", ["203.0.113.1"], first=True)
    assert "since the plan before" not in hsp("plan", str(folder), "--more", "--no-save").stdout
    ended = hsp("plan", str(folder), "--near", str(folder), status=1)
    assert f"{folder}/plan.txt: a plan of 5 servers, and {folder}/settings.toml has 6 servers" in ended.stderr


@pytest.mark.parametrize("shape", ["as it is", "both of two servers"])
def test_sites_in_another_order_are_other_settings(hsp: Hsp, folder: Path, shape: str) -> None:
    """As many servers, and uses that fit the rows: only the checker knows that the numbers are of other sites."""
    if shape == "both of two servers":
        own = {name: [f"192.0.2.{ends}{at}" for at in (1, 2)] for ends, name in ((1, "paris"), (2, "reston"))}
        octets = [(name, examples.site_octets(name, 1, addresses)) for name, addresses in own.items()]
        (folder / "settings.toml").write_bytes(examples.settings_text(octets))
        rooms = [(name, at, 2500) for name in ("paris", "reston") for at in (1, 2)]
        (folder / "capacity.csv").write_bytes(examples.table("site,server_id,capacity", rooms))
    hsp("plan", str(folder))
    head, *sites = (folder / "settings.toml").read_text().split("[[site]]")
    (folder / "settings.toml").write_text(head + "".join(f"[[site]]{own}\n" for own in reversed(sites)))
    ended = hsp("plan", str(folder), "--near", str(folder), status=1)
    own = f"{folder}/settings.toml and {folder}/costs.csv"
    remedy = "keep a plan in one folder with the settings, the demand and the costs for which it was made"
    assert ended.stderr == f"hsp: {folder}/plan.txt: a plan of other sites or costs than {own}; {remedy}\n"
    assert "since the plan before" not in hsp("plan", str(folder), "--more", "--no-save").stdout


@pytest.mark.parametrize("seed", range(40))
def test_a_plan_of_other_capacities_is_a_plan_in_force(tmp_path: Path, seed: int) -> None:
    """Whatever its servers and machines could take then, and take now."""
    draw, programs = random.Random(seed), Judged()
    folder = drawn_service(draw, tmp_path / "s")
    then = reserved(read_service(str(folder), programs, {}), Fraction(draw.randint(0, 30), 100), programs)
    if not then.certificate.is_plan:
        return
    (folder / "plan.txt").write_text(then.certificate.text)
    rewrite(folder / "capacity.csv", r"(\d)$", r"\g<1>0")
    settings = (folder / "settings.toml").read_text()
    (folder / "settings.toml").write_text(re.sub(r"(limit = \d+)", r"\g<1>0", settings))
    now = read_service(str(folder), programs, {})
    assert in_force(str(folder), now, programs).homes == homes_of(then, then.certificate)


def test_json_has_what_moves_and_what_lies_ahead(hsp: Hsp, folder: Path) -> None:
    hsp("plan", str(folder))
    found = json.loads(hsp("plan", str(folder), "--near", str(folder), "--more", "--json").stdout)
    assert (found["moved"], found["moved_is_fewest"], found["moved_by_plain_plan"]) == (0, True, 0)
    assert (found["fits_until"], found["short_from"], found["moved_since_before"]) == (1.1733, 1.1764, 0)
    assert found["worst_loss"] == {"kind": "site", "what": "reston", "cost": None, "lack": 3_272}
