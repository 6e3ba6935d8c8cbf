"""hsp plan: its lines and tables, against hsplan's reports and against plans of changed inputs."""

import json
import os
import shlex
import shutil
import subprocess
import sys
from collections import Counter
from dataclasses import replace
from pathlib import Path
from typing import Any

import pytest

from hsp.base.numbers import part
from hsp.base.programs import BOUNDLESS, Programs, Refused, program
from hsp.plans.plans import capacity_file, cheapest, least_purchase, planned, purchased, shortage, with_gains
from hsp.plans.service import Service, read_service

from conftest import Example, Hsp
from services import random_service, read, rows, table_of
from test_sites import invoke

from lib import companion


def report(folder: Path, kind: str) -> list[list[str]]:
    """The fields of each line of a report of hsplan, below its head."""
    files = ["settings.toml", "demand.csv", "costs.csv", "capacity.csv"]
    options = [word for name in files for word in ("--" + name.split(".")[0], str(folder / name))]
    words = [os.environ["HSPLAN"], "report", *options, "--plan", str(folder / "plan.txt"), "--kind", kind]
    printed = subprocess.run(words, capture_output=True, text=True, check=True).stdout
    return [line.split() for line in printed.splitlines()[1:]]


@pytest.mark.parametrize("name", ["two-sites", "base"])
def test_csv_and_json_have_the_sums_of_the_reports(hsp: Hsp, example: Example, name: str) -> None:
    folder = example(name)
    said = json.loads(hsp("plan", str(folder), "--json").stdout)
    rows = table_of(hsp("plan", str(folder), "--csv").stdout)
    *regions, total = report(folder, "region")
    for demand, cost, region in regions:
        own = [it for it in rows if it["region"] == region]
        assert sum(int(it["queries"]) for it in own) == int(demand)
        assert {"region": region, "queries": int(demand), "cost": int(cost)} in said["regions"]
    assert total == ["total", str(said["queries"]), str(said["cost"])]
    loads = report(folder, "load")[:-1]
    assert [(it["site"], it["load"], it["capacity"], it["price"]) for it in said["servers"]] == [
        (site, int(load), int(capacity), int(price)) for _, _, load, capacity, price, site in loads
    ]
    for it in rows:
        own = [load for _, _, load, _, _, site in loads if site == it["site"]]
        assert float(it["share"]) > 0 and own


def with_capacities(service: Service, programs: Programs, changed: dict[tuple[str, int], int]) -> Any:
    capacity = capacity_file(programs, {**service.capacities, **changed})
    return programs.plan(service.inputs.but(capacity=capacity))[0]


def test_the_least_purchase_suffices_and_one_less_does_not(folder: Path) -> None:
    service, programs = read(folder, demand=str(folder / "premiere.csv"))
    bought = least_purchase(service, programs)
    assert bought and shortage(service, programs).lack == sum(bought.values()) == 270
    room = {(it.site, it.id): service.capacity(it) + more for it, more in bought.items()}
    assert with_capacities(service, programs, room).is_plan
    for key in room:
        assert not with_capacities(service, programs, {**room, key: room[key] - 1}).is_plan
    _, after = purchased(service, programs)
    assert after and after.certificate.cost == with_capacities(service, programs, room).cost


def test_costs_above_50000_have_no_least_purchase(folder: Path) -> None:
    """A twin of the dearest way has to cost more than all others, and a cost is at most 1,000,000."""
    service, programs = read(folder, demand=str(folder / "premiere.csv"))
    for dearest, is_planned in ((50_000, True), (50_001, False)):
        dear = replace(service, costs={**service.costs, ("asia", "paris"): dearest})
        assert (least_purchase(dear, programs) is not None) == is_planned


@pytest.mark.parametrize("name", ["two-sites", "base"])
def test_what_room_saves_is_what_a_plan_with_it_saves(example: Example, name: str) -> None:
    service, programs = read(example(name))
    found = with_gains(planned(service, programs), programs)
    assert found.gains
    for gain in found.gains:
        key, own = (gain.server.site, gain.server.id), service.capacity(gain.server)
        assert found.cost - with_capacities(service, programs, {key: own + 1}).cost == gain.one
        assert found.cost - with_capacities(service, programs, {key: own + gain.room}).cost == gain.all
        assert found.cost - with_capacities(service, programs, {key: BOUNDLESS}).cost == gain.all
        assert gain.one <= found.prices[gain.server.number]


def test_a_price_may_be_above_what_room_saves(example: Example) -> None:
    service, programs = read(example("base"))
    found = with_gains(planned(service, programs), programs)
    assert sorted((found.prices[it.server.number], it.one) for it in found.gains) == [(2, 0), (3, 1)]


def test_room_at_a_machine_is_what_a_plan_saves(example: Example) -> None:
    """Its price only bounds that: by the settings with a limit that is greater by one the cost is planned anew."""
    folder, programs = example("two-sites"), Programs()
    (folder / "settings.toml").write_text(text := (folder / "hosts.toml").read_text())
    service = read_service(str(folder), programs, {"demand": str(folder / "premiere.csv")})
    _, after = purchased(service, programs)
    assert after
    host = next(it for it in with_gains(planned(after, programs), programs).hosts if it.price)
    more = programs.put(text.replace(f"limit = {host.limit}\n", f"limit = {host.limit + 1}\n"), ".toml")
    wider, _ = programs.plan(after.inputs.but(settings=more))
    assert 0 < after.certificate.cost - wider.cost == host.one < host.price


def test_cheapest_sites_are_the_sum_of_the_cheapest_costs(twelve: Path) -> None:
    service, programs = read(twelve)
    reference = cheapest(service, programs)
    least = {it: min(cost for (region, _), cost in service.costs.items() if region == it) for it in service.regions}
    assert reference and reference.cost == sum(row.count * least[row.region] for row in service.rows)


def test_the_programs_beside_hsp_are_found(tmp_path: Path, example: Example) -> None:
    """Called by its path, also by a link to it, hsp needs no PATH. HSPLAN and PATH come first."""
    folder, beside, other = example("two-sites"), tmp_path / "beside", tmp_path / "other"
    beside.mkdir()
    (beside / "hsp").write_bytes(companion.archive())
    for name in ("hsplan", "hsplan-stream"):
        (beside / name).symlink_to(os.path.abspath(os.environ[name.upper().replace("-", "_")]))
    (tmp_path / "link").symlink_to(beside / "hsp")
    bare = {key: it for key, it in os.environ.items() if not key.startswith("HSPLAN")}
    for path in (beside / "hsp", tmp_path / "link"):
        words = [sys.executable, str(path), "plan", str(folder), "-o", "/dev/null"]
        done = subprocess.run(words, env={**bare, "PATH": "/nowhere"}, capture_output=True, text=True)
        assert (done.returncode, done.stderr) == (0, ""), done.stderr
        assert done.stdout.startswith("two-sites  2 sites")
    other.mkdir()
    (other / "hsplan").write_text("#!/bin/sh\necho another one >&2; exit 1\n")
    (other / "hsplan").chmod(0o755)
    for more in ({"PATH": f"{other}:/bin"}, {"PATH": "/bin", "HSPLAN": str(other / "hsplan")}):
        done = subprocess.run(words, env={**bare, **more}, capture_output=True, text=True)
        assert done.returncode == 1 and "another one" in done.stderr, done.stdout


def test_an_older_python_is_named(tmp_path: Path) -> None:
    """Ubuntu 22.04 has a new enough C library and Python 3.10."""
    file = tmp_path / "hsp"
    file.write_bytes(companion.archive())
    script = f"import sys, runpy; sys.version_info = (3, 10, 12); runpy.run_path({str(file)!r}, run_name='__main__')"
    done = subprocess.run([sys.executable, "-c", script], capture_output=True, text=True)
    assert (done.returncode, done.stderr) == (1, "hsp: this is Python 3.10, and hsp needs 3.11 or later\n")


def test_what_hsplan_refuses_later_is_a_line_and_its_status(example: Example, monkeypatch: pytest.MonkeyPatch) -> None:
    """As where its memory is out at one of the plans that follow the first."""

    def refused(*_: object) -> None:
        raise Refused(4, "OutOfMemory")

    monkeypatch.setattr("hsp.commands.plan.cheapest", refused)
    done = invoke("plan", example("two-sites"), status=4)
    assert not done.stdout and done.stderr == "hsp: hsplan refuses these files: OutOfMemory\n"


@pytest.mark.parametrize(
    "share, words",
    [
        (0, "0%"),
        (1 / 6282, "<0.1%"),
        (0.00049, "<0.1%"),
        (0.00051, "0.1%"),
        (0.001, "0.1%"),
        (0.05, "5%"),
        (0.0549, "5.5%"),
        (0.184, "18%"),
        (0.9949, "99%"),
        (0.995, "99.5%"),
        (6281 / 6282, "99.9%"),
        (1, "100%"),
        (12.5, "1,250%"),
    ],
)
def test_a_part_is_nothing_or_all_only_where_it_is(share: float, words: str) -> None:
    assert part(share) == words


@pytest.mark.parametrize("seed", range(6))
def test_a_plan_with_a_reserve_is_answered_by_its_command(hsp: Hsp, tmp_path: Path, seed: int) -> None:
    """No server and no machine takes more than what is left of its capacity or its limit."""
    service, kept = random_service(tmp_path, seed), tmp_path / "queries.csv"
    words = ["--regions", tmp_path / "networks.csv", "--into", service.folder, "--log", kept]
    invoke("demand", service.log, *words)
    line = hsp("plan", str(service.folder), "--reserve", "3").stdout.splitlines()[-1]
    assert line.startswith("answer hsplan dispatch --settings ")
    command = shlex.split(line.removeprefix("answer hsplan ").replace("/dev/stdin", shlex.quote(str(kept))))
    done = subprocess.run([program("hsplan"), *command], capture_output=True, text=True, check=True)
    assert done.stderr == "assigned 20000 spent 0 unknown 0\n"
    taken = Counter((site, int(server)) for _, site, _, server in map(str.split, done.stdout.splitlines()))
    for site, server, room in rows(service.folder / "capacity.csv"):
        assert taken[site, int(server)] <= int(room) * 97 // 100
    for address, limit in service.hosts.items():
        own = [(it.name, at) for it in service.sites for at, other in enumerate(it.addresses, 1) if other == address]
        assert sum(taken[server] for server in own) <= limit * 97 // 100


NEAR = {"near/demand.csv", "near/costs.csv", "near/plan.txt"}
LESS = {"capacity-less-reserve.csv", "settings-less-reserve.toml"}


def kept_in(folder: Path) -> set[str]:
    """The files that runs have kept beside a plan."""
    names = {str(path.relative_to(folder)) for path in folder.rglob("*") if path.is_file()}
    return names & (NEAR | LESS | {"near/mine"})


@pytest.fixture
def limited(folder: Path) -> Path:
    (folder / "settings.toml").write_bytes((folder / "hosts.toml").read_bytes())
    return folder


def test_a_plain_plan_takes_away_what_an_earlier_one_kept(hsp: Hsp, limited: Path) -> None:
    hsp("plan", str(limited))
    hsp("plan", str(limited), "--near", str(limited), "--reserve", "1")
    assert kept_in(limited) == NEAR | LESS
    for words in (["--no-save"], ["-o", f"{limited}/other.txt"]):
        hsp("plan", str(limited), *words)
        assert kept_in(limited) == NEAR | LESS, "another plan still stands by them"
    hsp("plan", str(limited), "--reserve", "1")
    assert kept_in(limited) == LESS and not (limited / "near").exists()
    hsp("plan", str(limited))
    assert kept_in(limited) == set()


def test_what_is_read_or_of_others_stays_beside_a_plain_plan(hsp: Hsp, limited: Path, tmp_path: Path) -> None:
    hsp("plan", str(limited))
    hsp("plan", str(limited), "--near", str(limited), "--reserve", "1")
    less = f"{limited}/capacity-less-reserve.csv", f"{limited}/settings-less-reserve.toml"
    hsp("plan", str(limited), "--capacity", less[0], "--settings", less[1])
    assert kept_in(limited) == LESS
    (limited / "near").mkdir()
    for name in NEAR | {"near/mine"}:
        (limited / name).write_text("mine")
    hsp("plan", str(limited))
    assert kept_in(limited) == NEAR | {"near/mine"}, "that is no folder of hsp's"
    shutil.move(limited / "near", tmp_path / "other")
    (tmp_path / "other/mine").unlink()
    (limited / "near").symlink_to(tmp_path / "other")
    (limited / "capacity-less-reserve.csv").symlink_to(limited / "capacity.csv")
    hsp("plan", str(limited))
    assert len(list((tmp_path / "other").iterdir())) == 3 and (limited / "capacity-less-reserve.csv").is_symlink()


def test_what_plans_of_hours_stand_by_is_named_as_old(hsp: Hsp, limited: Path) -> None:
    hsp("plan", str(limited), "--reserve", "1")
    (limited / "mon-h05").mkdir()
    assert "\nold " not in hsp("plan", str(limited), "--reserve", "1").stdout
    (limited / "mon-h05/plan.txt").write_text("a plan")
    files = " and ".join(f"{limited}/{name}" for name in sorted(LESS))
    last = hsp("plan", str(limited)).stdout.splitlines()[-1]
    assert last == f"old   {files}: of plans of hours, or of an earlier plan; not of this one"
    assert kept_in(limited) == LESS
