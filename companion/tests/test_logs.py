"""Demands that no table holds: planned by prices, against tables of the same rows and against hsplan-stream."""

import csv
import io
import json
import os
import random
import re
import subprocess
from collections import Counter
from fractions import Fraction
from pathlib import Path

import pytest

from hsp.base.programs import Inputs, Prices, Programs, program
from hsp.base.unfit import Unfit
from hsp.plans.counted import counted_in, grown, is_log, rows_of
from hsp.plans.joined import joined
from hsp.plans.plans import cheapest, least_purchase, planned, shortage, with_gains, with_purchase
from hsp.plans.whatif import Changes, standard

from conftest import Example, Hsp
from test_sites import invoke
from services import Place, random_service, read, rows, table_of, written

HEAD = "region,handle,count\n"
SIZES = (7, 8, 9, 11, 5)


@pytest.fixture
def small(monkeypatch: pytest.MonkeyPatch) -> None:
    """A table holds two rows, so that any demand of a test is a log."""
    monkeypatch.setattr("hsp.plans.counted.MOST_DEMAND_ROWS", 2)


def stream(*words: object) -> str:
    done = subprocess.run([program("hsplan-stream"), *map(str, words)], capture_output=True, text=True, check=True)
    return done.stdout


def priced(folder: Path, name: str = "plan.txt") -> list[str]:
    """The words of a folder's sites and certificate."""
    files = [word for it in ("settings.toml", "costs.csv", "capacity.csv") for word in (it.split(".")[0], it)]
    words = [f"--{word}" if at % 2 == 0 else str(folder / word) for at, word in enumerate(files)]
    return [*words, "--prices", str(folder / name)]


def many(folder: Path, rows: int = 8_300, room: float = 4.0) -> Path:
    """A service of five sites whose handles have nearly all kinds of their own, and fewer queries than their number
    needs kinds: 7 * 8 * 9 * 11 by whole handle, times 5 by local name."""
    draw = random.Random(5)
    sites = [Place(f"s{at}", 1 if at == 4 else 2, ["192.0.2.1"] * size) for at, size in enumerate(SIZES)]
    counts = [draw.randint(1, 3) for _ in range(rows)]
    regions = ("eu", "us")
    table = "".join(f"{regions[at % 2]},20.{at}/item-{at},{count}\n" for at, count in enumerate(counts))
    capacity = int(room * sum(counts) / sum(SIZES)) + 1
    return written(
        folder,
        settings="".join(it.block() for it in sites),
        demand=table,
        costs="".join(f"{region},{it.name},{draw.randint(5, 90)}\n" for region in regions for it in sites),
        capacity="".join(f"{it.name},{at},{capacity}\n" for it in sites for at in range(1, len(it.addresses) + 1)),
    )


@pytest.fixture(scope="module")
def wide(tmp_path_factory: pytest.TempPathFactory) -> Path:
    return many(tmp_path_factory.mktemp("wide") / "s")


@pytest.mark.parametrize(
    "text, wanted",
    [
        (HEAD + "eu,20.1/a,1\n" * 8_192, False),
        (HEAD + "eu,20.1/a,1\n" * 8_193, True),
        (HEAD + "eu,20.1/a,1\n\n" * 8_192, False),
        ("\ufeff" + HEAD + 'eu,"20.1/a\nb",1\r\n' * 8_192, False),
        (HEAD + "eu,20.1/a,1000000\n", False),
        (HEAD + "eu,20.1/a,1000001\n", True),
        (HEAD + "eu,20.1/a,1000000000000\n", True),
        (HEAD + "eu,20.1/a,1000000000001\n", False),
        (HEAD + "eu,20.1/a,1e9\neu,20.1/a,-1000001\neu,20.1/b,1000001,\n", False),
        ("region,handle\n" + "eu,20.1/a\n" * 9_000, False),
        ("", False),
    ],
)
def test_a_log_has_more_rows_or_greater_counts_than_a_table(tmp_path: Path, text: str, wanted: bool) -> None:
    path = tmp_path / "demand.csv"
    path.write_bytes(text.encode())
    assert is_log(str(path)) == wanted
    assert not is_log(str(tmp_path / "absent.csv")) and not is_log(str(tmp_path))


def odd_log(draw: random.Random) -> tuple[bytes, list[list[str]]]:
    """A log with quotes, other line ends and empty lines, and its rows."""
    handles = ["20.1/a", '20.1/a,"b"', "20.1/é ", '20.1/b"c', "20.1/d,e", '"20.1"/f']
    rows = [[draw.choice(("eu", "us", "a-1")), draw.choice(handles), str(draw.randint(0, 10**12))] for _ in range(60)]
    text = "\ufeff" * draw.randint(0, 1) + HEAD
    for row in rows:
        room = io.StringIO()
        quoting = draw.choice((csv.QUOTE_MINIMAL, csv.QUOTE_ALL))
        csv.writer(room, lineterminator=draw.choice(("\n", "\r\n", "\r", "\n\n")), quoting=quoting).writerow(row)
        text += room.getvalue()
    return (text if draw.random() < 0.5 else text.rstrip("\r\n")).encode(), rows


@pytest.mark.parametrize("seed", range(20))
def test_a_log_is_read_as_python_reads_it(tmp_path: Path, monkeypatch: pytest.MonkeyPatch, seed: int) -> None:
    """In blocks of any size: row by row, and its sums."""
    draw = random.Random(seed)
    monkeypatch.setattr("hsp.plans.counted.BLOCK", draw.choice((1, 7, 64, 1 << 20)))
    octets, rows = odd_log(draw)
    path = tmp_path / "log.csv"
    path.write_bytes(octets)
    found = [row for part in rows_of(str(path)) for row in part]
    assert [[it.region.decode(), next(csv.reader([it.handle.decode()]))[0], str(it.queries)] for it in found] == [*rows]
    sums: Counter[str] = Counter()
    for region, _, count in rows:
        sums[region] += int(count)
    assert counted_in(str(path)).rows == len(rows) and counted_in(str(path)).regions == sums
    more = list(csv.reader(io.StringIO(b"".join(grown(str(path), Fraction(11, 10))).decode(), newline="")))[1:]
    assert [it[:2] for it in more] == [it[:2] for it in rows]
    before = after = 0
    for it, own in zip(more, rows):
        before, after = before + int(own[2]), after + int(it[2])
        assert 10 * after - 9 <= 11 * before <= 10 * after


@pytest.mark.parametrize("end", ["\n", "\r", "\r\n"])
def test_a_handle_with_a_line_end_is_refused(tmp_path: Path, end: str) -> None:
    path = tmp_path / "log.csv"
    path.write_bytes(f'{HEAD}eu,20.1/a,1\neu,"20.1/b{end}c",2\n'.encode())
    with pytest.raises(Unfit, match="a row of more than one line, as 'eu,\"20.1/b'"):
        counted_in(str(path))


def test_a_plan_has_the_sums_of_the_reports(hsp: Hsp, wide: Path) -> None:
    """Of 8,300 rows, which no table holds."""
    said = json.loads(hsp("plan", str(wide), "--json").stdout)
    words = [*priced(wide), "--log", str(wide / "demand.csv")]
    assert stream("check", *words) == "yes\n"
    loads = [it.split() for it in stream("report", *words, "--kind", "load").splitlines()[1:-1]]
    assert [(it["site"], it["server_id"], it["load"], it["price"]) for it in said["servers"]] == [
        (site, int(server), int(load), int(price)) for _, server, load, _, price, site in loads
    ]
    regions = [it.split() for it in stream("report", *words, "--kind", "region").splitlines()[1:]]
    wanted = [{"region": name, "queries": int(asked), "cost": int(cost)} for asked, cost, name in regions[:-1]]
    assert said["regions"] == wanted
    assert regions[-1] == ["total", str(said["queries"]), str(said["cost"])]
    assert said["rows_are"] == "log"
    rows = table_of(hsp("plan", str(wide), "--csv", "--no-save").stdout)
    for asked, _, name in regions[:-1]:
        assert sum(int(it["queries"]) for it in rows if it["region"] == name) == int(asked)
    for site in {it[-1] for it in loads}:
        own = sum(int(it["queries"]) for it in rows if it["site"] == site)
        assert own == sum(int(load) for _, _, load, _, _, name in loads if name == site)


def test_the_lines_of_a_plan(hsp: Hsp, wide: Path) -> None:
    lines = hsp("plan", str(wide)).stdout.splitlines()
    assert lines[0].startswith("s  5 sites, 40 servers, 2 regions, 8,300 rows, ")
    assert lines[-2] == f"check yes: no plan within these capacities costs less; kept in {wide}/plan.txt"
    words = " ".join(["hsplan-stream answer", *priced(wide), "--log /dev/stdin"])
    assert lines[-1] == f"answer {words}"
    assert (wide / "plan.txt").read_text().startswith("HSPLAN PRICES 1\nPLAN\n")


def numbers(folder: Path) -> list[object]:
    """What doesn't depend on which of the cheapest plans is printed."""
    service, programs = read(folder)
    found: list[object] = [service.certificate.is_plan, service.asked, service.regions]
    if not service.certificate.is_plan:
        bought = least_purchase(service, programs)
        after = with_purchase(service, programs, bought) if bought else None
        return [*found, sum(bought.values()) if bought else None, after.certificate.cost if after else None]
    plan, reference = planned(service, programs), cheapest(service, programs)
    assert programs.verdict(service.inputs, service.plan_file) == "yes"
    gains = sorted((it.server.number, it.one, it.all) for it in with_gains(plan, programs).gains if it.all)
    cases = [(it.variant, it.what, it.cost) for it in standard(Changes(service, programs), 10)]
    cases = [case for case in cases if case[0] == "lost"]
    return [*found, plan.cost, plan.leads, reference and reference.cost, gains, sorted(cases, key=str)]


@pytest.mark.parametrize("seed", range(4))
def test_a_log_is_planned_as_the_table_of_its_rows(tmp_path: Path, monkeypatch: pytest.MonkeyPatch, seed: int) -> None:
    """By both programs: the cost, what room saves, lost sites, the least purchase. Some services have a shortage."""
    service = random_service(tmp_path, seed, 60, 0.75 if seed else 0.4)
    invoke("demand", service.log, "--regions", tmp_path / "networks.csv", "--into", service.folder)
    as_table = numbers(service.folder)
    monkeypatch.setattr("hsp.plans.counted.MOST_DEMAND_ROWS", 2)
    monkeypatch.setattr("hsp.plans.joined.MOST_KINDS", 1 << 18 if seed % 2 else 5)
    assert read(service.folder)[0].log
    assert numbers(service.folder) == as_table


def test_a_shorter_log_has_a_row_for_each_kind(tmp_path: Path, small: None) -> None:
    """With the handle of the kind's first row, and the sum of all."""
    service = random_service(tmp_path, 3, 300)
    invoke("demand", service.log, "--regions", tmp_path / "networks.csv", "--into", service.folder)
    own, programs = read(service.folder)
    asked = rows(Path(own.inputs.demand))
    places = programs.places(own.inputs, dict.fromkeys(handle for _, handle, _ in asked))
    kinds: dict[tuple[object, ...], tuple[str, str, int]] = {}
    for region, handle, count in asked:
        kind = region, *(places[handle, site.name] for site in own.sites)
        first = kinds.get(kind, (region, handle, 0))
        kinds[kind] = (*first[:2], first[2] + int(count))
    shorter = joined(own, programs).demand
    assert shorter != own.inputs.demand and len(kinds) < len(asked)
    assert rows(Path(shorter)) == [[region, handle, str(count)] for region, handle, count in kinds.values()]
    assert joined(own, programs).demand == shorter


def test_sums_that_differ_are_no_plan(example: Example, small: None, monkeypatch: pytest.MonkeyPatch) -> None:
    """What is added up here has to be what hsplan-stream reports."""
    service, programs = read(example("two-sites"))
    assert planned(service, programs).loads
    classes = [it._replace(amounts=dict(list(it.amounts.items())[:1])) for it in planned(service, programs).classes]
    monkeypatch.setattr("hsp.plans.plans.classes_of", lambda *_: classes)
    with pytest.raises(Exception, match="differ from hsplan's report of loads"):
        planned(service, programs)


def test_a_shortage_names_its_servers_and_regions(folder: Path, small: None, hsp: Hsp) -> None:
    """The film of premiere.csv lacks room for 270 queries at the two servers that it may use."""
    words = [str(folder), "--demand", str(folder / "premiere.csv")]
    done = hsp("plan", *words, status=3).stdout.splitlines()
    assert done[1] == (
        "short 270 queries can't be served, whatever the plan: 3,240 may only go to servers that take 2,970"
    )
    service, programs = read(folder, demand=str(folder / "premiere.csv"))
    short = shortage(service, programs)
    assert [it.label for it in short.servers] == ["paris 2", "reston 2"] and short.lack == 270
    # The rows of the shortage that hsplan reports of the table: 1,605 of eu, 988 of us, 647 and more of asia.
    table = {"eu": 475 + 134 + 376 + 157, "us": 463 + 103 + 432 + 150, "asia": 274 + 124 + 488 + 64}
    assert short.regions == table and sum(table.values()) == 3240
    assert "who   rows of 3 regions: us (1,148), eu (1,142) and asia (950)" in done
    assert "where paris 2 (1,510) and reston 2 (1,460) are all that these may use; room elsewhere doesn't help" in done
    assert json.loads(hsp("plan", *words, "--json", status=3).stdout)["lack"] == 270
    purchase = json.loads(hsp("plan", *words, "--json", status=3).stdout)["least_purchase"]
    assert sum(it["more"] for it in purchase) == 270


def test_a_region_without_costs_is_a_shortage(folder: Path, small: None, hsp: Hsp) -> None:
    costs = folder / "costs.csv"
    costs.write_text("".join(it for it in costs.read_text().splitlines(True) if not it.startswith("asia")))
    said = hsp("plan", str(folder), status=3).stdout
    assert "why   asia has no cost for any site, so no site may serve them" in said
    found = hsp("doctor", str(folder)).stdout
    assert "region 'asia' has no cost for any site" in found and "so the plan is a shortage" in found


def test_where_a_handle_goes_is_what_is_answered(hsp: Hsp, wide: Path) -> None:
    hsp("plan", str(wide))
    draw = random.Random(1)
    pairs = [(draw.choice(("eu", "us")), f"20.{draw.randrange(9_000)}/x-{at}") for at in range(6)]
    log = wide / "asked.csv"
    service, programs = read(wide)
    certificate = service.certificate
    assert isinstance(certificate, Prices)
    for region, handle in pairs:
        log.write_text(f"region,handle\n{region},{handle}\n")
        answer = stream("answer", *priced(wide), "--log", log).strip()
        said = json.loads(hsp("where", str(wide), region, handle, "--json").stdout)
        assert said["answer"] == answer
        pays = [it["cost"] + it["price"] for it in said["servers"]]
        assert pays == sorted(pays) and len(pays) == len(SIZES)
        _, site, _, server = answer.split()
        own = next(it for it in said["servers"] if (it["site"], str(it["server_id"])) == (site, server))
        assert own["cost"] + own["price"] == pays[0]
        least = [it for it in said["servers"] if it["cost"] + it["price"] == pays[0]]
        numbers = {(it.site, it.id): it.number for it in service.servers}
        amounts = {numbers[it["site"], it["server_id"]]: it["queries"] for it in least}
        if len(least) > 1 and None not in amounts.values():
            assert any(it.region == region and it.amounts == amounts for it in certificate.classes)


def test_where_of_a_table_is_what_its_row_says(hsp: Hsp, example: Example) -> None:
    """dataset-23 of eu is split, 4 to paris 2 and 213 to reston 1, as the guide's plan has it."""
    folder = str(example("two-sites"))
    assert hsp("where", folder, "eu", "20.500.1234/dataset-23").stdout.splitlines() == [
        "20.500.1234/dataset-23 from eu  goes to paris 2 or reston 1",
        "  paris 2   pays 84: cost 12 and its price 72; 2% of such queries",
        "  reston 1  pays 84: cost 84; 98% of such queries",
    ]
    assert hsp("where", folder, "eu", "film", status=1).stdout == "film from eu  refused BadHandle NoSlash\n"
    why = f"  why  {folder}/costs.csv has no cost of mars at any site\n"
    assert hsp("where", folder, "mars", "20.1/a", status=1).stdout == f"20.1/a from mars  unknown\n{why}"
    bare = hsp("where", folder, "eu", "20.500.1234/film-5").stdout
    for before in ("hdl:", "doi:", "https://hdl.handle.net/", "http://a/api/handles/"):
        assert hsp("where", folder, "eu", f"{before}20.500.1234%2Ffilm%2D5?noredirect").stdout == bare
    short = ("where", folder, "eu", "20.500.1234/film-5")
    capacity = Path(folder) / "capacity.csv"
    capacity.write_text(re.sub(r",[0-9]+\n", ",1\n", capacity.read_text()))
    assert "there is no plan: hsp plan" in hsp(*short, status=3).stderr


def test_where_says_which_file_lacks_what(hsp: Hsp, folder: Path) -> None:
    demand, costs = (folder / name for name in ("demand.csv", "costs.csv"))
    demand.write_text("region,handle,count\nus,20.500.1234/film-5,3\nus,20.500.1234/film-6,0\n")
    for region, handle, answer, why in [
        ("US", "20.500.1234/film-5", "unknown", f"{costs} has no cost of US at any site; did you mean us?"),
        ("us", "20.500.1234/film-6", "spent", f"{demand} counts 0 queries for it"),
        ("us", "film", "refused BadHandle NoSlash", None),
    ]:
        lines = hsp("where", str(folder), region, handle, status=1).stdout.splitlines()
        assert lines[0] == f"{handle} from {region}  {answer}"
        assert [line for line in lines if line.startswith("  why")] == ([f"  why  {why}"] if why else [])
        said = json.loads(hsp("where", str(folder), region, handle, "--json", status=1).stdout)
        assert (said["answer"], said["why"]) == (answer, why)
    assert json.loads(hsp("where", str(folder), "us", "20.500.1234/film-5", "--json").stdout)["why"] is None


def test_where_of_a_handle_that_a_table_lacks_is_by_prices(hsp: Hsp, folder: Path) -> None:
    said = json.loads(hsp("where", str(folder), "eu", "20.500.1234/dataset-24", "--json").stdout)
    assert said["why"] == f"{folder}/demand.csv has no row of it, so this is by prices of the same demand"
    (folder / "own.prices").write_text(stream("plan", *priced(folder)[:-2], "--log", folder / "demand.csv"))
    (folder / "asked.csv").write_text("region,handle\neu,20.500.1234/dataset-24\n")
    assert said["answer"] == stream("answer", *priced(folder, "own.prices"), "--log", folder / "asked.csv").strip()


def test_a_changed_capacity_makes_a_plan_old(hsp: Hsp, wide: Path, tmp_path: Path) -> None:
    folder = many(tmp_path / "s")
    hsp("plan", str(folder))
    assert "warning" not in hsp("doctor", str(folder)).stdout
    costs = folder / "costs.csv"
    costs.write_text(re.sub(r"(,s[0-9]+,)", r"\g<1>1", costs.read_text()))
    os.utime(folder / "plan.txt", (1, 1))
    said = hsp("doctor", str(folder)).stdout
    assert "the plan is older than settings.toml, demand.csv, costs.csv and capacity.csv" in said.splitlines()[0]
    assert f"  do   hsp plan {folder}" in said


def test_faults_of_a_log_are_shown_with_their_places(hsp: Hsp, tmp_path: Path) -> None:
    """Behind the rows that a table has, too."""
    folder = many(tmp_path / "s")
    demand = folder / "demand.csv"
    lines = demand.read_text().splitlines()
    lines[4] = lines[4].replace("/", "_")
    lines[8_250] = "eu,20.1/x,many"
    demand.write_text("\n".join(lines) + "\n")
    found = json.loads(hsp("doctor", str(folder), "--json", status=1).stdout)
    assert [(it["line"], it["hsplan"]) for it in found] == [
        (5, "log: BadHandle row 3 NoSlash"),
        (8_251, "log: BadNumber row 8249"),
    ]
    assert hsp("plan", str(folder), status=1).stderr.count("error") == 2


def fronts(folder: Path) -> list[Path]:
    """The logs of two fronts, with handles of which most are in no demand."""
    logs = [folder / f"front-{front}.csv" for front in range(2)]
    for front, log in enumerate(logs):
        log.write_text("region,handle\n" + "".join(f"eu,20.{at}/y-{at}\n" for at in range(front, 400, 2)))
    return logs


def answers(folder: Path, name: str, log: Path, front: int) -> str:
    """What one run of hsplan-stream answers to a front of two."""
    return stream("answer", *priced(folder, name), "--fronts", 2, "--front", front, "--log", log)


def test_fronts_answer_by_prices(hsp: Hsp, wide: Path, tmp_path: Path) -> None:
    """As one run of hsplan-stream answer for each front."""
    hsp("plan", str(wide))
    logs = fronts(tmp_path)
    words = ["fleet", "dispatch", str(wide), "--fronts", "2", "--workers", "1"]
    said = hsp(*words, *(f"{front}={log}" for front, log in enumerate(logs))).stdout
    assert said.startswith("400 rows: 400 assigned; answers in ")
    for front, log in enumerate(logs):
        assert (tmp_path / f"front-{front}.csv.answers").read_text() == answers(wide, "plan.txt", log, front)


def test_a_table_is_answered_by_prices_where_its_certificate_is_one(hsp: Hsp, example: Example, tmp_path: Path) -> None:
    """Of each front, and of one log of both fronts."""
    folder, logs = example("two-sites"), fronts(tmp_path)
    words = ["fleet", "dispatch", str(folder), "--plan", str(folder / "plan.prices"), "--fronts", "2", "--workers", "1"]
    said = hsp(*words, *(f"{front}={log}" for front, log in enumerate(logs))).stdout
    assert said.startswith("400 rows: 400 assigned; answers in ")
    wanted = [answers(folder, "plan.prices", log, front) for front, log in enumerate(logs)]
    assert [(tmp_path / f"front-{front}.csv.answers").read_text() for front in range(2)] == wanted
    rows = zip(*(log.read_text().splitlines()[1:] for log in logs), strict=True)
    whole = tmp_path / "all.csv"
    whole.write_text("front,region,handle\n" + "".join(f"0,{one}\n1,{other}\n" for one, other in rows))
    hsp(*words, str(whole))
    in_turn = zip(*(text.splitlines(keepends=True) for text in wanted), strict=True)
    assert (tmp_path / "all.csv.answers").read_text() == "".join(map("".join, in_turn))


def test_a_program_without_the_command_is_named(
    example: Example, small: None, monkeypatch: pytest.MonkeyPatch, tmp_path: Path, hsp: Hsp
) -> None:
    """An older hsplan-stream refuses the words."""
    other = tmp_path / "hsplan-stream"
    other.write_text("#!/bin/sh\necho 'hsplan-stream: Usage' >&2; exit 2\n")
    other.chmod(0o755)
    monkeypatch.setenv("HSPLAN_STREAM", str(other))
    with pytest.raises(Exception, match="Usage"):
        Programs().plan(Inputs("a", "b", "c", "d", is_log=True))
