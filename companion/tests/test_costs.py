"""hsp costs: from what measuring tools write to a table of costs."""

from __future__ import annotations

import gzip
import json
import os
import shutil
import subprocess
from pathlib import Path

import pytest

from conftest import TOP, Hsp
from measuring import ask_all, haproxy, server
from services import rows

TWO = TOP / "examples" / "two-sites"


# A busy machine answers late, by about the same time whatever the delay. So a further round has longer delays.
DELAYS_OF_ROUNDS = (10, 10, 20, 40, 80)
Paid = dict[tuple[str, str], int]


def costs_in(folder: Path) -> Paid:
    return {(region, site): int(cost) for region, site, cost in rows(folder / "costs.csv")}


def bare(source: Path, folder: Path) -> Path:
    """A folder with sites, a demand and capacities, and no costs yet."""
    folder.mkdir(exist_ok=True)
    for name in ("settings.toml", "demand.csv", "capacity.csv"):
        shutil.copy(source / name, folder)
    return folder


def off_by_a_tenth(found: Paid, wanted: Paid) -> Paid:
    """The costs that are a tenth off, and those that stand in another rank than their region's others."""
    sites = list(dict.fromkeys(site for _, site in wanted))
    off = {pair: found[pair] for pair, cost in wanted.items() if abs(found[pair] - cost) > 0.1 * cost}
    for region in dict.fromkeys(region for region, _ in wanted):
        order = sorted(sites, key=lambda site: found[region, site])
        for before, after in zip(order, order[1:]):
            if wanted[region, before] > 1.1 * wanted[region, after]:
                off[region, after] = found[region, after]
    return off


def test_costs_of_a_log_of_haproxy_are_the_delays_of_its_back_ends(twelve: Path, tmp_path: Path, hsp: Hsp) -> None:
    costs = costs_in(twelve)
    regions, sites = (list(dict.fromkeys(names)) for names in zip(*costs))
    bare(twelve, tmp_path)
    networks = "".join(f"127.1.{at}.0/24,{region}\n" for at, region in enumerate(regions))
    (tmp_path / "networks.csv").write_text(f"network,region\n{networks}")
    words = ["--into", str(tmp_path), "--regions", str(tmp_path / "networks.csv")]
    own = tmp_path / "own.log"
    with haproxy(tmp_path, sites) as (port, log):
        for longer in DELAYS_OF_ROUNDS:
            wanted = {pair: longer * cost for pair, cost in costs.items()}
            asked = [
                (f"/{site}/20.500.1/a", f"127.1.{regions.index(region)}.{1 + again}", delay)
                for (region, site), delay in wanted.items()
                for again in range(3)
            ]
            before = log.stat().st_size
            ask_all(port, asked)
            own.write_bytes(b"junk\n\0\0\n" + log.read_bytes()[before:] + b"Nov 26 half a li")
            said = hsp("costs", str(own), *words).stdout
            off = off_by_a_tenth(costs_in(tmp_path), wanted)
            if not off:
                break
    assert not off
    assert f"took  {own}: {len(asked)} of HAProxy's log" in said


def assert_one_line(done: "subprocess.CompletedProcess[str]") -> None:
    """A fault is said in one line, and nothing else is."""
    assert done.stdout == "" and done.stderr.count("\n") == 1 and done.stderr.startswith("hsp: "), done


@pytest.fixture
def two(tmp_path: Path) -> Path:
    """The example of two sites without its costs."""
    return bare(TWO, tmp_path / "two")


def test_the_table_of_pings_gives_the_costs_of_the_example(two: Path, hsp: Hsp) -> None:
    said = hsp("costs", str(TWO / "pings.csv"), "--into", str(two)).stdout
    assert costs_in(two) == costs_in(TWO)
    assert (two / "hsp.toml").read_text() == 'cost = "ms"\n'
    assert "  eu    paris    12  of 5, from 9.1 to 52.1\n" in said
    again = hsp("costs", str(TWO / "pings.csv"), "--into", str(two), "--percentile", "100").stdout
    assert costs_in(two)["eu", "paris"] == 52 and "each the 100th percentile" in again


def test_a_pair_that_is_not_measured_keeps_its_cost_or_has_none(two: Path, tmp_path: Path, hsp: Hsp) -> None:
    source = tmp_path / "some.csv"
    source.write_text("region;paris;reston\neu;9,4;84,5\nus;1,234;\nmars;7;x\n")
    (two / "costs.csv").write_text("region,site,cost\nus,reston,17\n")
    (two / "hsp.toml").write_text('# mine\ntitle = "A"\ncost = "ms" # of it\n[proxy]\nx = 1\n')
    said = hsp("costs", str(source), "--into", str(two)).stdout
    assert costs_in(two) == {("eu", "paris"): 9, ("eu", "reston"): 85, ("us", "reston"): 17, ("mars", "paris"): 7}
    assert "us    reston  17  not measured: as it was before\n" in said
    assert "none  us paris, asia paris, asia reston and mars reston: the region may not use the site\n" in said
    assert "few   eu paris, eu reston and mars paris: fewer than 5 times\n" in said
    assert "other mars: no such region is in the demand\n" in said
    assert "a comma that may be a point or part thousands; first" in said and "  1  no answer; first" in said
    assert (two / "hsp.toml").read_text() == '# mine\ntitle = "A"\ncost = "ms" # of it\n[proxy]\nx = 1\n'
    (two / "hsp.toml").write_text('title = "A"\ncost = "cents"\n[proxy]\nx = 1\n')
    done = hsp("costs", str(source), "--into", str(two), status=1)
    assert_one_line(done)
    assert "costs are in 'cents' there, and these in ms" in done.stderr
    (two / "costs.csv").unlink()
    hsp("costs", str(source), "--into", str(two))
    assert (two / "hsp.toml").read_text() == 'title = "A"\ncost = "ms"\n[proxy]\nx = 1\n'


def test_what_stands_out_is_named_with_its_place(two: Path, tmp_path: Path, hsp: Hsp) -> None:
    source = tmp_path / "far.csv"
    source.write_text("region,site,ms\n" + "eu,paris,30\n" * 9 + "eu,paris,300\neu,paris,2.5\n")
    said = hsp("costs", str(source), "--into", str(two)).stdout
    assert costs_in(two) == {("eu", "paris"): 30}
    where = f"2.5 at {source}:12 and 300 at {source}:11"
    assert f"far   eu paris: 2 times of 11 beyond 10 times its median, or a tenth of it: {where}\n" in said


def test_distances_are_a_guess_for_what_is_not_measured(two: Path, tmp_path: Path, hsp: Hsp) -> None:
    places, source = tmp_path / "places.csv", tmp_path / "some.csv"
    places.write_text("name,latitude,longitude\nparis,48.86,2.35\nreston,38.96,-77.36\neu,48.86,2.35\nus,40.7,-74\n")
    source.write_text("region,site,ms\nus,paris,91\n")
    said = hsp("costs", str(source), "--by-distance", str(places), "--into", str(two)).stdout
    # Paris and Reston are 6,185 km apart, Reston and New York 345 km.
    assert costs_in(two) == {("eu", "paris"): 0, ("eu", "reston"): 62, ("us", "paris"): 91, ("us", "reston"): 3}
    assert "guess eu paris, eu reston and us reston: there and back along a great circle" in said
    for text in ("name,latitude\n", "name,latitude,longitude\nparis,91,0\n", "name,latitude,longitude\na,nan,0\n"):
        places.write_text(text)
        assert_one_line(hsp("costs", "--by-distance", str(places), "--into", str(two), status=1))


def test_results_of_ripe_atlas_are_pings_and_last_hops(two: Path, tmp_path: Path, hsp: Hsp) -> None:
    networks, source = tmp_path / "networks.csv", tmp_path / "atlas.json"
    networks.write_text("network,region\n10.1.0.0/16,eu\n")
    last = [{"from": "198.51.100.21", "rtt": 80.5}, {"from": "198.51.100.21", "rtt": 84.0}, {"x": "*"}]
    common = {"prb_id": 6001, "from": "10.1.0.9", "fw": 5080}
    traced = {**common, "type": "traceroute", "dst_addr": "198.51.100.21"}
    results = [
        {**common, "type": "ping", "dst_addr": "192.0.2.11", "result": [{"rtt": 11.9}, {"x": "*"}, {"rtt": 12.2}]},
        {**traced, "result": [{"hop": 1, "result": [{"from": "10.1.0.1", "rtt": 0.4}]}, {"hop": 2, "result": last}]},
        {**traced, "result": [{"hop": 255, "result": [{"x": "*"}]}]},
        {**common, "type": "dns", "result": {"rt": 3}},
    ]
    for text in (json.dumps(results, indent=1), "".join(f"{json.dumps(it)}\n" for it in results)):
        source.write_text(text)
        said = hsp("costs", str(source), "--regions", str(networks), "--into", str(two)).stdout
        assert costs_in(two) == {("eu", "paris"): 12, ("eu", "reston"): 81}
        assert f"took  {source}: 4 of RIPE Atlas\n" in said
        assert "  1  a traceroute that didn't come to its end; first" in said


@pytest.mark.skipif(not shutil.which("fping"), reason="fping is not installed")
@pytest.mark.parametrize("words", ["-C 3 -q", "-c 3", "-q -c 3", "", "-D -c 3", "-n -C 3"])
def test_what_fping_prints_is_of_the_pinged(words: str, two: Path, tmp_path: Path, hsp: Hsp) -> None:
    source = tmp_path / "fping.txt"
    with open(source, "wb") as file:
        file.write(b"junk\n")
        command = ["fping", "-p", "20", *words.split(), "127.0.0.1", "127.0.0.2"]
        subprocess.run(command, stdout=file, stderr=file, env={**os.environ, "LC_ALL": "de_DE.UTF-8"})
    if words == "":
        source.write_text("127.0.0.1 is alive (0.04 ms)\n127.0.0.2 is alive (700 ms)\n192.0.2.9 is unreachable\n")
    sites = ["--site", "127.0.0.1=paris", "--site", "127.0.0.2=reston", "--site", "localhost=paris"]
    hsp("costs", f"eu={source}", *sites, "--into", str(two))
    assert set(costs_in(two)) == {("eu", "paris"), ("eu", "reston")}
    networks = tmp_path / "networks.csv"
    networks.write_text("network,region\n127.0.0.1/32,us\n127.0.0.2/32,asia\n")
    (two / "costs.csv").unlink()
    hsp("costs", f":paris={source}", "--regions", str(networks), "--into", str(two))
    assert set(costs_in(two)) == {("us", "paris"), ("asia", "paris")} or words == "-n -C 3"


@pytest.mark.skipif(not shutil.which("rrdtool"), reason="rrdtool is not installed")
def test_what_smokeping_keeps_is_fetched_by_rrdtool(two: Path, tmp_path: Path, hsp: Hsp) -> None:
    file, begin = str(tmp_path / "paris.rrd"), 1796110000
    names = [f"ping{at}" for at in range(1, 6)]
    sources = [f"DS:{name}:GAUGE:600:0:180" for name in ("uptime", "loss", "median", *names)]
    subprocess.run(
        ["rrdtool", "create", file, "--start", str(begin), "--step", "300", *sources, "RRA:AVERAGE:0.5:1:99"]
    )
    rows_ = [f"{begin + 300 * at}:U:1:0.0123:0.0121:0.0122:0.0124:0.0126:U" for at in range(1, 9)]
    subprocess.run(["rrdtool", "update", file, *rows_])
    words = ["rrdtool", "fetch", file, "AVERAGE", "--start", str(begin), "--end", str(begin + 9000)]
    text = subprocess.run(words, capture_output=True, text=True).stdout
    for said in (text, text.replace(".", ",")):  # as in a locale with a comma
        (tmp_path / "paris.txt").write_text(said)
        hsp("costs", f"eu:paris={tmp_path}/paris.txt", "--into", str(two))
        assert costs_in(two) == {("eu", "paris"): 12}


@pytest.mark.skipif(not shutil.which("apache2") or not shutil.which("nginx"), reason="no apache2 or nginx")
def test_logs_of_apache_and_nginx_have_the_time_behind_the_request(two: Path, tmp_path: Path, hsp: Hsp) -> None:
    networks = tmp_path / "networks.csv"
    networks.write_text("network,region\n127.1.0.0/16,eu\n127.2.0.0/16,us\n")
    asked = [("/20.500.1/a", "127.1.0.1", 150.0), ("/20.500.1/%22b", "127.2.0.1", 450.0)] * 5
    for name, logs, site in (("apache", ["access.log"], ":reston="), ("nginx", ["access.log", "access.json"], "")):
        folder = tmp_path / name
        folder.mkdir()
        with server(name, folder) as (port, behind):
            ask_all(port, asked)
        for log in logs:
            with open(folder / log, "ab") as file:
                file.write(b'junk\n127.1.0.1 - - [x] "GET / HTTP/1.1" 503 0 "-" "-" 9999999\n')
            own = bare(TWO, tmp_path / f"{name}-{log}")
            words = ["--site", f"127.0.0.1:{behind}=reston"] if not site else []
            hsp("costs", f"{site}{folder / log}", *words, "--regions", str(networks), "--into", str(own))
            found = costs_in(own)
            assert 150 <= found["eu", "reston"] < 400 and 450 <= found["us", "reston"] < 700, found


HOSTILE = {
    "empty": b"",
    "nul": b"\0" * 99_999,
    "long": b"x" * 10_000_000,
    "bomb": b"[" * 200_000,
    "keys": b'{"a":' * 200_000,
    "deep": b'[{"prb_id":1,"type":"ping","result":' + b"[" * 900 + b"]" * 900 + b"}]",
    "digits": b'[{"prb_id":1,"type":"ping","result":[{"rtt":' + b"9" * 5000 + b"}]}]",
    "odd": b'[{"prb_id":1,"from":7,"dst_addr":[1],"type":"ping","result":[{"rtt":1e400},{"rtt":{"a":1}},5,null]}]',
    "infinite": b"region,site,milliseconds\neu,paris," + b"9" * 400 + b"\neu,paris,1e999\neu,paris,1e99\n",
    "quotes": b'region,site,ms\neu,"paris\n"x,1\n',
    "signs": b"region,site,ms\neu,\x1b[31mred,1\n\xff\xfe,paris,1\n",
    "utf-16": "region,site,ms\neu,paris,1\n".encode("utf-16"),
    "cut.gz": gzip.compress(b"region,site,ms\n" + b"eu,paris,12\n" * 99_999)[:-20],
    "regions": b"region,site,ms\n" + b"".join(b"r%d,paris,1\n" % at for at in range(70)),
}


@pytest.mark.parametrize("name", HOSTILE)
def test_a_hostile_source_is_refused_in_one_line(name: str, two: Path, tmp_path: Path, hsp: Hsp) -> None:
    (tmp_path / name).write_bytes(HOSTILE[name])
    done = hsp("costs", str(tmp_path / name), "--into", str(two), status=1)
    assert_one_line(done)
    assert not (two / "costs.csv").exists() and "\x1b" not in done.stderr


def test_what_is_no_source_is_refused(two: Path, tmp_path: Path, hsp: Hsp) -> None:
    os.mkfifo(tmp_path / "pipe")
    (tmp_path / "loop").symlink_to(tmp_path / "loop")
    for name, status in (("pipe", 1), ("loop", 5), ("absent", 5), ("", 1)):
        assert_one_line(hsp("costs", str(tmp_path / name), "--into", str(two), status=status))
    good = str(TWO / "pings.csv")
    for words in (["mars:vienna=" + good], [good, "--site", "a=vienna"], [good, "--percentile", "0"], [], [""]):
        assert "Error: " in hsp("costs", *words, "--into", str(two), status=2).stderr
    (two / "costs.csv").write_text("region,site,cost\neu,paris,1,2\n")
    assert_one_line(hsp("costs", good, "--into", str(two), status=1))
    (two / "settings.toml").write_text("")
    assert "no site; hsp sites FILE.. --into" in hsp("costs", good, "--into", str(two), status=1).stderr
