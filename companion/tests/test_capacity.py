"""hsp capacity: from numbers, load tests and logs to a table of capacities."""

import datetime
import json
import random
import re
import shutil
import subprocess
from pathlib import Path

import pytest

from conftest import TOP, Hsp
from measuring import server
from services import rows

TWO = TOP / "examples" / "two-sites"


def assert_one_line(done: "subprocess.CompletedProcess[str]", words: str = "") -> None:
    assert done.stdout == "" and done.stderr.count("\n") == 1 and words in done.stderr, done


def taken(folder: Path) -> dict[str, int]:
    return {f"{site} {own}": int(room) for site, own, room in rows(folder / "capacity.csv")}


@pytest.fixture
def two(tmp_path: Path) -> Path:
    folder = tmp_path / "two"
    folder.mkdir()
    for name in ("settings.toml", "demand.csv", "costs.csv", "capacity.csv"):
        shutil.copy(TWO / name, folder)
    return folder


def test_numbers_are_of_all_servers_of_a_site_or_of_one(two: Path, hsp: Hsp) -> None:
    said = hsp("capacity", "paris=1600", "reston,2=99", "reston,*=7", "--into", str(two)).stdout
    assert taken(two) == {"paris 1": 1600, "paris 2": 1600, "reston 1": 7, "reston 2": 99, "reston 3": 7}
    assert re.search(r"  paris 2  +1,510  +1,600  +\+90  said by paris\n", said)
    hsp("capacity", "*=5", "paris:2=6", "--into", str(two))
    assert taken(two) == {"paris 1": 5, "paris 2": 6, "reston 1": 5, "reston 2": 5, "reston 3": 5}


def test_a_rate_is_turned_into_the_time_of_the_demand(two: Path, hsp: Hsp) -> None:
    done = hsp("capacity", "paris=1.5", "--per", "second", "--into", str(two), status=1)
    assert_one_line(done, "give --seconds N, or count the logs by hsp demand LOG.. --into")
    hsp("capacity", "paris=1.5", "--per", "second", "--seconds", "3600", "--into", str(two))
    assert taken(two)["paris 1"] == 5400
    assert "seconds = 3600\n" in (two / "hsp.toml").read_text()
    assert hsp("doctor", str(two), "--strict").stdout.startswith("no fault")
    said = hsp("capacity", "paris=90", "--per", "minute", "--into", str(two)).stdout
    assert taken(two)["paris 2"] == 5400 and said.startswith("queries that a server takes in 1 hour\n")
    table = two.parent / "rooms.csv"
    table.write_text("site,server_id,capacity\nreston,*,2\n\nreston,3,0.0011\n")
    said = hsp("capacity", str(table), "--per", "second", "--into", str(two)).stdout
    assert taken(two) == {"paris 1": 5400, "paris 2": 5400, "reston 1": 7200, "reston 2": 7200, "reston 3": 3}
    (two / "hsp.toml").write_text("seconds = 0\n")
    assert_one_line(hsp("capacity", "paris=1", "--into", str(two), status=1), "seconds isn't a whole number from 1")


WRK = """Running 30s test @ http://127.0.0.1:8080/
  12 threads and 400 connections
  Thread Stats   Avg      Stdev     Max   +/- Stdev
    Latency     2.53ms    2.08ms  15.12ms   82.99%
    Req/Sec     2.28k   481.94     3.42k    65.85%
  Latency Distribution
     50%    1.75ms
     75%    3.25ms
     90%    5.60ms
     99%    9.80ms
  9306 requests in 2.10s, 1.93MB read
Requests/sec:   {rate}
Transfer/sec:      0.92MB
"""
TIMES = {"total": 1, "mean": 2e6, "50th": 1e6, "90th": 4e6, "95th": 6e6, "99th": 9e6, "max": 2e7, "min": 1e5}
VEGETA = {"latencies": TIMES, "duration": 1, "requests": 100, "rate": 55.5, "throughput": 50.25, "success": 1}
VEGETA["status_codes"] = {"200": 100}


def test_of_load_tests_the_highest_rate_within_the_time_counts(two: Path, tmp_path: Path, hsp: Hsp) -> None:
    for name, rate in (("slow", "100.00"), ("fast", "440.00"), ("more", "300.00")):
        (tmp_path / name).write_text(WRK.format(rate=rate))
    late = WRK.format(rate="900.00").replace("9.80ms", "1.20s")
    bad = WRK.format(rate="800.00") + "  Non-2xx or 3xx responses: 900\n"
    (tmp_path / "late").write_text(late.replace("15.12ms", "2.00s").replace("2.08ms", "9.00s"))
    (tmp_path / "bad").write_text(bad)
    (tmp_path / "vegeta.json").write_text(json.dumps(VEGETA))
    files = [f"paris,1={tmp_path / name}" for name in ("slow", "fast", "more", "late", "bad")]
    more = [f"paris,2={tmp_path}/late", f"reston,3={tmp_path}/vegeta.json", "reston,1=12"]
    words = ["--into", str(two), "--seconds", "60"]
    assert "a load test needs --below MS" in hsp("capacity", *files, *words, status=2).stderr
    said = hsp("capacity", *files, *more, "--below", "10", *words).stdout
    assert taken(two) == {"paris 1": 26400, "paris 2": 1510, "reston 1": 12, "reston 2": 1460, "reston 3": 3015}
    assert f"99% below 10 ms at 440 a second, {tmp_path}/fast\n" in said
    assert f"only 90% are known to be below 10 ms at 900 a second, {tmp_path}/late\n" in said
    hsp("capacity", *files, "--below", "6", "--share", "90", *words)
    assert taken(two)["paris 1"] == 54000  # the late one too had 90% below 6 ms
    said = hsp("capacity", str(tmp_path / "slow"), "--below", "1", *words, status=2).stderr
    assert "names no server: write SITE,ID=" in said


@pytest.mark.skipif(not all(map(shutil.which, ("wrk", "h2load", "nginx"))), reason="no wrk, h2load or nginx")
def test_what_wrk_and_h2load_print_is_read(two: Path, tmp_path: Path, hsp: Hsp) -> None:
    with server("nginx", tmp_path) as (port, _):
        for name, words in (
            ("wrk.txt", ["wrk", "-t1", "-c4", "-d1", "--latency"]),
            ("lost.txt", ["wrk", "-t1", "-c4", "-d1"]),
            ("h2.txt", ["h2load", "--h1", "-n300", "-c4", f"--log-file={tmp_path}/h2.log"]),
        ):
            path = "nowhere" if name == "lost.txt" else "direct/20.500.1/a"
            with open(tmp_path / name, "wb") as file:
                subprocess.run([*words, f"http://127.0.0.1:{port}/{path}"], stdout=file, check=True)
    files = [f"paris,1={tmp_path}/wrk.txt", f"paris,2={tmp_path}/h2.txt", f"reston,1={tmp_path}/lost.txt"]
    words = ["--below", "5000", "--into", str(two), "--seconds", "1"]
    said = hsp("capacity", *files, f"reston,2={tmp_path}/h2.log", *words).stdout
    forms = {"wrk.txt": r"Requests/sec: +([0-9.]+)", "h2.txt": r", ([0-9.]+) req/s"}
    rates = [float(re.findall(form, (tmp_path / name).read_text())[0]) for name, form in forms.items()]
    assert [taken(two)["paris 1"], taken(two)["paris 2"]] == list(map(int, rates))
    assert "only 0% are known to be below 5000 ms at 0 a second" in said
    assert "a fit takes 30" in said and f"took  {tmp_path}/h2.log: 300 of a log of h2load" in said


def queue(seed: int, top: float, length: int = 300, service: float = 0.02) -> list[tuple[float, float]]:
    """When queries come to a server that takes 50 a second, at a rate that rises to the top, and how long each takes."""
    draw, moment, free = random.Random(seed), 0.0, 0.0
    found = []
    while moment < length:
        moment += draw.expovariate(5 + (top - 5) * moment / length)
        free = max(moment, free) + service
        found.append((moment, (free - moment) * 1000))
    return found


def logged(found: list[tuple[float, float]], name: str) -> str:
    begin = datetime.datetime(2026, 11, 26, 9, tzinfo=datetime.UTC)
    lines = []
    for moment, time in found:
        day = f"{begin + datetime.timedelta(seconds=int(moment)):%d/%b/%Y:%H:%M:%S}.{int(moment * 1000) % 1000:03}"
        timers = f"0/0/0/{int(time)}/{int(time)} 302 52 - - ---- 1/1/0/0/0 0/0"
        lines.append(f'127.1.0.1:5000 [{day}] f b/{name} {timers} "GET /20.500.1/a HTTP/1.1"\n')
    return "".join(lines)


@pytest.mark.parametrize("seed", range(3))
def test_of_a_log_the_rate_counts_above_which_times_rise(seed: int, two: Path, tmp_path: Path, hsp: Hsp) -> None:
    log = tmp_path / "haproxy.log"
    log.write_text(logged(queue(seed, 80), "paris:1") + logged(queue(seed, 15), "reston-3") + logged([(1, 1)], "x"))
    said = hsp("capacity", str(log), "--into", str(two), "--seconds", "1").stdout
    # A server that is busy for 20 ms a query has a queue from about a half of 50 a second on.
    assert 22 <= taken(two)["paris 1"] <= 38 and taken(two)["reston 3"] == 1470
    low, high, explains = map(int, re.search(r"95% from (\d+) to (\d+), explains (\d+)%", said).groups())  # type: ignore
    assert low <= taken(two)["paris 1"] <= high <= 40 and low >= 20 and explains > 50
    assert "  no rise to 2 times the least time up to" in said
    assert "  1  no site has the server 'b/x'; name it by --site WORD=SITE; first" in said
    said = hsp("capacity", f"reston,2={log}", "--into", str(two), "--seconds", "1").stdout
    assert "  times rise above" in said and "no site has" not in said


HOSTILE = {
    "nul": b"\0" * 9999,
    "long": b"x" * 10_000_000,
    "bomb": b'{"latencies":' + b"[" * 200_000,
    "odd.json": b'{"latencies":{"mean":1e999,"50th":{}},"throughput":"x"}',
    "infinite.json": json.dumps(VEGETA).replace("50.25", "1e999").encode(),
    "negative.json": json.dumps(VEGETA).replace("50.25", "-1").encode(),
    "cut": b"Running 1s test @ http://127.0.0.1/\n  2 threads and 10 connections\n",
    "huge": WRK.format(rate="9" * 19).encode(),
    "table.csv": b"site,server_id,capacity\nparis,1,1,1\n",
    "large.csv": b"site,server_id,capacity\nparis,1,999999999999\n",
    "quote.csv": b'site,server_id,capacity\nparis,1,"1\n',
}


@pytest.mark.parametrize("name", HOSTILE)
def test_a_hostile_source_is_refused_in_one_line(name: str, two: Path, tmp_path: Path, hsp: Hsp) -> None:
    (tmp_path / name).write_bytes(HOSTILE[name])
    before = taken(two)
    source = str(tmp_path / name) if name.endswith(".csv") else f"paris,1={tmp_path / name}"
    assert_one_line(hsp("capacity", source, "--below", "99", "--seconds", "9", "--into", str(two), status=1), "hsp: ")
    assert taken(two) == before


def test_what_is_no_source_is_refused(two: Path, tmp_path: Path, hsp: Hsp) -> None:
    table = tmp_path / "rooms.csv"
    for text in ("paris,1,x", "vienna,1,5", "paris,9,5"):
        table.write_text(f"site,server_id,capacity\n{text}\n")
        assert hsp("capacity", str(table), "--into", str(two), status=2).stderr.count("Error: ") == 1
    for words in (["vienna=1"], ["paris,9=1"], ["paris=1e9"], ["absent"], [""], []):
        hsp("capacity", *words, "--into", str(two), status=1 if words in (["paris=1e9"], ["absent"]) else 2)
    assert_one_line(hsp("capacity", str(two / "capacity.csv"), "--into", str(two), status=1), "read and written")
