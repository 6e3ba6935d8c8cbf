"""hsp steer keeps a real HAProxy in step with what its servers were given, whatever ends in between."""

import contextlib
import json
import math
import os
import random
import re
import shutil
import signal
import socket
import subprocess
import sys
import time
from collections import Counter
from collections.abc import Callable, Iterator
from dataclasses import dataclass, replace
from fractions import Fraction
from pathlib import Path
from typing import Any
from urllib.parse import quote

import click
import numpy
import pytest
from scipy.sparse import csr_matrix
from scipy.sparse.csgraph import maximum_flow

from hsp.base.grammar import MOST_SITES
from hsp.base.held import Watched
from hsp.base.programs import Programs, Refused
from hsp.base.unfit import Unfit
from hsp.intake.addresses import name_of
from hsp.plans.plans import servers_at
from hsp.plans.service import Service, read_service
from hsp.proxy import proxies
from hsp.proxy.counts import Counts, counted
from hsp.proxy.kinds import kinds_of
from hsp.proxy.proxies import Look
from hsp.proxy.rest import Rest, rest_of, room_of
from hsp.proxy.runtime import AT_ONCE, Reading, pieces
from hsp.proxy.standing import Standing, State, kept, kept_in
from hsp.proxy.steer import Seconds, _alone, _Loop, _text, read_anew
from hsp.proxy.steering import Steering, state_of

from conftest import TOP, WITH_SIGNALS, Example, Hsp, until, variables
from proxies import Front, answering
from scenarios import service_in
from test_proxy import CLIENTS, NAMES, NETWORKS, TRUSTED, expected, put, urls_in, urls_text

HANDLE = "20.500.1234/film-5"


@dataclass
class Mirrors:
    """Ports at which checks find servers up, each of which may be closed and opened again."""

    ports: dict[str, int]
    _open: dict[str, socket.socket]

    def open(self, name: str) -> None:
        self._open[name] = socket.create_server(("127.0.0.1", self.ports[name]), backlog=500)
        self.ports[name] = self._open[name].getsockname()[1]

    def close(self, name: str) -> None:
        self._open.pop(name).close()


@pytest.fixture
def mirrors() -> Iterator[Mirrors]:
    own = Mirrors(dict.fromkeys(NAMES, 0), {})
    for name in NAMES:
        own.open(name)
    yield own
    for name in list(own._open):
        own.close(name)


@pytest.fixture
def two(example: Example, mirrors: Mirrors) -> Path:
    """The example of two sites, with networks and a URL for each server."""
    folder = example("two-sites")
    urls = {name: f"http://127.0.0.1:{port}" for name, port in mirrors.ports.items()}
    put(folder, networks=NETWORKS, hsp=urls_text(urls))
    return folder


@pytest.fixture
def into(tmp_path: Path) -> Path:
    return tmp_path / "proxy"


@pytest.fixture
def front(hsp: Hsp, two: Path, into: Path) -> Iterator[Front]:
    with answering(hsp, two, into, *TRUSTED) as own:
        yield own


def beside(into: Path) -> Path:
    return into.parent / "other"


@pytest.fixture
def other(hsp: Hsp, two: Path, into: Path) -> Iterator[Front]:
    with answering(hsp, two, beside(into), *TRUSTED) as own:
        yield own


def period_of(seconds: float, passed: float) -> str:
    """A period of about so many seconds, of which so many have passed now."""
    begins = time.time() - passed
    return repr(begins / round(begins / seconds))


@dataclass
class Steer:
    process: "subprocess.Popen[bytes]"
    out: Path
    err: Path

    def states(self) -> list[dict[str, Any]]:
        whole = self.out.read_text().rpartition("\n")[0]
        return [json.loads(line) for line in whole.splitlines()]

    def next(self, is_so: Callable[[dict[str, Any]], object] = lambda _: True) -> dict[str, Any]:
        """The first state from now on that is so."""
        before = len(self.states())
        found: list[dict[str, Any]] = []

        def has_come() -> bool:
            assert self.process.poll() is None, self.err.read_text()
            found[:] = filter(is_so, self.states()[before:])
            return bool(found)

        until(has_come)
        return found[0]


@contextlib.contextmanager
def steering(folder: Path, into: Path, *words: str) -> Iterator[Steer]:
    out, err = (into.parent / f"steer-{time.monotonic_ns()}.{name}" for name in ("out", "err"))
    command = [*WITH_SIGNALS, sys.executable, "-m", "hsp", "steer", str(folder), "--into", str(into), *words]
    with open(out, "wb") as to_out, open(err, "wb") as to_err:
        process = subprocess.Popen(command, stdout=to_out, stderr=to_err, env=variables())
    own = Steer(process, out, err)
    try:
        until(lambda: bool(own.states()) or process.poll() is not None)
        assert process.poll() is None, err.read_text()
        yield own
    finally:
        process.kill()
        process.wait(10)


def loads_of(state: dict[str, Any]) -> dict[str, int]:
    return {name: own["load"] for name, own in state["servers"].items()}


def lines_in(front: Front) -> dict[str, str]:
    """The map that HAProxy has in force."""
    lines = [line.split(" ")[1:] for line in front.say("show map plan.map").splitlines() if line]
    return {line[0]: line[1] for line in lines}


def lines_of_file(into: Path) -> dict[str, str]:
    lines = (into / "plan.map").read_text().splitlines()[1:]
    return {line.split(" ")[0]: line.split(" ")[1] for line in lines}


def rest(folder: Path, left: float, taken: dict[str, int], down: set[str], **given: str | None) -> Rest:
    programs = Programs()
    service = read_service(str(folder), programs, given)
    return rest_of(service, kinds_of(service), left, room_of(service, taken, down), programs)


def test_a_whole_period_is_planned_as_the_folder_is(two: Path) -> None:
    service = read_service(str(two), Programs(), {})
    own = rest(two, 1.0, {}, set())
    assert (own.asked, own.left_out, own.cost) == (service.asked, 0, service.certificate.cost)
    assert sum(own.loads.values()) == service.asked


@pytest.mark.parametrize("left", [1.0, 0.5, 0.01, 0.0001, 1e-9])
def test_rounding_makes_no_shortage(two: Path, left: float) -> None:
    """The room is just what the plan of the folder gives each server."""
    service = read_service(str(two), Programs(), {})
    loads = rest(two, 1.0, {}, set()).loads
    taken = {
        f"{server.site}:{server.id}": service.capacity(server) - math.ceil(loads[f"{server.site}:{server.id}"] * left)
        for server in service.servers
    }
    own = rest(two, left, taken, set())
    assert own.left_out == 0
    assert own.asked == round(service.asked * left)


def test_a_shortage_leaves_out_as_few_as_hsplan_says(hsp: Hsp, two: Path) -> None:
    demand = str(two / "premiere.csv")
    said = hsp("plan", str(two), "--demand", demand, status=3).stdout
    own = rest(two, 1.0, {}, set(), demand=demand)
    assert f" {own.left_out} queries can't be served" in said
    assert sum(own.loads.values()) == own.asked - own.left_out
    assert own.loads["paris:2"] == 1510 and own.loads["reston:2"] == 1460
    service = read_service(str(two), Programs(), {})
    down = rest(two, 1.0, {}, {"paris:1", "paris:2"})
    room = sum(service.capacity(server) for server in service.servers if server.site == "reston")
    assert down.left_out >= service.asked - room
    assert not any("paris" in line.split(" ")[1].split("|")[0] for line in down.lines if line.startswith("us"))


def many_sites(folder: Path, lot: random.Random, number: int = 32) -> Path:
    """A service of so many sites with more queries than its servers take. Its machines have two servers each."""
    names = [f"s{at}" for at in range(number)]
    addresses = {name: [f"10.{at}.0.1", f"10.{at // 2}.0.2"] for at, name in enumerate(names)}
    hosts = [(f"10.{at}.0.2", lot.randrange(20, 100)) for at in range(number // 2)]
    costs = [(f"r{region}", lot.choice(names), 1 + lot.randrange(99)) for region in range(6) for _ in range(5)]
    rows = [(f"r{lot.randrange(6)}", f"10.1/{at}", round(20 * lot.paretovariate(1.2))) for at in range(60)]
    rooms = [(name, own, lot.randrange(80)) for name in names for own in (1, 2)]
    once = {own[:2]: own for own in costs}
    return service_in(folder, addresses, rows, list(once.values()), rooms, hosts)


def most_served(service: Service) -> int:
    """The most that servers and hosts can take of the demand: a greatest flow."""
    hosts = {host["address"]: host["limit"] for host in service.settings["host"]}
    room: dict[tuple[Any, Any], int] = {(host, "to"): limit for host, limit in hosts.items()}
    for at, row in enumerate(service.rows):
        room["from", at] = row.count
        room.update({(at, own): row.count for own in service.kind(row)})
    for server in service.servers:
        room[(server.site, server.id), server.address if server.address in hosts else "to"] = service.capacity(server)
    nodes = {node: at for at, node in enumerate(dict.fromkeys(node for arc in room for node in arc))}
    arcs = [[nodes[node] for node in ends] for ends in zip(*room)]
    graph = csr_matrix((numpy.array([*room.values()], numpy.int32), arcs), (len(nodes), len(nodes)))
    return int(maximum_flow(graph, nodes["from"], nodes["to"]).flow_value)


@pytest.mark.parametrize("seed", range(12))
def test_with_32_sites_a_shortage_leaves_out_as_few_as_a_greatest_flow(tmp_path: Path, seed: int) -> None:
    folder = many_sites(tmp_path / "many", random.Random(seed))
    service = read_service(str(folder), Programs(), {})
    assert len(service.sites) == MOST_SITES and not service.certificate.is_plan
    own = rest(folder, 1.0, {}, set())
    assert own.left_out == service.asked - most_served(service)
    assert sum(own.loads.values()) == service.asked - own.left_out
    assert all(own.loads[name_of(server)] <= service.capacity(server) for server in service.servers)
    for host in service.settings["host"]:
        assert sum(own.loads[name_of(server)] for server in servers_at(service, host)) <= host["limit"]


def test_a_proxy_of_32_sites_is_steered_in_a_shortage(hsp: Hsp, tmp_path: Path, mirrors: Mirrors) -> None:
    folder, into = many_sites(tmp_path / "many", random.Random(1)), tmp_path / "proxy"
    service = read_service(str(folder), Programs(), {})
    up = f"http://127.0.0.1:{mirrors.ports['paris:1']}"
    urls = {name_of(server): up for server in service.servers}
    put(folder, networks="network,region\n127.0.0.0/8,r0\n", hsp=urls_text(urls))
    put(folder, less="region,handle,count\nr0,10.1/0,1\n")
    with answering(hsp, folder, into, "--demand", str(folder / "less.csv")):
        done = hsp("steer", str(folder), "--into", str(into), "--once", "--period", period_of(100_000, 1))
    state = json.loads(done.stdout)
    assert abs(state["left_out"] - (service.asked - most_served(service))) <= 1
    assert f"hsp: a shortage: {state['left_out']:,} queries of the rest" in done.stderr


def test_both_ways_leave_out_as_few(two: Path, monkeypatch: pytest.MonkeyPatch) -> None:
    """Where hsplan has no place for another site, rows are lowered; where it has, they stand at a site nowhere."""
    demand, downs = str(two / "premiere.csv"), [set(), {"paris:2"}, {"reston:1", "reston:2"}, set(NAMES)]
    nowhere = [rest(two, 1.0, {"paris:1": 700}, down, demand=demand) for down in downs]
    monkeypatch.setattr("hsp.proxy.rest.MOST_SITES", 2)
    lowered = [rest(two, 1.0, {"paris:1": 700}, down, demand=demand) for down in downs]
    assert [own.left_out for own in lowered] == [own.left_out for own in nowhere]
    assert all(own.left_out for own in lowered)


def test_hosts_have_their_limits_less_what_their_servers_took(two: Path) -> None:
    settings = str(two / "hosts.toml")
    own = rest(two, 1.0, {}, set(), settings=settings)
    assert own.loads["reston:2"] + own.loads["reston:3"] == 2000 and not own.left_out
    later = rest(two, 0.5, {"reston:2": 900, "reston:3": 600}, set(), settings=settings)
    assert later.loads["reston:2"] + later.loads["reston:3"] == 500 and not later.left_out


def test_counts_outlive_runs_and_begin_anew_with_a_period() -> None:
    now = Reading(1005.0, "1 a", 1002.0, {"a:1": 7}, frozenset())
    first = counted(None, now, 10.0)
    assert first.taken == {"a:1": 7}, "this run has begun in the period"
    assert counted(None, replace(now, began=1000.0 - 45.0), 10.0).taken == {"a:1": 1}, "a tenth of its time"
    assert counted(None, replace(now, began=1000.0 - 45.0), 10.0).seen == {"a:1": 7}
    more = replace(now, at=1006.0, counts={"a:1": 9, "a:2": 1})
    assert counted(first, more, 10.0).taken == {"a:1": 9, "a:2": 1}
    other = replace(now, at=1007.0, run="2 b", began=1006.5, counts={"a:1": 2})
    assert counted(first, other, 10.0).taken == {"a:1": 9}
    turned = counted(first, replace(more, at=1010.5), 10.0)
    assert (turned.period, turned.taken, turned.seen) == (101, {}, {"a:1": 9, "a:2": 1})
    late = counted(first, replace(more, at=1015.0), 10.0)
    assert late.taken == {"a:1": 1}, "half of 2, and half of 1, which rounds to 0"
    assert counted(first, more, 7.0).taken == {"a:1": 9, "a:2": 1}, "of a period from 1001 on it all is"
    assert Counts(100, 10.0, "", {}, {}, 0.0).left(1002.5) == 0.75


def test_pieces_of_a_map_fit_into_a_buffer() -> None:
    lines = [f"{'x' * (at % 90)} y" for at in range(2000)]
    own = list(pieces(lines))
    assert "".join(own) == "".join(f"{line}\n" for line in lines)
    assert all(len(piece) <= AT_ONCE for piece in own) and len(own) < 20


def test_a_step_plans_the_rest_from_counts(hsp: Hsp, two: Path, into: Path, front: Front, tmp_path: Path) -> None:
    for _ in range(1400):
        front.ask(f"/{HANDLE}", CLIENTS["eu"])
    front.say("prepare map plan.map")
    front.say("add map @1 plan.map what-was-cut-off paris:1")
    metrics = tmp_path / "hsp.prom"
    words = ("--into", str(into), "--period", period_of(100_000, 50_000))
    state = json.loads(hsp("steer", str(two), *words, "--once", "--metrics", str(metrics)).stdout)
    assert list(state) == ["time", "left", "asked", "left_out", "cost", "proxies", "servers"]
    assert state["proxies"] == {str(into): True}
    assert state["left"] == pytest.approx(0.5, abs=0.001) and abs(state["asked"] - 3141) < 5
    own = state["servers"]["paris:2"]
    assert own == {"load": 1400, "planned": 1510, "capacity": 1510, "down": False}
    assert state["left_out"] == 0
    assert lines_in(front) == lines_of_file(into)
    expected = rest(two, state["left"], {"paris:2": 1400}, set())
    assert abs(sum(s["planned"] for s in state["servers"].values()) - 1400 - expected.asked) < 5
    text = metrics.read_text()
    assert 'hsp_steer_load{site="paris",server_id="2"} 1400\n' in text
    assert 'hsp_steer_planned{site="paris",server_id="2"} 1510\n' in text
    names = re.findall(r"^# TYPE (\S+) gauge$", text, re.MULTILINE)
    figures = ["load", "planned", "capacity", "down", "proxy", "asked", "left_out", "cost", "plan_age_seconds"]
    assert names == [f"hsp_steer_{name}" for name in [*figures, "plan_timestamp_seconds"]]
    front.ask(f"/{HANDLE}", CLIENTS["eu"])
    lines = hsp("steer", "--status", "--into", str(into)).stdout.splitlines()
    assert lines[0].split() == ["server", "load", "planned", "capacity", "full"]
    assert [line.split()[0] for line in lines[1:6]] == NAMES
    assert sum(int(line.split()[1].replace(",", "")) for line in lines[1:6]) == 1401
    assert re.fullmatch(r"[0-9,]+ of [0-9,]+ seconds are left; planned [0-9]+ seconds? ago", lines[6])


def off_by(service: Service, lot: random.Random) -> list[tuple[str, str]]:
    """As many queries as planned, of other rows: each is off by a factor."""
    weights = [row.count * lot.lognormvariate(0, 0.3) for row in service.rows]
    rows = lot.choices(service.rows, weights, k=service.asked)
    return [(row.region, row.handle) for row in rows]


def unsteered(service: Service, rows: list[tuple[str, str]]) -> float:
    """How full the fullest server gets by the folder's own plan."""
    shares = expected(service)
    loads: dict[str, float] = dict.fromkeys(NAMES, 0.0)
    for row, count in Counter(rows).items():
        loads.update({name: loads[name] + count * share for name, share in shares[row].items()})
    return max(loads[f"{own.site}:{own.id}"] / service.capacity(own) for own in service.servers)


def asked_evenly(fronts: list[Front], rows: list[tuple[str, str]], until_then: float) -> Counter[str]:
    """The hosts that rows are sent to, asked evenly until a time, of one proxy after the other. The last of several is
    killed after 3/10, and returns after 6/10."""
    begins, got, dies = time.time(), Counter[str](), fronts[-1] if len(fronts) > 1 else None
    for at, (region, handle) in enumerate(rows):
        pause = begins + (until_then - begins) * at / len(rows) - time.time()
        if pause > 0.002:
            time.sleep(pause)
        if dies and at == 3 * len(rows) // 10:
            dies.kill()
        if dies and at == 6 * len(rows) // 10:
            dies.start()
        up = [front for front in fronts if front.process.poll() is None]
        got[up[at % len(up)].ask(f"/{quote(handle)}", CLIENTS[region]).host] += 1
    return got


@pytest.mark.parametrize("are_two", [False, True])
def test_no_server_gets_above_its_capacity_where_the_demand_is_off(
    two: Path, into: Path, front: Front, are_two: bool, request: pytest.FixtureRequest
) -> None:
    """With one proxy, and with two of which one is killed meanwhile: its last three seconds aren't counted, and they are
    less than a twelfth of this period. It is long, since a machine may be busy."""
    fronts = [front, request.getfixturevalue("other")] if are_two else [front]
    more = [f"--into={beside(into)}"] if are_two else []
    service = read_service(str(two), Programs(), {})
    draws = (off_by(service, random.Random(seed)) for seed in range(100))
    rows = next(own for own in draws if 1.04 < unsteered(service, own) < 1.1)
    period = period_of(60, 59)
    names = {url: name for name, url in urls_in(two).items()}
    with steering(two, into, *more, "--period", period, "--every", "1.2") as own:
        turn = math.ceil(time.time() / float(period)) * float(period)
        time.sleep(max(0.0, turn - time.time()))
        until(lambda: bool(own.states()[-1]["left"] > 0.9))
        asked = asked_evenly(fronts, rows, turn + 0.87 * float(period))
        got = {name: asked[url] for url, name in names.items()}
        loads = [loads_of(own.next()) for _ in range(2)][1]
        assert time.time() < turn + float(period), "this machine is too busy to ask so much"
        lost = sum(got.values()) - sum(loads.values())
        assert 0 <= lost <= (len(rows) / 12 if are_two else 0) and all(got[name] >= loads[name] for name in NAMES)
        for server in service.servers:
            name = name_of(server)
            assert loads[name] <= 1.01 * service.capacity(server), f"{name}: {loads[name]}, and {got[name]} in truth"
        own.next(lambda state: state["left"] > 0.9)
        assert sum(loads_of(own.states()[-1]).values()) == 0, "counts begin anew"


def test_proxies_have_one_plan_and_the_sum_of_their_counts(
    hsp: Hsp, two: Path, into: Path, front: Front, other: Front
) -> None:
    def ask(own: Front, number: int) -> None:
        for _ in range(number):
            own.ask(f"/{HANDLE}", CLIENTS["eu"])

    metrics, second = into.parent / "hsp.prom", beside(into)
    words = ("--into", str(second), "--period", period_of(100_000, 50_000), "--metrics", str(metrics))
    with steering(two, into, *words, "--every", "0.3") as own:
        ask(front, 800)
        ask(other, 700)
        state = own.next(lambda state: sum(loads_of(state).values()) == 1500)
        assert state["proxies"] == {str(into): True, str(second): True}
        planned, loads = rest(two, state["left"], loads_of(state), set()), loads_of(state)
        for name, server in state["servers"].items():
            assert abs(server["planned"] - loads[name] - planned.loads[name]) <= 3
        until(lambda: lines_in(front) == lines_in(other) == lines_of_file(into) == lines_of_file(second))
        said = hsp("steer", str(two), "--into", str(second), "--once", status=5).stderr
        assert said.splitlines()[-1] == f"hsp: {second}/steer.lock: another hsp steer keeps this proxy in step"
        other.kill()
        state = own.next(lambda state: not state["proxies"][str(second)])
        assert state["proxies"][str(into)] and sum(loads_of(state).values()) == 1500, "its last counts stay"
        ask(front, 5)
        own.next(lambda state: sum(loads_of(state).values()) == 1505)
        until(lambda: f'hsp_steer_proxy{{proxy="{second}"}} 0\n' in metrics.read_text())
        status = hsp("steer", "--status", "--into", str(into)).stdout.splitlines()
        assert sum(int(line.split()[1].replace(",", "")) for line in status[1:6]) == 1505
        assert status[-1] == f"{second} doesn't answer; its last counts are among these"
        other.start()
        own.next(lambda state: state["proxies"][str(second)])
        ask(other, 4)
        own.next(lambda state: sum(loads_of(state).values()) == 1509)
        until(lambda: lines_in(front) == lines_in(other))
    lines = own.err.read_text().splitlines()
    kept = f"hsp: {second} keeps its last map, and its last counts: {other.socket}: HAProxy doesn't answer there: "
    assert lines[0].startswith(kept) and lines[1:] == [f"hsp: {second} has the plan again"]
    hsp("steer", "--status", "--into", str(second))


def test_proxies_that_are_one_are_refused(hsp: Hsp, two: Path, into: Path, front: Front) -> None:
    said = hsp("steer", str(two), "--into", str(into), "--into", f"{into}/.", "--once", status=1).stderr
    assert said == f"hsp: {into}/.: this proxy is given twice\n"
    shutil.copytree(into, beside(into))
    said = hsp("steer", str(two), "--into", str(into), "--into", str(beside(into)), "--once", status=1).stderr
    assert f"{into} and {beside(into)} have one socket: {front.socket}; export one of them again" in said


def test_of_several_proxies_only_one_has_to_fit_and_answer(two: Path, into: Path, front: Front, other: Front) -> None:
    """One that finds all servers down has no say, and one that was exported from other sites keeps its map."""
    own = Steering([str(into), str(beside(into))], read_service(str(two), Programs(), {}), 1e5)
    for proxy, down in zip(own._proxies.all, (NAMES, ["paris:2"])):
        reading = proxy.runtime.reading()
        said = replace(reading, down=frozenset(down))
        proxy.runtime.reading = lambda *_, it=said: it  # type: ignore[method-assign, misc]
    state = own.step(own.read())
    assert [name for name in NAMES if state.servers[name].down] == ["paris:2"]
    assert state.servers["paris:2"].planned == 0
    config = beside(into) / "haproxy.cfg"
    config.write_text(config.read_text().replace("server paris:1 ", "server lyon:1 "))
    assert list(own.step(own.read()).proxies.values()) == [True, False]
    assert "it was exported again; reload HAProxy" in str(own.faults()[str(beside(into))])
    (into / "plan.map").write_text("mine\n")
    with pytest.raises(Unfit):
        own.step(own.read())


def test_a_full_disk_is_said_as_it_is(
    two: Path, into: Path, front: Front, monkeypatch: pytest.MonkeyPatch, capsys: pytest.CaptureFixture[str]
) -> None:
    """HAProxy has the new plan, whose files come with a later one."""
    held = Steering([str(into)], read_service(str(two), Programs(), {}), 1e5)
    own, before = _Loop(held, str(two), {}, 10, None, Watched([])), lines_of_file(into)

    def full(contents: dict[str, bytes]) -> None:
        raise OSError(28, "No space left on device", "plan.map")

    monkeypatch.setattr(proxies, "replace_all", full)
    own._try("the last map stays", own._step_if_due)
    why = "HAProxy has the new plan, and begins by an older one if it restarts"
    assert capsys.readouterr().err == f"hsp: plan.map: No space left on device; {why}\n"
    assert lines_of_file(into) == before and not kept_in(str(into))
    monkeypatch.undo()
    held.keep()
    assert set(lines_of_file(into)) == set(lines_in(front)) and kept_in(str(into))


def test_a_status_without_a_plan_of_late_names_the_cause(hsp: Hsp, two: Path, into: Path, front: Front) -> None:
    own = Steering([str(into)], read_service(str(two), Programs(), {}), 1e5, 0.2)
    own.state = replace(own.step(own.read()), made=time.time() - 20)
    own.keep("demand.csv is broken")
    with _alone([str(into)]):
        assert "seconds: demand.csv is broken" in hsp("steer", "--status", "--into", str(into), status=1).stderr
    ended = hsp("steer", "--status", "--into", str(into), status=1)
    assert re.fullmatch("hsp: no plan came for 2[0-9] seconds: hsp steer isn't running\n", ended.stderr)
    assert "paris:2" in ended.stdout


def test_no_plan_is_above_a_capacity_by_rounding(two: Path) -> None:
    service = read_service(str(two), Programs(), {})
    rooms = {name_of(it): service.capacity(it) for it in service.servers}
    rest, counts = Rest([], 0, 0, 0, dict.fromkeys(rooms, 3)), Counts(0, 1.0, "", {}, {}, 0.0)
    for less, planned in ((2, 0), (4, -1), (-5, 5)):
        taken = replace(counts, taken={name: room - less for name, room in rooms.items()})
        servers = state_of(service, rest, taken, Look(0.0, (), frozenset()), {}).servers
        assert {name: own.planned for name, own in servers.items()} == {it: rooms[it] + planned for it in rooms}


def test_an_hsplan_that_is_killed_is_no_refusal() -> None:
    assert _text(Refused(-9, "")) == "hsplan was ended (-9)"


def test_a_server_dies_and_returns(two: Path, into: Path, front: Front, mirrors: Mirrors) -> None:
    with steering(two, into, "--period", period_of(100_000, 50_000), "--every", "60") as own:
        assert any("paris:2" in servers for servers in lines_in(front).values())
        mirrors.close("paris:2")
        state = own.next(lambda state: bool(state["servers"]["paris:2"]["down"]))
        planned = state["servers"]["paris:2"]
        assert planned["planned"] == planned["load"]
        assert state["left_out"] == 0
        assert not any("paris:2" in servers for servers in lines_in(front).values())
        mirrors.open("paris:2")
        state = own.next(lambda state: not state["servers"]["paris:2"]["down"])
        assert state["servers"]["paris:2"]["planned"] > 0
        assert any("paris:2" in servers for servers in lines_in(front).values())


def test_a_state_that_hsp_has_not_written_is_none(tmp_path: Path) -> None:
    state = State(5.0, 0.5, 1, 0, 1, {"/a": True}, {"a:1": Standing(1, 2, 3, False)})
    counts = Counts(100, 10.0, "1 a", {"a:1": 1}, {"a:1": 1}, 1005.0)
    text = kept(state, counts).decode()
    (tmp_path / "steer.json").write_text(text)
    assert kept_in(str(tmp_path)) == (state, counts)
    others = ["", "[]", "1", text[:-9], text.replace("5.0", "null"), text.replace('"a:1": 1', '"a:1": "1"')]
    for other in [*others, text.replace("10.0", "0"), text.replace('"load"', '"loads"'), "[" * 100_000]:
        (tmp_path / "steer.json").write_text(other)
        assert kept_in(str(tmp_path)) is None, other[:100]


NUMBERS = {"made": "5.0", "length": "10.0", "at": "1005.0", "period": "100", "load": '"load": 1', "seen": '"a:1": 1'}


@pytest.mark.parametrize("number", ["NaN", "Infinity", "-Infinity", "1e400", "9" * 400, "-" + "9" * 400])
@pytest.mark.parametrize("name", NUMBERS)
def test_no_number_of_a_damaged_state_is_counted_with(tmp_path: Path, name: str, number: str) -> None:
    state = State(5.0, 0.5, 1, 0, 1, {"/a": True}, {"a:1": Standing(1, 2, 3, False)})
    text = kept(state, Counts(100, 10.0, "1 a", {"a:1": 1}, {"a:1": 1}, 1005.0)).decode()
    own = NUMBERS[name]
    (tmp_path / "steer.json").write_text(text.replace(own, own.rpartition(" ")[0] + " " + number))
    assert kept_in(str(tmp_path)) is None
    (tmp_path / "steer.json").write_text(text.replace('"a:1": 1', '"a:1": -1'))
    assert kept_in(str(tmp_path)) is None


@pytest.mark.parametrize("name", ["settings.toml", "demand.csv", "costs.csv", "capacity.csv", "hsp.toml"])
@pytest.mark.parametrize("octets", [b"", b"\xff\xfe\x00", b"[[[", b'[demand]\nunit = "x"\n', None])
def test_no_broken_file_ends_it(two: Path, into: Path, front: Front, name: str, octets: bytes | None) -> None:
    held = Steering([str(into)], read_service(str(two), Programs(), {}), 1e5)
    own = _Loop(held, str(two), {}, 10, None, Watched([]))
    (two / name).unlink()
    if octets is not None:
        (two / name).write_bytes(octets)
    own.reload()
    held.step(held.read())


def test_where_no_server_is_up_all_are_planned(two: Path, into: Path, front: Front) -> None:
    own = Steering([str(into)], read_service(str(two), Programs(), {}), 1e5)
    state = own.step(replace(own.read(), down=frozenset(NAMES)))
    assert state.left_out == 0 and all(server.down for server in state.servers.values())
    assert abs(sum(server.planned for server in state.servers.values()) - state.asked) <= 3


def test_what_is_killed_goes_on_where_it_was(two: Path, into: Path, front: Front) -> None:
    period = period_of(100_000, 50_000)

    def ask() -> None:
        for _ in range(300):
            front.ask(f"/{HANDLE}", CLIENTS["eu"])

    with steering(two, into, "--period", period, "--every", "0.3") as own:
        ask()
        own.next(lambda state: loads_of(state)["paris:2"] == 300)
        own.process.send_signal(signal.SIGKILL)
        own.process.wait(10)
    assert front.ask(f"/{HANDLE}", CLIENTS["eu"]).status == 307, "HAProxy goes on by its last map"
    with steering(two, into, "--period", period, "--every", "0.3") as own:
        assert loads_of(own.states()[0])["paris:2"] == 301
        front.kill()
        until(lambda: "HAProxy doesn't answer" in own.err.read_text())
        kept = lines_of_file(into)
        front.start()
        assert set(lines_in(front)) == set(kept)
        assert loads_of(own.next())["paris:2"] == 301
        ask()
        own.next(lambda state: loads_of(state)["paris:2"] == 601)
        assert own.err.read_text().count("HAProxy doesn't answer") == 1


def test_a_broken_folder_keeps_the_old_plan(two: Path, into: Path, front: Front) -> None:
    """Files are read again when they have changed. A broken folder is one line, and so is one that doesn't fit."""
    with steering(two, into, "--period", period_of(100_000, 1), "--every", "0.3") as own:
        asked = own.next()["asked"]
        demand, titles = (two / "demand.csv").read_text(), (two / "hsp.toml").read_text()
        put(two, demand=demand.replace(",475", ",many"))
        until(lambda: "isn't read anew" in own.err.read_text())
        assert abs(own.next()["asked"] - asked) <= 1
        line = own.err.read_text().splitlines()[-1]
        assert line.endswith(f"the old plan stays (hsp doctor {two})") and "hsplan refuses" in line
        put(two, demand=demand.replace(",475", ",975"))
        own.next(lambda state: abs(state["asked"] - asked - 500) <= 1)
        settings = (two / "settings.toml").read_text()
        put(two, settings=settings.replace('"paris"', '"lyon"'))
        until(lambda: len(own.err.read_text().splitlines()) == 2)
        assert own.next()["servers"].keys() == dict.fromkeys(NAMES).keys()
        put(two, settings=settings, hsp=titles.replace("http://127.0.0.1", "http://localhost"))
        until(lambda: len(own.err.read_text().splitlines()) == 3)
        line = own.err.read_text().splitlines()[-1]
        again = f"export it again: hsp export haproxy {two} --into {into}; then reload HAProxy; the old plan stays"
        assert line == f"hsp: {two} isn't read anew: {into}: it was written from other sites or servers; {again}"
        put(two, hsp=titles, demand=demand)
        own.next(lambda state: abs(state["asked"] - asked) <= 1)


def test_another_export_is_steered_once_haproxy_is_reloaded(hsp: Hsp, two: Path, into: Path, front: Front) -> None:
    """A service of other servers, and until HAProxy has begun anew nothing that it doesn't know stands in its map."""
    settings, titles = (two / "settings.toml").read_text(), (two / "hsp.toml").read_text()
    capacity, costs = (two / "capacity.csv").read_text(), (two / "costs.csv").read_text()
    renamed = {"settings": settings.replace('"reston"', '"lyon"'), "hsp": titles.replace('"reston:', '"lyon:')}
    with steering(two, into, "--period", period_of(100_000, 1), "--every", "0.3") as own:
        addresses = ["--listen", f"127.0.0.1:{front.port}", "--watch", f"127.0.0.1:{front.watch}"]
        put(two, **renamed, capacity=capacity.replace("reston", "lyon"), costs=costs.replace(",reston", ",lyon"))
        hsp("export", "haproxy", str(two), "--into", str(into), *addresses, "--socket", front.socket, *TRUSTED)
        until(lambda: "reload HAProxy" in own.err.read_text())
        number = len(own.states())
        time.sleep(1)
        assert not any("lyon" in server for server in lines_in(front).values())
        assert front.ask(f"/{HANDLE}", CLIENTS["us"]).status == 307 and len(own.states()) == number
        front.kill()
        front.start()
        state = own.next(lambda state: "lyon:2" in state["servers"])
        assert any("lyon" in server for server in lines_in(front).values()) and state["proxies"][str(into)]
        assert loads_of(own.next())["lyon:2"] == 0
    assert len(own.err.read_text().splitlines()) <= 3, own.err.read_text()


def test_a_signal_has_the_folder_read(two: Path, into: Path, front: Front) -> None:
    """Also where a file has its old time and size."""
    with steering(two, into, "--period", period_of(100_000, 1), "--every", "0.3") as own:
        asked, file = own.next()["asked"], two / "demand.csv"
        before, text = file.stat(), file.read_text()
        put(two, demand=text.replace(",475", ",175"))
        os.utime(file, ns=(before.st_atime_ns, before.st_mtime_ns))
        own.process.send_signal(signal.SIGHUP)
        own.next(lambda state: abs(state["asked"] - asked + 300) <= 1)
        assert not own.err.read_text()


def test_other_costs_and_capacities_are_taken_while_it_runs(two: Path, into: Path, front: Front) -> None:
    """No export is needed: HAProxy gets the costs too, by which it finds the cheapest server."""
    urls = urls_in(two)
    costs, capacity = (two / "costs.csv").read_text(), (two / "capacity.csv").read_text()

    def site_of_eu() -> str:
        host = front.ask("/20.500.1234/never-asked", CLIENTS["eu"]).host
        return next(name for name, url in urls.items() if url == host).partition(":")[0]

    with steering(two, into, "--period", period_of(100_000, 1), "--every", "0.3") as own:
        first = own.next()
        assert site_of_eu() == "paris"
        put(two, capacity=capacity.replace("paris,2,1510", "paris,2,1400"))
        state = own.next(lambda state: state["servers"]["paris:2"]["capacity"] == 1400)
        assert state["servers"]["paris:2"]["planned"] == 1400 and state["cost"] > first["cost"]
        put(two, costs=costs.replace("eu,paris,12\n", "eu,paris,300\n"))
        own.next(lambda state: state["cost"] > first["cost"] + 100_000)
        assert site_of_eu() == "reston"
        put(two, costs=costs.replace("eu,reston,84\n", ""), capacity=capacity.replace(",1510", ",2510"))
        own.next(lambda state: state["servers"]["paris:2"]["capacity"] == 2510)
        assert site_of_eu() == "paris" and not any("reston" in line for line in lines_of("eu", front))
        assert "\neu/reston " not in (into / "costs.map").read_text()
        assert "\neu 1\n" in (into / "sites.map").read_text()
        assert not own.err.read_text()
        front.kill()
        front.start()
        assert site_of_eu() == "paris", "HAProxy reads what was written"


def lines_of(region: str, front: Front) -> list[str]:
    return [server for kind, server in lines_in(front).items() if kind.startswith(f"{region}|")]


def test_a_file_that_is_being_written_is_waited_for(tmp_path: Path) -> None:
    path = tmp_path / "demand.csv"
    path.write_text("a")
    own = Watched([str(path), str(tmp_path / "costs.csv")])
    assert not own.have_changed()
    path.write_text("ab")
    assert not own.have_changed()
    path.write_text("abc")
    assert not own.have_changed()
    assert own.have_changed()
    own.are_read()
    assert not own.have_changed()
    (tmp_path / "costs.csv").write_text("")
    assert [own.have_changed() for _ in range(2)] == [False, True]


def test_a_first_start_in_mid_period_counts_what_was_given_before(
    hsp: Hsp, two: Path, into: Path, front: Front
) -> None:
    """HAProxy began before the period: of its counts those count that fall into the period, had they come evenly."""
    for _ in range(200):
        front.ask(f"/{HANDLE}", CLIENTS["eu"])
    until(lambda: front.uptime() >= 10)
    period = period_of(1000, 2)
    words, before = ("--into", str(into), "--period", period), front.uptime()
    state = json.loads(hsp("steer", str(two), *words, "--once").stdout)
    passed = (1 - state["left"]) * float(period)
    assert passed < before, "this machine is too busy"
    assert 200 * passed / front.uptime() - 12 < loads_of(state)["paris:2"] < 200 * passed / before + 12
    again = json.loads(hsp("steer", str(two), *words, "--once").stdout)
    assert loads_of(again) == loads_of(state), "from now on each query counts once"


def test_a_reserve_is_kept_back_from_each_plan(hsp: Hsp, two: Path, into: Path, front: Front) -> None:
    """Also where the folder is read anew."""
    before, less = (read_anew(str(two), {}, Programs(), Fraction(part, 200)).capacities for part in (0, 1))
    assert less == {key: room * 199 // 200 for key, room in before.items()} != before
    period = period_of(100_000, 99_000)
    words = ("steer", str(two), "--into", str(into), "--once", "--period", period)
    hsp("plan", str(two), "--reserve", "0.5")
    for more, capacities in (([], before), (["--reserve", "0.5"], less)):
        ended = hsp(*words, *more)
        servers = json.loads(ended.stdout)["servers"]
        assert {tuple(name.split(":")): own["capacity"] for name, own in servers.items()} == {
            (site, str(server)): room for (site, server), room in capacities.items()
        }
        assert all(own["planned"] <= own["capacity"] for own in servers.values())
        assert ("keeps a part of each capacity back" in ended.stderr) is (not more)


def test_the_second_steer_of_a_proxy_is_refused(hsp: Hsp, two: Path, into: Path, front: Front) -> None:
    figures = into / "nowhere" / "hsp.prom"
    with steering(two, into, "--every", "0.2", "--metrics", str(figures)) as own:
        own.next()
        own.next()
        assert own.err.read_text().count("the figures aren't written") == 1, own.err.read_text()
        said = hsp("steer", str(two), "--into", str(into), "--once", status=5).stderr
        assert said.splitlines()[-1] == f"hsp: {into}/steer.lock: another hsp steer keeps this proxy in step"
    hsp("steer", str(two), "--into", str(into), "--once")


def test_a_shortage_is_one_line(hsp: Hsp, two: Path, into: Path, front: Front) -> None:
    words = ("--into", str(into), "--period", period_of(100_000, 1), "--demand", str(two / "premiere.csv"))
    done = hsp("steer", str(two), *words, "--once")
    assert json.loads(done.stdout)["left_out"] in (269, 270)
    assert [line for line in done.stderr.splitlines() if "shortage" in line] == [
        f"hsp: a shortage: {json.loads(done.stdout)['left_out']} queries of the rest of this period: "
        "no room for them within capacities, so they go where the folder's own plan sends them"
    ]
    put(into, demand="")
    (into / "plan.map").write_text("mine\n")
    assert "hsp hasn't written it" in hsp("steer", str(two), *words, "--once", status=1).stderr


UNITS = TOP / "companion" / "units"


@pytest.mark.skipif(not shutil.which("systemd-analyze"), reason="systemd-analyze isn't installed")
def test_systemd_takes_the_units(tmp_path: Path) -> None:
    """They are read without a word, and leave little open. No hsp has to be installed for that."""
    for file in UNITS.iterdir():
        text = file.read_text().replace("ExecStart=hsp ", f"ExecStart={sys.executable} ")
        (tmp_path / file.name).write_text(text.replace("/usr/sbin/haproxy", sys.executable))
        assert f"```ini\n{file.read_text()}```\n" in (TOP / "docs" / "use" / "PROXY.md").read_text()
    units = [str(tmp_path / file.name) for file in UNITS.iterdir()]
    assert len(units) == 2
    read = subprocess.run(["systemd-analyze", "verify", "--man=no", *units], capture_output=True, text=True)
    assert (read.returncode, read.stdout + read.stderr) == (0, "")
    for unit in units:
        words = ["systemd-analyze", "security", "--offline=true", "--threshold=20", unit]
        assert subprocess.run(words, capture_output=True).returncode == 0, unit


def test_a_period_is_the_time_that_the_demand_counts(hsp: Hsp, two: Path, into: Path, front: Front) -> None:
    """It is that of hsp.toml, where nothing else is asked for."""
    titles = two / "hsp.toml"
    titles.write_text("seconds = 80_000\n" + titles.read_text())
    for words, period in (((), 80_000), (("--period", "70_000"), 70_000)):
        state = json.loads(hsp("steer", str(two), "--into", str(into), "--once", *words).stdout)
        left = 1 - time.time() % period / period
        assert state["left"] == pytest.approx(left, abs=2e-3)


def test_a_period_has_a_unit() -> None:
    kind = Seconds(1, 86_400)
    assert [kind.convert(own, None, None) for own in ("90m", "1h", "0.5d", "7s", "60")] == [5400, 3600, 43_200, 7, 60]
    for own in ("2d", "0m", "h", "1w", "1.m"):
        with pytest.raises(click.BadParameter):
            kind.convert(own, None, None)
