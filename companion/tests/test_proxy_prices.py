"""HAProxy answers by prices where no table holds the demand: each handle goes where it pays least, and the rest of a
period is planned so too."""

import json
import random
import socket
from collections import Counter
from collections.abc import Iterator
from pathlib import Path
from urllib.parse import quote

import pytest

from hsp.base.programs import Prices, Programs
from hsp.base.unfit import Unfit
from hsp.intake.addresses import name_of
from hsp.plans.flows import beside_of
from hsp.plans.service import Server, Service, read_service
from hsp.proxy.kinds import kinds_of
from hsp.proxy.rest import Rest, priced_rest, rest_of, room_of
from hsp.proxy.steering import Steering

from conftest import Hsp, until
from proxies import Front, answering
from services import read
from test_logs import many
from test_proxy import CLIENTS, NETWORKS, TRUSTED, drifted, put, urls_in, urls_text
from test_steer import Mirrors, lines_in, mirrors, period_of, two

__all__ = ["mirrors", "two"]


@pytest.fixture
def small(monkeypatch: pytest.MonkeyPatch) -> None:
    """A table holds two rows, so that any demand of a test is a log."""
    monkeypatch.setattr("hsp.plans.counted.MOST_DEMAND_ROWS", 2)


@pytest.fixture
def front(hsp: Hsp, small: None, two: Path, tmp_path: Path) -> Iterator[Front]:
    with answering(hsp, two, tmp_path / "proxy", *TRUSTED) as own:
        yield own


@pytest.fixture
def listening() -> Iterator[int]:
    """A port at which all addresses of this machine are up."""
    with socket.create_server(("", 0), backlog=500) as own:
        yield int(own.getsockname()[1])


def paying(service: Service, rows: list[tuple[str, str]]) -> dict[tuple[str, str], dict[Server, int]]:
    """What each row pays at each server that it may use: the cost of the site, and the prices there."""
    places = Programs().places(service.inputs, dict.fromkeys(handle for _, handle in rows))
    beside, found = beside_of(service), {}
    for region, handle in rows:
        own = {}
        for site in (service.sites[at] for at in service.sites_for(region)):
            server = site.servers[places[handle, site.name]]
            own[server] = service.costs[region, site.name] + beside[server.number]
        found[region, handle] = own
    return found


def shares(service: Service, rows: list[tuple[str, str]]) -> dict[tuple[str, str], dict[str, float]]:
    """The servers at which each row pays least, with the part that each has in the row's class."""
    assert isinstance(service.certificate, Prices)
    classes = {(name, *sorted(amounts)): amounts for name, amounts in service.certificate.classes}
    found = {}
    for (region, handle), pays in paying(service, rows).items():
        least = [server for server, amount in pays.items() if amount == min(pays.values())]
        amounts = classes.get((region, *sorted(server.number for server in least)), {least[0].number: 1})
        parts = {name_of(server): amounts.get(server.number, 0) / sum(amounts.values()) for server in least}
        found[region, handle] = {name: part for name, part in parts.items() if part}
    return found


def asked(front: Front, folder: Path, rows: list[tuple[str, str]], clients: dict[str, str]) -> Counter[str]:
    """The servers that rows are led to. Each row is led to one of those where it pays least."""
    service = read_service(str(folder), Programs(), {})
    wanted, names = shares(service, rows), {url: name for name, url in urls_in(folder).items()}
    got: Counter[str] = Counter()
    for region, handle in rows:
        name = names[front.ask(f"/{quote(handle)}", clients[region]).host]
        assert name in wanted[region, handle], (region, handle, name, wanted[region, handle])
        got[name] += 1
    assert not drifted(Counter(rows), got, wanted)
    assert front.taken() == got
    return got


def test_the_whole_demand_loads_servers_as_planned(small: None, two: Path, front: Front) -> None:
    """That of two-sites as a log: the loads are those of hsplan-stream's report, but for lots."""
    service, programs = read(two)
    lines = [line.split(",") for line in (two / "demand.csv").read_text().splitlines()[1:]]
    rows = [(region, handle) for region, handle, count in lines for _ in range(int(count))]
    random.Random(3).shuffle(rows)
    got = asked(front, two, rows, CLIENTS)
    reports, _ = programs.loads(service.inputs, service.plan_file)
    loads = {name_of(server): report.load for server, report in zip(service.servers, reports)}
    assert sum(loads.values()) == len(rows) == got.total()
    assert all(abs(got[name] - load) < 5 * load**0.5 for name, load in loads.items())


def test_more_kinds_than_a_table_holds(hsp: Hsp, tmp_path: Path, listening: int) -> None:
    """Handles of the log, and others: each goes where it pays least."""
    folder = many(tmp_path / "wide", room=1.1)
    service = read_service(str(folder), Programs(), {})
    assert service.log and service.log.rows > 8192 and isinstance(service.certificate, Prices)
    names = [name_of(server) for server in service.servers]
    urls = {name: f"http://127.0.0.{at + 2}:{listening}" for at, name in enumerate(names)}
    put(folder, networks="network,region\n10.0.0.0/16,eu\n10.1.0.0/16,us\n", hsp=urls_text(urls))
    lines = [line.split(",") for line in (folder / "demand.csv").read_text().splitlines()[1:]]
    rows = [(region, handle) for region, handle, _ in random.Random(2).sample(lines, 1500)]
    rows += [("us", f"20.7/never-{at}") for at in range(300)]
    with answering(hsp, folder, tmp_path / "proxy", *TRUSTED) as front:
        asked(front, folder, rows, {"eu": "10.0.0.1", "us": "10.1.0.1"})


def test_a_server_that_is_down_is_passed_over(small: None, two: Path, front: Front, mirrors: Mirrors) -> None:
    service = read_service(str(two), Programs(), {})
    rows = [("eu", f"20.5/h-{at}") for at in range(60)]
    names, pays = {url: name for name, url in urls_in(two).items()}, paying(service, rows)
    mirrors.close("paris:2")
    until(lambda: " paris:2 127.0.0.1 0 " in front.say("show servers state"))
    for region, handle in rows:
        up = {name_of(server): amount for server, amount in pays[region, handle].items()}
        up.pop("paris:2", None)
        name = names[front.ask(f"/{handle}", CLIENTS[region]).host]
        assert up[name] == min(up.values())
    for name in ("paris:1", "reston:1", "reston:2", "reston:3"):
        mirrors.close(name)
    until(lambda: front.say("show servers state").count("127.0.0.1 0 ") == 5)
    wanted = shares(service, rows)
    for region, handle in rows:
        assert names[front.ask(f"/{handle}", CLIENTS[region]).host] in wanted[region, handle], "where none is up"


def both(folder: Path, left: float, taken: dict[str, int], down: set[str], **given: str) -> tuple[Rest, Rest]:
    """The rest as a table has it, and by prices."""
    programs, found = Programs(), []
    for most in (8192, 2):
        with pytest.MonkeyPatch.context() as patch:
            patch.setattr("hsp.plans.counted.MOST_DEMAND_ROWS", most)
            service = read_service(str(folder), programs, given)
            room = room_of(service, taken, down)
            assert (service.log is not None) == (most == 2)
            if service.log:
                found.append(priced_rest(service, left, room, programs))
            else:
                found.append(rest_of(service, kinds_of(service), left, room, programs))
    return found[0], found[1]


@pytest.mark.parametrize("left", [1.0, 0.5, 0.01])
@pytest.mark.parametrize("down", [set(), {"paris:2"}, {"paris:1", "paris:2"}])
def test_the_rest_is_that_of_a_table(two: Path, left: float, down: set[str]) -> None:
    loads = {"paris:1": 700, "reston:2": 1460, "paris:2": 1510}
    taken = {name: round(load * (1 - left)) for name, load in loads.items()}
    table, priced = both(two, left, taken, down)
    assert abs(table.asked - priced.asked) <= 1 and abs(table.left_out - priced.left_out) <= 1
    assert abs(table.cost - priced.cost) <= 0.01 * table.cost + 100
    assert sum(priced.loads.values()) == pytest.approx(priced.asked - priced.left_out, abs=3)


def test_a_shortage_and_hosts_are_those_of_a_table(two: Path) -> None:
    for given in ({"demand": str(two / "premiere.csv")}, {"settings": str(two / "hosts.toml")}):
        table, priced = both(two, 1.0, {"paris:1": 300}, set(), **given)
        assert abs(table.left_out - priced.left_out) <= 1 and abs(table.cost - priced.cost) <= 1
    assert priced.loads["reston:2"] + priced.loads["reston:3"] <= 2000


def test_prices_are_swapped(hsp: Hsp, small: None, two: Path, tmp_path: Path, front: Front) -> None:
    into = tmp_path / "proxy"
    before, words = (into / "prices.map").read_text(), ("--into", str(into), "--period", period_of(100_000, 50_000))
    for _ in range(1400):
        front.ask("/20.500.1234/film-5", CLIENTS["eu"])
    state = json.loads(hsp("steer", str(two), *words, "--once").stdout)
    assert state["servers"]["paris:2"] == {"load": 1400, "planned": 1510, "capacity": 1510, "down": False}
    assert abs(state["asked"] - 3141) < 5 and state["left_out"] == 0
    text = (into / "prices.map").read_text()
    assert text != before and "\nparis:2 " in text
    in_force = [line.split(" ")[1:] for line in front.say("show map prices.map").splitlines() if line]
    assert in_force == [line.split(" ") for line in text.splitlines()[1:]]
    assert lines_in(front) == dict(line.split(" ") for line in (into / "plan.map").read_text().splitlines()[1:])


def test_a_table_wants_another_export_than_a_log(two: Path, small: None, tmp_path: Path, front: Front) -> None:
    own = Steering([str(tmp_path / "proxy")], read_service(str(two), Programs(), {}), 1e5)
    put(two, demand="region,handle,count\neu,20.1/a,5\n")
    with pytest.raises(Unfit, match="from a log, and the demand is a table; export it again"):
        own.take(read_service(str(two), Programs(), {}))
    assert own.step(own.read()).asked > 5, "the old plan is kept in step"


def test_networks_are_those_of_the_log(hsp: Hsp, small: None, two: Path, tmp_path: Path) -> None:
    put(two, networks=NETWORKS + "203.0.113.0/24,mars\n")
    said = hsp("export", "haproxy", str(two), "--into", str(tmp_path / "p"), "--socket", "/run/s")
    assert "mars: no cost at any site, so clients there are answered 503" in said.stderr
    assert "prices and " in said.stdout and "; check yes" in said.stdout
