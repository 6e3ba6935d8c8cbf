"""HAProxy answers by a plan as hsplan does: any handle, each hash option, no other host, and loads as planned."""

import contextlib
import http.server
import ipaddress
import itertools
import math
import random
import shutil
import socket
import ssl
import subprocess
import threading
import tomllib
from collections import Counter
from collections.abc import Callable, Iterator
from pathlib import Path
from urllib.parse import quote, quote_from_bytes

import pytest

from hsp.base.programs import Programs, table_text
from hsp.intake.regions import networks_in
from hsp.plans.service import Service, read_service
from hsp.proxy.kinds import LOTS, drawn_from, key_of, shares_of

from conftest import TOP, Example, Hsp, rewrite, until
from proxies import Front, answering, free_ports
from services import rows as table_rows
from services import read

TRUSTED = ("--trusted", "127.0.0.0/8")
SIGNS = "abcXYZ019-._@%?#&=+ ,\"'\\/|:;éÉß漢😀\x01\x7f"
NETWORKS = "network,region\n192.0.2.0/24,eu\n192.0.2.128/26,asia\n198.51.100.0/24,us\n2001:db8::/32,eu\n"
CLIENTS = {"eu": "192.0.2.9", "us": "198.51.100.9", "asia": "192.0.2.130"}


def put(folder: Path, **texts: str) -> None:
    """Writes files of a service, by the beginnings of their names."""
    endings = {"settings": "toml", "hsp": "toml"}
    for name, text in texts.items():
        (folder / f"{name}.{endings.get(name, 'csv')}").write_text(text, newline="")


Mirrors = Callable[[list[str]], dict[str, str]]


@pytest.fixture
def mirrors() -> Iterator[Mirrors]:
    """Opens a port for each server, at which a check finds it up. Returns the URLs by the names of servers."""
    with contextlib.ExitStack() as stack:

        def opened(names: list[str]) -> dict[str, str]:
            sockets = [stack.enter_context(socket.create_server(("127.0.0.1", 0), backlog=500)) for _ in names]
            return {name: f"http://127.0.0.1:{own.getsockname()[1]}" for name, own in zip(names, sockets)}

        yield opened


def urls_text(urls: dict[str, str], more: str = "") -> str:
    """What hsp.toml has of a proxy."""
    lines = [f'"{name}" = "{url}"' for name, url in urls.items()]
    return "\n".join(['[proxy]\nregions = "networks.csv"', more, "[proxy.urls]", *lines, ""])


def names_of(service: Service) -> list[str]:
    return [f"{server.site}:{server.id}" for server in service.servers]


def urls_in(folder: Path) -> dict[str, str]:
    urls: dict[str, str] = tomllib.loads((folder / "hsp.toml").read_text())["proxy"]["urls"]
    return urls


@pytest.fixture
def two(example: Example, mirrors: Mirrors) -> Path:
    """The example of two sites, with networks and a URL for each server."""
    folder = example("two-sites")
    put(folder, networks=NETWORKS, hsp=urls_text(mirrors(["paris:1", "paris:2", "reston:1", "reston:2", "reston:3"])))
    return folder


@pytest.fixture
def each(tmp_path: Path, mirrors: Mirrors) -> Path:
    """A service of three sites, of which each hashes another part, and is the cheapest of a region of its own."""
    folder = tmp_path / "each"
    folder.mkdir()
    settings = tomllib.loads((TOP / "examples" / "two-sites" / "settings.toml").read_text())
    record = bytearray.fromhex(settings["site"][1]["record"])
    blocks = ""
    for option in range(3):
        record[7] = option
        blocks += f'[[site]]\nname = "s{option}"\nrecord = "{record.hex()}"\n'
    costs = "".join(f"r{at},s{site},{1 + (site - at) % 3}\n" for at in range(3) for site in range(3))
    capacity = "".join(f"s{site},{own},100\n" for site in range(3) for own in (1, 2, 3))
    networks = "".join(f"10.{at}.0.0/16,r{at}\n" for at in range(3))
    put(
        folder,
        settings=blocks,
        costs=f"region,site,cost\n{costs}",
        capacity=f"site,server_id,capacity\n{capacity}",
        demand="region,handle,count\nr0,10.1/a,1\n",
        networks=f"network,region\n{networks}",
        hsp=urls_text(mirrors([f"s{site}:{own}" for site in range(3) for own in (1, 2, 3)])),
    )
    return folder


def random_handles(number: int) -> list[str]:
    lot = random.Random(7)
    prefixes = ("10.1", "20.500.1234", "aé.B", "X", "hdl", " ", "1.2.3.4.5.6")
    found = {f"{lot.choice(prefixes)}/{''.join(lot.choices(SIGNS, k=lot.randrange(14)))}" for _ in range(2 * number)}
    return random.Random(1).sample(sorted(found), number)


def test_random_handles_have_the_servers_of_hsplan_by_each_option(hsp: Hsp, each: Path) -> None:
    """No handle but one is in the plan. So each goes to the cheapest site, by HAProxy's hash."""
    programs, urls = Programs(), urls_in(each)
    service = read_service(str(each), programs, {})
    handles = random_handles(2000)
    places = programs.places(service.inputs, handles)
    wrong = []
    with answering(hsp, each, each / "proxy", *TRUSTED) as front:
        for at, (number, handle) in itertools.product(range(3), enumerate(handles)):
            site = service.sites[at]
            path = ("/" if number % 2 else "/api/handles/") + quote(handle, safe="" if number % 5 else "/")
            answer = front.ask(path, f"10.{at}.0.9")
            server = site.servers[places[handle, site.name]]
            if (answer.status, answer.location) != (307, f"{urls[f'{server.site}:{server.id}']}{path}"):
                wrong.append((handle, site.name, answer))
        assert not wrong, f"{len(wrong)}: {wrong[:3]}"
        assert sum(front.taken().values()) == 3 * len(handles)


def test_letters_of_ascii_are_equal_and_no_others(hsp: Hsp, each: Path) -> None:
    """Of each option all spellings of a handle have one server, as hsplan has it."""
    programs, urls = Programs(), urls_in(each)
    service = read_service(str(each), programs, {})
    spelt = ["Ab.c/Film-É", "aB.C/fILM-É", "AB.C/FILM-É", "ab.c/film-é"]
    places = programs.places(service.inputs, spelt)
    with answering(hsp, each, each / "proxy", *TRUSTED) as front:
        for at, site in enumerate(service.sites):
            hosts = {handle: front.ask(f"/{quote(handle)}", f"10.{at}.0.9").host for handle in spelt}
            wanted = {handle: urls[f"{site.name}:{1 + places[handle, site.name]}"] for handle in spelt}
            assert hosts == wanted
            assert len({hosts[handle] for handle in spelt[:3]}) == 1


def random_octets(number: int) -> list[bytes]:
    """What may be a handle, and often is none. None of it begins as what a proxy passes over."""
    lot = random.Random(11)
    pieces = b"10|.|/|x|\xff|\xc3\xa9|\xc3|\xed\xa0\x80|\xf4\x90\x80\x80|\xc0\x80".split(b"|")
    pieces += b" |\xe0\x80\x80|\xf0\x9f\x98\x80|\xef\xbf\xbf|\x7f|%|A|10.1/".split(b"|")
    begins = [b"", b"10.1/", b"\xc3\xa9.x/"]
    return [lot.choice(begins) + b"".join(lot.choices(pieces, k=lot.randrange(1, 6))) for _ in range(number)]


def test_what_hsplan_takes_for_no_handle_is_400(hsp: Hsp, two: Path, tmp_path: Path) -> None:
    octets = random_octets(800) + [b"a/" + b"x" * 4094, b"a/" + b"x" * 4095, "a/".encode() + "é".encode() * 2047]
    log = b"region,handle\n" + b"".join(b'eu,"%b"\n' % own for own in octets)
    answers = Programs().answers_without_sites(log, len(octets))
    refused = [line.startswith("refused") for line in answers]
    assert 100 < sum(refused) < len(octets) - 100
    with answering(hsp, two, tmp_path / "proxy", *TRUSTED) as front:
        statuses = [front.ask(f"/{quote_from_bytes(own, safe='')}", CLIENTS["eu"]).status for own in octets]
    assert statuses == [400 if no else 307 for no in refused]


def expected(service: Service) -> dict[tuple[str, str], dict[str, float]]:
    """The servers of each row by the plan, with the share of each in the row's kind."""
    shares = shares_of(service)
    found = {}
    for row in service.rows:
        own = shares[key_of(service, row)]
        names = {f"{server.site}:{server.id}": number / own.total() for server, number in own.items()}
        found[row.region, row.handle] = names
    return found


def drifted(
    asked: Counter[tuple[str, str]], got: Counter[str], shares: dict[tuple[str, str], dict[str, float]]
) -> list[str]:
    """The servers whose loads are further from the plan than lots explain, by five deviations."""
    mean: Counter[str] = Counter()
    variance: Counter[str] = Counter()
    for row, number in asked.items():
        for name, share in shares[row].items():
            mean[name] += number * share  # type: ignore[assignment]
            variance[name] += number * share * (1 - share)  # type: ignore[assignment]
    far = [name for name in mean if abs(got[name] - mean[name]) > 5 * math.sqrt(variance[name]) + 0.001]
    return [f"{name}: {got[name]} for {mean[name]:.1f}" for name in far]


def asked_of(front: Front, service: Service, rows: list[tuple[str, str]], clients: dict[str, str]) -> Counter[str]:
    """The servers that are answered for rows. Each is one of those of the plan."""
    names = {url: name for name, url in urls_in(Path(service.folder)).items()}
    shares = expected(service)
    got: Counter[str] = Counter()
    for region, handle in rows:
        name = names[front.ask(f"/{quote(handle)}", clients[region]).host]
        assert name in shares[region, handle]
        got[name] += 1
    assert front.taken() == got
    return got


def test_the_whole_demand_of_two_sites_loads_servers_as_planned(hsp: Hsp, two: Path, tmp_path: Path) -> None:
    service = read_service(str(two), Programs(), {})
    rows = [(row.region, row.handle) for row in service.rows for _ in range(row.count)]
    random.Random(3).shuffle(rows)
    with answering(hsp, two, tmp_path / "proxy", *TRUSTED) as front:
        got = asked_of(front, service, rows, CLIENTS)
        assert not drifted(Counter(rows), got, expected(service))
        log = front.logged(len(rows))
    put(two, demand="")
    hsp("demand", str(log), "--regions", str(two / "networks.csv"), "-o", str(two / "demand.csv"))
    counted = {(region, handle): int(count) for region, handle, count in table_rows(two / "demand.csv")}
    assert counted == Counter(rows), "the log of the proxy isn't the demand that was asked"


def test_a_part_of_the_demand_of_twelve_sites_goes_as_planned(
    hsp: Hsp, twelve: Path, tmp_path: Path, mirrors: Mirrors
) -> None:
    folder = Path(shutil.copytree(twelve, tmp_path / "twelve"))
    service = read_service(str(folder), Programs(), {})
    clients = {region: f"10.{at}.0.1" for at, region in enumerate(service.regions)}
    networks = "".join(f"10.{at}.0.0/16,{region}\n" for at, region in enumerate(service.regions))
    put(folder, networks=f"network,region\n{networks}", hsp=urls_text(mirrors(names_of(service))))
    lot = random.Random(5)
    drawn = lot.choices(service.rows, [row.count for row in service.rows], k=5000)
    rows = [(row.region, row.handle) for row in drawn]
    with answering(hsp, folder, tmp_path / "proxy", *TRUSTED) as front:
        got = asked_of(front, service, rows, clients)
    assert not drifted(Counter(rows), got, expected(service))


HOSTILE = {
    "another host": b"GET http://evil.example/10.1/x HTTP/1.1\r\nHost: evil.example\r\n\r\n",
    "another host than its header": b"GET http://evil.example/10.1/x HTTP/1.1\r\nHost: a\r\n\r\n",
    "a user": b"GET http://evil.example@127.0.0.1/10.1/x HTTP/1.1\r\nHost: 127.0.0.1\r\n\r\n",
    "no slash first": b"GET @evil.example/10.1/x HTTP/1.1\r\nHost: a\r\n\r\n",
    "a port": b"GET :80@evil.example/10.1/x HTTP/1.1\r\nHost: a\r\n\r\n",
    "two slashes": b"GET //evil.example/10.1/x HTTP/1.1\r\nHost: a\r\n\r\n",
    "slashes and a backslash": b"GET /\\evil.example/10.1/x HTTP/1.1\r\nHost: a\r\n\r\n",
    "written slashes": b"GET /%2f%2fevil.example/x HTTP/1.1\r\nHost: a\r\n\r\n",
    "a written slash": b"GET /10.1%2fx HTTP/1.1\r\nHost: a\r\n\r\n",
    "line ends": b"GET /10.1/x%0d%0aLocation:%20http://evil.example/ HTTP/1.1\r\nHost: a\r\n\r\n",
    "a line end": b"GET /10.1/x\nLocation: http://evil.example/ HTTP/1.1\r\nHost: a\r\n\r\n",
    "a return": b"GET /10.1/x\rLocation: http://evil.example/ HTTP/1.1\r\nHost: a\r\n\r\n",
    "a null": b"GET /10.1/x\x00evil HTTP/1.1\r\nHost: a\r\n\r\n",
    "a host": b"GET /10.1/x HTTP/1.1\r\nHost: evil.example\r\nX-Forwarded-Host: evil.example\r\n\r\n",
    "two hosts": b"GET /10.1/x HTTP/1.1\r\nHost: a\r\nHost: evil.example\r\n\r\n",
    "a long path": b"GET /10.1/" + b"x" * 100_000 + b" HTTP/1.1\r\nHost: a\r\n\r\n",
    "a long header": b"GET /10.1/x HTTP/1.1\r\nHost: a\r\nX: " + b"x" * 100_000 + b"\r\n\r\n",
    "many headers": b"GET /10.1/x HTTP/1.1\r\nHost: a\r\n" + b"X: x\r\n" * 200 + b"\r\n",
    "no handle": b"GET / HTTP/1.1\r\nHost: a\r\n\r\n",
    "only a prefix": b"GET /10.1 HTTP/1.1\r\nHost: a\r\n\r\n",
    "half an escape": b"GET /10.1/%f HTTP/1.1\r\nHost: a\r\n\r\n",
    "another method": b"POST /10.1/x HTTP/1.1\r\nHost: a\r\nContent-Length: 0\r\n\r\n",
    "all of a server": b"OPTIONS * HTTP/1.1\r\nHost: a\r\n\r\n",
    "a way through": b"CONNECT evil.example:80 HTTP/1.1\r\nHost: evil.example:80\r\n\r\n",
    "two lengths": b"GET /10.1/x HTTP/1.1\r\nHost: a\r\nContent-Length: 1\r\nContent-Length: 2\r\n\r\nxx",
    "an old form": b"GET /10.1/x\r\n\r\n",
    "no HTTP": b"\x16\x03\x01\x02\x00\x01\x00\x01\xfc\x03\x03",
}


# What HAProxy's own answers have as headers.
HEADERS = {"allow", "cache-control", "connection", "content-length", "content-type", "location"}


def test_no_request_is_led_to_another_host(hsp: Hsp, two: Path, tmp_path: Path) -> None:
    hosts = set(urls_in(two).values())
    statuses = Counter[str]()
    with answering(hsp, two, tmp_path / "proxy", "--elsewhere", "eu") as front:
        for name, octets in HOSTILE.items():
            said = front.send(octets.replace(b"\r\n\r\n", b"\r\nConnection: close\r\n\r\n", 1))
            first, *lines = said.partition(b"\r\n\r\n")[0].decode().split("\r\n")
            headers = [(line.partition(": ")[0].lower(), line.partition(": ")[2]) for line in lines]
            assert {key for key, _ in headers} <= HEADERS, name
            locations = ["/".join(value.split("/")[:3]) for key, value in headers if key == "location"]
            assert set(locations) <= hosts and len(locations) == (first[9:12] == "307"), name
            statuses[first[9:12]] += 1
        assert front.ask("/10.1/x").status == 307, "HAProxy answers on"
    assert statuses["307"] <= 9 and statuses["400"] >= 10


class Mirror(http.server.BaseHTTPRequestHandler):
    """A server that answers what it was asked."""

    protocol_version = "HTTP/1.1"

    def do_GET(self) -> None:
        headers = (f"{key.lower()}={value}" for key, value in self.headers.items())
        text = "\n".join(map(str, [self.server.server_name, self.path, *headers])).encode()
        self.send_response(200)
        self.send_header("Content-Length", str(len(text)))
        self.end_headers()
        self.wfile.write(text)

    def log_message(self, *words: object) -> None:
        """Says nothing."""


@contextlib.contextmanager
def served(names: list[str]) -> Iterator[dict[str, http.server.ThreadingHTTPServer]]:
    """Servers that answer with their names."""
    with contextlib.ExitStack() as stack:
        found = {}
        for name in names:
            own = stack.enter_context(http.server.ThreadingHTTPServer(("127.0.0.1", 0), Mirror))
            own.server_name = name
            threading.Thread(target=own.serve_forever, args=(0.05,), daemon=True).start()
            stack.callback(own.shutdown)
            found[name] = own
        yield found


NAMES = ["paris:1", "paris:2", "reston:1", "reston:2", "reston:3"]


def test_a_proxy_fetches_answers_and_goes_elsewhere_where_a_server_is_down(
    hsp: Hsp, folder: Path, tmp_path: Path
) -> None:
    path = "/20.500.1234/film-5?type=URL&a=%20"
    with served(NAMES) as servers:
        urls = {name: f"http://127.0.0.1:{own.server_port}" for name, own in servers.items()}
        put(folder, networks=NETWORKS, hsp=urls_text(urls, 'check = "/20.500.1234/film-5"'))
        with answering(hsp, folder, tmp_path / "proxy", *TRUSTED, "--proxy") as front:
            name, asked, *headers = front.ask(path, CLIENTS["eu"]).text.decode().split("\n")
            assert (name, asked) == ("paris:2", path)
            assert f"x-forwarded-for={CLIENTS['eu']}" in headers
            own = http.client.HTTPConnection("127.0.0.1", front.port)
            own.request(
                "GET", path, headers={"X-Forwarded-For": CLIENTS["eu"], "Upgrade": "h2c", "Connection": "Upgrade"}
            )
            assert b"upgrade=" not in own.getresponse().read().lower()
            assert f"host={urls['paris:2'].removeprefix('http://')}" in headers
            servers["paris:2"].shutdown()
            servers["paris:2"].server_close()
            until(lambda: front.ask(path, CLIENTS["eu"]).text.startswith(b"reston:2"))
            assert front.ask(path, CLIENTS["us"]).text.startswith(b"reston:2")
            metrics = http.client.HTTPConnection("127.0.0.1", front.watch)
            metrics.request("GET", "/metrics")
            assert b'haproxy_backend_active_servers{proxy="paris:2"} 0' in metrics.getresponse().read()


def test_a_query_that_a_server_does_not_take_counts_as_a_check(hsp: Hsp, example: Example, tmp_path: Path) -> None:
    """Checks are a minute apart here, so only the query says that the server is gone. Redirects ask no server."""
    folder, path = example("two-sites"), "/20.500.1234/film-5"
    words = "observe layer4 error-limit 1 on-error sudden-death"
    with served(NAMES) as servers:
        urls = {name: f"http://127.0.0.1:{own.server_port}" for name, own in servers.items()}
        put(folder, networks=NETWORKS, hsp=urls_text(urls))
        with answering(hsp, folder, tmp_path / "plain", *TRUSTED) as front:
            assert words not in front.config.read_text()
        with answering(hsp, folder, tmp_path / "proxy", *TRUSTED, "--proxy") as front:
            text = front.config.read_text()
            assert text.count(words) == 5 and "inter 2s" in text
            front.kill()
            rewrite(front.config, "inter 2s", "inter 60s")
            rewrite(front.config, "timeout client", "retries 0\n  timeout client")
            front.start()
            # Each server was found up by the checks at the start: the last of them passed, with full health.
            until(lambda: front.say("show servers state").count(" 6 3 3 6 ") == 5)
            servers["paris:2"].shutdown()
            servers["paris:2"].server_close()
            until(lambda: front.ask(path, CLIENTS["eu"]).text.startswith(b"reston:2"))


def test_where_no_server_is_up_the_plan_holds(hsp: Hsp, two: Path, tmp_path: Path) -> None:
    ports = free_ports(5)
    put(two, hsp=urls_text({name: f"http://127.0.0.1:{port}" for name, port in zip(NAMES, ports)}))
    with answering(hsp, two, tmp_path / "proxy", *TRUSTED) as front:
        until(lambda: front.say("show servers state").count("127.0.0.1 0 ") == 5)
        assert front.ask("/20.500.1234/film-5", CLIENTS["eu"]).host == f"http://127.0.0.1:{ports[1]}"
        host = front.ask("/20.500.1234/never-asked", CLIENTS["us"]).host
        assert host in [f"http://127.0.0.1:{port}" for port in ports[2:]]


def test_only_a_trusted_proxy_names_its_client(hsp: Hsp, two: Path, tmp_path: Path) -> None:
    put(two, networks=NETWORKS + "127.0.0.0/8,us\n")
    path = "/20.500.1234/film-5"
    with answering(hsp, two, tmp_path / "proxy", "--trusted", "192.0.2.0/24") as front:
        urls = urls_in(two)
        assert front.ask(path, CLIENTS["eu"]).host == urls["reston:2"], "the region of 127.0.0.1"
    with answering(hsp, two, tmp_path / "proxy", *TRUSTED) as front:
        assert front.ask(path, CLIENTS["eu"]).host == urls["paris:2"]
        assert front.ask(path, f"{CLIENTS['us']}, {CLIENTS['eu']}").host == urls["paris:2"], "the last one"
        assert front.ask(path, "2001:db8::7").host == urls["paris:2"]
        assert front.ask(path, "unknown").host == urls["reston:2"]
        assert front.ask(path, "203.0.113.9").status == 503
        assert front.ask(path, "2002:c000:209::").status == 503


def random_networks(lot: random.Random) -> dict[str, str]:
    """Networks within others, each with a region."""
    found = {}
    for _ in range(60):
        first = ipaddress.ip_address(10 << 24 | lot.getrandbits(24) & lot.getrandbits(24))
        found[str(ipaddress.ip_network(f"{first}/{lot.randrange(8, 33)}", strict=False))] = f"r{lot.randrange(3)}"
        first = ipaddress.ip_address(0x20010DB8 << 96 | lot.getrandbits(96) & lot.getrandbits(96))
        found[str(ipaddress.ip_network(f"{first}/{lot.randrange(32, 129)}", strict=False))] = f"r{lot.randrange(3)}"
    return found


def addresses_near(networks: dict[str, str]) -> list[str]:
    """The ends of networks and what is beside them, those of IPv4 within IPv6 too."""
    found = ["192.0.2.1", "::1", "2002:a00:1::", "::ffff:192.0.2.1", "::10.0.0.1"]
    for text in networks:
        network = ipaddress.ip_network(text)
        ends = [network[0], network[-1], network[0] - 1, network[-1] + 1]
        found += map(str, ends)
        found += [f"::ffff:{end}" for end in ends if end.version == 4]
    return found


@pytest.mark.parametrize("elsewhere", ["", "r2"])
def test_a_client_has_the_region_that_hsp_demand_finds(hsp: Hsp, each: Path, elsewhere: str) -> None:
    networks = random_networks(random.Random(13))
    put(each, networks=table_text("network,region", networks.items()))
    seek = networks_in(str(each / "networks.csv"), elsewhere or None, Programs()).seek
    names = {url: name for name, url in urls_in(each).items()}
    wrong = []
    with answering(hsp, each, each / "proxy", *TRUSTED, *(["--elsewhere", elsewhere] if elsewhere else [])) as front:
        for address in addresses_near(networks):
            answer, region = front.ask("/10.1/never-asked", address), seek(address.encode())
            wanted = region.decode().replace("r", "s") if isinstance(region, bytes) else "none"
            got = names[answer.host].partition(":")[0] if answer.status == 307 else "none"
            wrong += [] if got == wanted else [(address, got, wanted)]
    assert not wrong


def test_a_region_goes_only_to_sites_where_it_has_a_cost(hsp: Hsp, two: Path, tmp_path: Path) -> None:
    """The kinds of eu have no place at reston, whatever a handle's server is there."""
    rooms = [[site, own, 10 * int(room)] for site, own, room in table_rows(two / "capacity.csv")]
    costs = (two / "costs.csv").read_text().replace("eu,reston,84\n", "").replace("eu,paris,12", "eu,paris,1000")
    put(two, capacity=table_text("site,server_id,capacity", rooms), costs=costs)
    service, programs = read(two)
    handles = random_handles(100)
    places = programs.places(service.inputs, handles)
    with answering(hsp, two, tmp_path / "proxy", *TRUSTED) as front:
        rows = [(row.region, row.handle) for row in service.rows]
        asked_of(front, service, rows, CLIENTS)
        hosts = [front.ask(f"/{quote(handle)}", CLIENTS["eu"]).host for handle in handles]
    assert hosts == [urls_in(two)[f"paris:{1 + places[handle, 'paris']}"] for handle in handles]
    assert "\neu|0| paris:1\n" in (tmp_path / "proxy" / "plan.map").read_text()


def test_a_map_is_swapped_while_haproxy_runs(hsp: Hsp, two: Path, tmp_path: Path) -> None:
    path = "/20.500.1234/film-5"
    with answering(hsp, two, tmp_path / "proxy", *TRUSTED) as front:
        kind = (tmp_path / "proxy" / "plan.map").read_text().splitlines()[1].split()[0]
        assert kind.startswith("eu|1|1")
        version = front.say("prepare map plan.map").rpartition(":")[2].strip()
        assert not front.say(f"add map @{version} plan.map <<\n{kind} reston:2\n").strip()
        front.say(f"commit map @{version} plan.map")
        assert front.ask(path, CLIENTS["eu"]).host == urls_in(two)["reston:2"]


def test_lots_have_the_shares_of_the_plan(two: Path) -> None:
    service = read_service(str(two), Programs(), {})
    own = dict.fromkeys(service.servers[:3], 1)
    assert drawn_from(Counter(own)) == f"paris:1|{round(LOTS / 3)}|paris:2|{round(2 * LOTS / 3)}|reston:1"
    assert drawn_from(Counter({service.servers[0]: 1, service.servers[4]: 3})) == "reston:3|750000|paris:1"


def test_a_kind_of_three_servers_is_drawn_by_lot(hsp: Hsp, each: Path) -> None:
    put(each, demand="region,handle,count\nr0,10.1/a,250\n")
    service = read_service(str(each), Programs(), {})
    assert [len(own) for own in shares_of(service).values()] == [3]
    with answering(hsp, each, each / "proxy", *TRUSTED) as front:
        rows = [("r0", "10.1/a")] * 1000
        got = asked_of(front, service, rows, {"r0": "10.0.0.1"})
        assert not drifted(Counter(rows), got, expected(service))


def exported(hsp: Hsp, folder: Path, into: Path, *words: str, status: int = 0) -> str:
    socket_of = ("--socket", "/run/hsp.sock")
    return hsp("export", "haproxy", str(folder), "--into", str(into), *socket_of, *words, status=status).stderr


def test_a_value_list_has_the_same_urls(hsp: Hsp, two: Path, tmp_path: Path) -> None:
    (two / "hsp.toml").unlink()
    words = ["--regions", str(two / "networks.csv")]
    assert not exported(hsp, two, tmp_path / "records", *words)
    exported(hsp, two, tmp_path / "values", *words, "--settings", str(two / "by_index.toml"))
    one, other = ((tmp_path / name / "haproxy.cfg").read_text().splitlines()[2:] for name in ("records", "values"))
    assert one == other
    assert "  http-request redirect code 307 location http://192.0.2.11:8000%[pathq]" in one


@pytest.mark.parametrize("settings", ["settings.toml", "hosts.toml"])
def test_an_export_less_a_reserve_is_that_of_less_capacity(hsp: Hsp, two: Path, tmp_path: Path, settings: str) -> None:
    """The map is that of the capacities that hsp plan --reserve keeps. Where a reserve is forgotten, a line says so."""
    (two / "settings.toml").write_bytes((two / settings).read_bytes())
    words = ["--regions", str(two / "networks.csv")]
    hsp("plan", str(two), "--reserve", "0.5")
    why = "keeps a part of each capacity back, and this plan doesn't: give --reserve, as hsp plan had it"
    assert f"hsp: {two}/plan.txt {why}" in exported(hsp, two, tmp_path / "plain", *words).splitlines()
    assert not exported(hsp, two, tmp_path / "less", *words, "--reserve", "0.5")
    said = hsp("export", "haproxy", str(two), "--into", f"{tmp_path}/less", *words, "--reserve", "0.5").stdout
    assert ", 0.5% (not 50%) of each capacity kept back; check yes" in said
    for role, end in (("capacity", "csv"), ("settings", "toml")):
        if (two / f"{role}-less-reserve.{end}").exists():
            (two / f"{role}.{end}").write_bytes((two / f"{role}-less-reserve.{end}").read_bytes())
    assert not exported(hsp, two, tmp_path / "own", *words)
    own, less, plain = ((tmp_path / name / "plan.map").read_text() for name in ("own", "less", "plain"))
    assert own == less != plain
    said = exported(hsp, two, tmp_path / "none", *words, "--reserve", "60", status=3)
    assert f"not all queries can be served, and there is no plan: hsp plan {two} --reserve 60\n" in said


def haproxy_takes(folder: Path) -> None:
    done = subprocess.run(["haproxy", "-c", "-f", str(folder / "haproxy.cfg")], capture_output=True, text=True, cwd="/")
    said = [line for line in done.stderr.splitlines() if "[NOTICE]" not in line and "could not resolve" not in line]
    assert done.returncode == 0 and not said, done.stderr


@pytest.mark.parametrize("more", [[], ["--proxy"], ["--elsewhere", "eu", "--listen", "[::1]:8080", "--listen", "*:81"]])
def test_files_without_a_warning(hsp: Hsp, two: Path, tmp_path: Path, more: list[str]) -> None:
    odd = 'it\'s $HOME "x" \\ #1'
    more = [*more, "--socket", f"/tmp/{odd}"]
    exported(hsp, two, tmp_path / odd, *more)
    haproxy_takes(tmp_path / odd)
    names = urls_text({name: f"https://{name.replace(':', '-')}.example" for name in NAMES}, 'check = "/a?b=%20"')
    put(two, hsp=names)
    exported(hsp, two, tmp_path / odd, *more)
    haproxy_takes(tmp_path / odd)


def test_a_long_path_of_a_socket_is_refused(hsp: Hsp, two: Path, tmp_path: Path) -> None:
    said = exported(hsp, two, tmp_path / "proxy", "--socket", f"/tmp/{'long' * 30}", status=1)
    assert "a socket has a path of at most 95 octets; give --socket" in said
    assert not (tmp_path / "proxy").exists()


@pytest.mark.parametrize(
    "words, said",
    [
        (["--listen", "127.0.0.1:8405"], "'127.0.0.1:8405' and '127.0.0.1:8405' overlap"),
        (["--listen", "*:8405"], "'*:8405' and '127.0.0.1:8405' overlap"),
        (["--listen", "[::1]:80", "--listen", ":80", "--listen", "192.0.2.1:080"], "':80' and '192.0.2.1:080' overlap"),
        (["--listen", "127.0.0.1:8001"], "paris:2: http://127.0.0.1:8001 is 127.0.0.1:8001, where HAProxy itself"),
        (["--listen", "*:8001"], "paris:2: http://127.0.0.1:8001 is *:8001, where HAProxy itself"),
        (["--listen", "192.0.2.9:8001", "--listen", "[::1]:8405"], ""),
    ],
)
def test_nothing_stands_where_haproxy_listens(hsp: Hsp, two: Path, tmp_path: Path, words: list[str], said: str) -> None:
    urls = {name: f"http://127.0.0.1:{7999 + at}" for at, name in enumerate(NAMES, 1)}
    put(two, hsp=urls_text(urls))
    assert said in exported(hsp, two, tmp_path / "proxy", *words, status=1 if said else 0)


def certified(folder: Path, name: str) -> Path:
    """A certificate of a name and its key, in one file."""
    pem, key = folder / f"{name}.pem", folder / f"{name}.key"
    own = ["-subj", f"/CN={name}", "-addext", f"subjectAltName=DNS:{name}", "-keyout", str(key), "-out", str(pem)]
    command = ["openssl", "req", "-x509", "-newkey", "rsa:2048", "-nodes", *own]
    subprocess.run(command, check=True, capture_output=True)
    pem.write_text(pem.read_text() + key.read_text())
    return pem


def test_clients_ask_by_tls(hsp: Hsp, two: Path, tmp_path: Path) -> None:
    pem = certified(tmp_path, "localhost")
    with answering(hsp, two, tmp_path / "proxy", "--elsewhere", "eu", "--certificate", str(pem)) as front:
        own = http.client.HTTPSConnection("127.0.0.1", front.port, context=ssl._create_unverified_context())
        own.request("GET", "/20.500.1234/film-5")
        location = own.getresponse().getheader("location") or ""
        assert location == f"{urls_in(two)['paris:2']}/20.500.1234/film-5"


@pytest.mark.parametrize(
    "of, by, status", [("localhost", "own", 200), ("a.example", "own", 503), ("localhost", "", 503)]
)
def test_a_proxy_trusts_a_server_by_its_name(
    hsp: Hsp, example: Example, tmp_path: Path, of: str, by: str, status: int
) -> None:
    """A certificate has to be of the name that is asked, and by an authority that is trusted."""
    folder, path = example("two-sites"), "/20.500.1234/film-5"
    pem = certified(tmp_path, of)
    context = ssl.SSLContext(ssl.PROTOCOL_TLS_SERVER)
    context.load_cert_chain(pem)
    shutil.copy(pem, folder / "own")
    with served(NAMES) as servers:
        for own in servers.values():
            own.socket = context.wrap_socket(own.socket, server_side=True)
        urls = {own: f"https://localhost:{server.server_port}" for own, server in servers.items()}
        put(folder, networks=NETWORKS, hsp=urls_text(urls, f'authority = "{by}"'))
        with answering(hsp, folder, tmp_path / "proxy", *TRUSTED, "--proxy") as front:
            answer = front.ask(path, CLIENTS["eu"])
            assert answer.status == status
            assert status != 200 or answer.text.startswith(b"paris:2\n" + path.encode())


def test_the_doctor_warns_of_servers_of_one_url(hsp: Hsp, example: Example) -> None:
    """Only where the folder is to be exported, and with the place of the table."""
    folder, same = example("two-sites"), '[proxy]\n[proxy.urls]\n"reston:3" = "http://198.51.100.22:8000"\n'
    assert "one URL" not in hsp("doctor", str(folder)).stdout
    put(folder, networks=NETWORKS, hsp=f'title = "x"\n{same}')
    said = hsp("doctor", str(folder)).stdout
    assert "warning: reston:2 and reston:3 have one URL, http://198.51.100.22:8000\n" in said
    assert "hsp.toml:2:2\n" in said and 'write "reston:3" = "https://mirror.example" below [proxy.urls]' in said
    put(folder, hsp=f'accept = ["one URL reston:2"]\n{same}')
    assert "warning" not in hsp("doctor", str(folder)).stdout
    put(folder, hsp='[proxy]\nregions = "networks.csv"\n[proxy.urls]\n"reston:3" = "http://198.51.100.23:8000"\n')
    assert "warning" not in hsp("doctor", str(folder)).stdout
    put(folder, hsp='[proxy.urls]\n"reston:4" = "http://198.51.100.23:8000"\n')
    assert "[proxy.urls] has 'reston:4', and no server is called so" in hsp("doctor", str(folder)).stdout
