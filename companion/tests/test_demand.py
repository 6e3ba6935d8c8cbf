"""hsp demand: logs of every form, regions against Python's `ipaddress`, and what is passed over."""

import bz2
import csv
import gzip
import io
import ipaddress
import json
import lzma
import os
import pty
import random
import re
import shutil
import subprocess
import sys
from collections import Counter
from collections.abc import Callable
from pathlib import Path
from typing import NamedTuple
from urllib.parse import quote

import pytest

import maxmind
from hsp.base.programs import Programs
from hsp.intake.forms import Form
from hsp.intake.logs import LONGEST, Skipped, numbered
from hsp.intake.queries import Judge, Reading
from hsp.intake.regions import Database, Networks, Seek, regions_in
from hsp.intake.side_by_side import parts_of
from hsp.intake.tally import Tally

from conftest import TOP, Hsp, run_here, variables
from test_sites import invoke

LINES = 10_000
NETWORKS = {
    "10.0.0.0/8": "eu",
    "10.128.0.0/9": "us",
    "10.200.7.0/24": "asia",
    "192.0.2.7": "lab",
    "2001:db8::/32": "eu",
    "2001:db8:5::/48": "asia",
}
# Handles with what the forms have to quote, to escape or to decode.
ODD_HANDLES = ["20.500.1/a b", '20.500.1/a,"b"', "20.500.1/été", "20.500.1/50%", "20.500.1/q?x#y", "20.500.1/\\x41"]
HANDLES = [f"20.500.1234/item-{number}" for number in range(300)] + ODD_HANDLES


class Asked(NamedTuple):
    """A query that a log is written of."""

    client: str
    region: str
    handle: str


Parsed = list[tuple[ipaddress.IPv4Network | ipaddress.IPv6Network, str]]


def parsed(networks: dict[str, str]) -> Parsed:
    return [(ipaddress.ip_network(it), region) for it, region in networks.items()]


PARSED = parsed(NETWORKS)


def region_of(address: str, networks: Parsed = PARSED) -> str | None:
    """The region by the longest prefix, as `ipaddress` has it."""
    own = ipaddress.ip_address(address)
    if own.version == 6 and own.ipv4_mapped:
        own = own.ipv4_mapped
    fitting = [(it.prefixlen, region) for it, region in networks if it.version == own.version and own in it]
    return max(fitting)[1] if fitting else None


CLIENTS = ["10.1.2.3", "10.200.1.1", "10.200.7.9", "192.0.2.7", "2001:db8::1", "2001:db8:5::1", "::ffff:10.200.7.1"]


def asked(number: int, seed: int) -> list[Asked]:
    draw = random.Random(seed)
    found = []
    for _ in range(number):
        client = draw.choice(CLIENTS)
        handle = HANDLES[min(int(draw.paretovariate(0.4)), len(HANDLES)) - 1]
        found.append(Asked(client, str(region_of(client)), handle))
    return found


def server_line(it: Asked) -> str:
    return f'{it.client} UDP:HDL "2026-11-26 10:00:00.123+0000" 1 1 3ms {it.handle}'


def proxy_line(it: Asked) -> str:
    path = quote(it.handle, safe="/:")
    agent = '"Mozilla/5.0 (X11) \\"x\\""'
    return f'{it.client} - - [26/Nov/2026:10:00:00 +0000] "GET /{path}?noredirect&x=/a HTTP/1.1" 302 - "-" {agent}'


def csv_line(*fields: str) -> str:
    out = io.StringIO()
    csv.writer(out, lineterminator="").writerow(fields)
    return out.getvalue()


# A line of each form, the line before the first one where there is one, and the options that it needs.
FORMS: dict[str, Callable[[Asked], str]] = {
    "server": server_line,
    "proxy": proxy_line,
    "csv": lambda it: csv_line("1", it.client, it.handle),
    "table of paths": lambda it: csv_line("/" + quote(it.handle), it.client),
    "json": lambda it: json.dumps({"status": 302, "handle": it.handle, "client": it.client}),
    "json of paths": lambda it: json.dumps(
        {"remote_addr": it.client, "uri": f"/api/handles/{quote(it.handle)}?type=URL"}
    ),
    "regex": lambda it: f"10:00 <{it.client}> asks '{it.handle}' 3 ms",
    "regex of paths": lambda it: f"host:443 {it.client} GET /hdl:{quote(it.handle)} 302",
}
HEADS = {"csv": ["time,client,handle"], "table of paths": ["url,ip"]}
OPTIONS = {
    "table of paths": ["--format", "csv", "--client", "ip", "--path", "url"],
    "json of paths": ["--format", "json", "--client", "remote_addr", "--path", "uri"],
    "regex": ["--regex", r"^\d\d:\d\d <(?P<client>[^>]+)> asks '(?P<handle>.+)' \d+ ms$"],
    "regex of paths": ["--regex", r"^\S+ (?P<client>\S+) GET (?P<path>\S+)"],
}


def lines_of(name: str, rows: list[Asked]) -> list[str]:
    """A log of a form."""
    return [*HEADS.get(name, []), *map(FORMS[name], rows)]


def regions_file(tmp_path: Path) -> str:
    path = tmp_path / "networks.csv"
    path.write_text("network,region\n" + "".join(f"{it},{region}\n" for it, region in NETWORKS.items()))
    return str(path)


def counts_of(table: str) -> dict[tuple[str, str], int]:
    rows = list(csv.reader(io.StringIO(table, newline="")))
    assert rows[0] == ["region", "handle", "count"]
    return {(region, handle): int(count) for region, handle, count in rows[1:]}


def wanted(queries_of: list[Asked]) -> dict[tuple[str, str], int]:
    return dict(Counter((it.region, it.handle) for it in queries_of))


@pytest.mark.parametrize("name", FORMS)
def test_each_form_has_the_counts_that_were_written(tmp_path: Path, name: str) -> None:
    rows = asked(LINES, 7)
    (tmp_path / "log").write_text("\n".join([*lines_of(name, rows), ""]), encoding="utf-8")
    result = invoke("demand", tmp_path / "log", "--regions", regions_file(tmp_path), *OPTIONS.get(name, []))
    assert counts_of(result.stdout) == wanted(rows)
    handles = len({it.handle for it in rows})
    first = result.stderr.splitlines()[0]
    assert first == f"1 log, 10,000 lines: 10,000 queries of 4 regions for {handles} handles"
    assert "skipped" not in result.stderr


@pytest.mark.parametrize("ending", ["\n", "\r\n"])
def test_packed_logs_and_line_ends(tmp_path: Path, ending: str) -> None:
    rows = asked(400, 8)
    octets = ("\ufeff" + ending.join(map(server_line, rows)) + ending * 2).encode()
    packed = {"a.gz": gzip.compress(octets), "b.bz2": bz2.compress(octets), "c.xz": lzma.compress(octets), "d": octets}
    packed["twice.gz"] = gzip.compress(octets) + gzip.compress(octets[3:])
    for name, it in packed.items():
        (tmp_path / name).write_bytes(it)
    result = invoke("demand", *(tmp_path / it for it in packed), "--regions", regions_file(tmp_path))
    assert counts_of(result.stdout) == {key: 6 * count for key, count in wanted(rows).items()}


def noisy(tmp_path: Path) -> tuple[Path, list[Asked], dict[str, int]]:
    """A proxy's log with lines that are no queries, of which the script knows how many there are."""
    rows = asked(1000, 9)
    noise = {
        '10.1.2.3 - - [x] "GET /favicon.ico HTTP/1.1" 200 -': "not a handle (NoSlash)",
        '10.1.2.3 - - [x] "GET /.a/b HTTP/1.1" 200 -': "not a handle (EmptySegment)",
        '10.1.2.3 - - [x] "GET /20.1/%FF HTTP/1.1" 200 -': "not a handle (NotUtf8)",
        f'10.1.2.3 - - [x] "GET /20.1/{"x" * 5000} HTTP/1.1" 200 -': "not a handle (TooLong)",
        '10.1.2.3 - - [x] "GET /20.1/a%0Ab HTTP/1.1" 200 -': "a line end in the handle",
        '10.1.2.3 - - [x] "POST /20.1/a HTTP/1.1" 200 -': "another request than GET or HEAD",
        '203.0.113.9 - - [x] "GET /20.1/a HTTP/1.1" 200 -': "no region for the client's address",
        'host.example - - [x] "GET /20.1/a HTTP/1.1" 200 -': "the client isn't an IP address",
        "\x00\x01\x02": "not a line of this form",
        '10.1.2.3 - - [x] "GET /20.1/a': "not a line of this form",
        '10.1.2.3 - - [x] "-" 408 -': "not a line of this form",
        '10.1.2.3 - - [x] "' + "y" * (LONGEST + 1): f"longer than {LONGEST:,} octets",
    }
    lines, counts = [proxy_line(it) for it in rows], Counter[str]()
    draw = random.Random(10)
    for line, reason in noise.items():
        times = draw.randint(1, 9)
        counts[reason] += times
        for _ in range(times):
            lines.insert(draw.randrange(900), line)
    path = tmp_path / "noisy.log"
    path.write_text("\n".join(lines) + "\n", encoding="utf-8")
    return path, rows, dict(counts)


def test_what_is_skipped_is_counted_with_its_first_line(tmp_path: Path) -> None:
    path, rows, counts = noisy(tmp_path)
    words = ("demand", path, "--regions", regions_file(tmp_path), "--format", "proxy")
    result = invoke(*words)
    assert counts_of(result.stdout) == wanted(rows)
    found = re.findall(r"^  ([\d,]+)  (.*?); first (.*?):(\d+): (.*)$", result.stderr, re.M)
    assert {reason: int(count) for count, reason, *_ in found} == counts
    lines = path.read_bytes().split(b"\n")
    for _, reason, file, number, shown in found:
        assert file == str(path)
        assert ascii(lines[int(number) - 1].decode())[:40] == shown[:40], reason
    elsewhere = counts_of(invoke(*words, "--elsewhere", "far").stdout)
    assert elsewhere == {**wanted(rows), ("far", "20.1/a"): counts["no region for the client's address"]}
    only = invoke(*words, "--prefix", "20.500.1234")
    assert counts_of(only.stdout) == {key: it for key, it in wanted(rows).items() if key[1].startswith("20.500.1234/")}
    assert "a handle of another prefix" in only.stderr


ESCAPED = {
    r"GET /20.5/a\b HTTP/1.1": r"20.5/a\b",
    "GET /20.5/a#22#5C#23x HTTP/1.1": '20.5/a"\\#x',
    "GET /hdl:20.5/c%41 HTTP/1.1": "20.5/cA",
    "GET /20.5/x%zz HTTP/1.1": "",
    "GET /20.5/x%2 HTTP/1.1": "",
    "<BADREQ>": "",
}
MARKED = '10.1.2.3 haproxy - [26/Nov/2026:10:00:00 +0000] "{}" 307 86 "eu:0" "paris:2"'
HTTPLOG = 'Nov 26 10:00:01 lb haproxy[7]: 10.1.2.3:5123 [26/Nov/2026:10:00:00.655] in~ s/s1 1/0/3/9 200 27 - - {x} "{}"'


@pytest.mark.parametrize("line, more", [(MARKED, []), (MARKED, [proxy_line(asked(1, 8)[0])]), (HTTPLOG, [])])
def test_a_log_of_haproxy_is_read_by_its_own_escapes(tmp_path: Path, line: str, more: list[str]) -> None:
    """Also among lines of others, which are looked at one by one; and what HAProxy answers 400 is no query."""
    lines = [line.replace("{}", request) for request in ESCAPED]
    (tmp_path / "log").write_text("\n".join([*lines, *more, ""]))
    words = ["demand", tmp_path / "log", "--regions", regions_file(tmp_path), "--to", "2026-11-26T10:30"]
    result = invoke(*words)
    others = {key for it in more for key in wanted(asked(1, 8))}
    found = {handle for region, handle in counts_of(result.stdout).keys() - others}
    assert found == set(filter(None, ESCAPED.values()))
    assert "2  a % without two digits" in result.stderr and "1  another request than GET" in result.stderr


def test_nested_json_is_read(tmp_path: Path) -> None:
    """Caddy's log has the client's address in an object of its own."""
    line = {"ts": 1795687200.5, "request": {"remote_ip": "10.1.2.3", "uri": "/20.5/a?x"}, "status": 307}
    (tmp_path / "log").write_text(json.dumps(line) + "\n")
    names = ["--client", "request.remote_ip", "--path", "request.uri", "--time", "ts", "--from", "2026-11-26T09:00"]
    result = invoke("demand", tmp_path / "log", "--regions", regions_file(tmp_path), *names)
    assert {handle for _, handle in counts_of(result.stdout)} == {"20.5/a"}


def random_networks(draw: random.Random) -> dict[str, str]:
    """Networks of both kinds, many of them inside others."""
    found = {}
    for number in range(600):
        version = draw.choice((4, 6))
        bits = 32 if version == 4 else 128
        base = draw.choice((0, 10 << 24, 255 << 24)) if version == 4 else draw.choice((0, 0x20010DB8 << 96))
        prefix = draw.choice((0 if version == 4 else 20, 8, 9, 12, 16, 23, 24, 30, bits - 1, bits))
        first = (base + draw.getrandbits(bits - 8)) >> (bits - prefix) << (bits - prefix)
        kind = ipaddress.IPv4Network if version == 4 else ipaddress.IPv6Network
        found[str(kind((first, prefix)))] = f"r{number % 60}"
    return found


def random_addresses(draw: random.Random, networks: dict[str, str]) -> list[str]:
    """Addresses in networks, just beside them, and anywhere."""
    found = []
    for it in networks:
        network = ipaddress.ip_network(it)
        most = (1 << network.max_prefixlen) - 1
        first, last = int(network.network_address), int(network.broadcast_address)
        beside = (max(0, first - 1), min(most, last + 1))
        for number in (first, last, *beside, draw.randint(first, last), draw.randint(0, most)):
            kind = ipaddress.IPv4Address if network.version == 4 else ipaddress.IPv6Address
            found.append(str(kind(number)))
    return found


def test_regions_are_those_of_ipaddress(tmp_path: Path) -> None:
    draw = random.Random(12)
    networks = random_networks(draw)
    rows = list(networks.items())
    draw.shuffle(rows)
    table = "network,region\r\n" + "".join(f'"{it}",{region}\r\n' for it, region in rows)
    own = Networks("t", table.encode(), None)
    known, addresses = parsed(networks), random_addresses(draw, networks)
    assert len(addresses) == 6 * len(networks) > 2000
    kinds = set()
    for it in addresses:
        region, found = region_of(it, known), own.seek(it.encode())
        assert found == (region.encode() if region else "no region for the client's address"), it
        kinds.add(region is None)
    assert kinds == {True, False} and "0.0.0.0/0" in networks
    for it in addresses[:200]:
        if ":" not in it:
            assert own.seek(f"::ffff:{it}".encode()) == own.seek(it.encode())
    assert own.seek(b"[2001:db8::1%eth0]") == own.seek(b"2001:db8::1")
    for odd in (b"", b"-", b"10.1", b"10.1.2.3.4", b"\xff", b"host", b"::g", b"10.1.2.256"):
        assert own.seek(odd) == "the client isn't an IP address"


def test_regions_of_a_maxmind_database(tmp_path: Path) -> None:
    pytest.importorskip("maxminddb")
    said = {
        it: {"continent": {"code": region.upper()}, "country": {"iso_code": region}} for it, region in NETWORKS.items()
    }
    path = tmp_path / "base.mmdb"
    path.write_bytes(maxmind.database({**said, "198.51.100.0/24": {"continent": {}}}))
    base = Database(str(path), "country.iso_code", None)
    table = regions_in(regions_file(tmp_path), "", None)
    draw = random.Random(13)
    for it in random_addresses(draw, NETWORKS) + CLIENTS + ["198.51.100.1"]:
        assert base.seek(it.encode()) == table(it.encode()), it
    rows = asked(300, 14)
    (tmp_path / "log").write_text("\n".join(map(server_line, rows)), encoding="utf-8")
    result = invoke("demand", tmp_path / "log", "--regions", path)
    assert counts_of(result.stdout) == {(key[0].upper(), key[1]): it for key, it in wanted(rows).items()}
    octets = path.read_bytes()
    for cut in (octets[: len(octets) // 2] + octets[-300:], octets[:-40], b"\xff" * 300 + octets[-260:]):
        path.write_bytes(cut)
        result = invoke("demand", tmp_path / "log", "--regions", path, status=1)
        assert result.stderr.startswith("hsp: ") and result.stderr.count("\n") == 1


def test_a_cut_log_names_the_line_that_it_ends_in(tmp_path: Path) -> None:
    draw = random.Random(15)
    lines = [server_line(Asked("10.1.2.3", "eu", f"20.1/{draw.random()}")) + "\n" for _ in range(5000)]
    whole = gzip.compress("".join(lines).encode())
    (tmp_path / "cut.gz").write_bytes(whole[: len(whole) // 2])
    result = invoke("demand", tmp_path / "cut.gz", "--regions", regions_file(tmp_path), status=1)
    unpacked = subprocess.run(["gzip", "-dc", str(tmp_path / "cut.gz")], capture_output=True).stdout
    assert f"cut.gz: line {unpacked.count(10) + 1}: " in result.stderr


def test_random_octets_in_logs_end_well(tmp_path: Path) -> None:
    draw = random.Random(16)
    regions = regions_file(tmp_path)
    found = set()
    for number in range(80):
        name = draw.choice(list(FORMS))
        octets = bytearray("\n".join(lines_of(name, asked(30, number))).encode())
        for _ in range(draw.randint(1, 40)):
            at = draw.randrange(len(octets))
            octets[at : at + draw.randint(0, 3)] = draw.choice(
                (b"", b"\xff", b'"', b"\n", b"\0", b"\\", b"%", b"{", b"," * 9)
            )
        (tmp_path / "log").write_bytes(octets)
        result = run_here(["demand", tmp_path / "log", "--regions", regions, *OPTIONS.get(name, [])])
        assert result.exit_code == 0 or result.stderr.count("\n") == 1
        found.add(result.exit_code)
    assert found <= {0, 1} and 0 in found


def test_lines_of_any_length_have_their_numbers(tmp_path: Path) -> None:
    draw = random.Random(17)
    sizes = [draw.choice((0, 1, 50, LONGEST, LONGEST + 1, 1 << 20, 3 << 20)) for _ in range(60)]
    (tmp_path / "log").write_bytes(b"\n".join(b"x" * it for it in sizes))
    skipped = Skipped()
    found = [(number, len(line)) for number, line in numbered(str(tmp_path / "log"), skipped)]
    assert found == [(at, it) for at, it in enumerate(sizes, 1) if 0 < it <= LONGEST]
    assert skipped.sum == sum(it > LONGEST for it in sizes)


def service(tmp_path: Path) -> Path:
    """A folder with the sites of an example, and costs of the regions of these logs."""
    folder = tmp_path / "service"
    folder.mkdir()
    two = TOP / "examples" / "two-sites"
    shutil.copy(two / "settings.toml", folder)
    shutil.copy(two / "boundless.csv", folder / "capacity.csv")
    regions = enumerate(("eu", "us", "asia"))
    costs = [f"{region},{site},{10 + 7 * at}\n" for at, region in regions for site in ("paris", "reston")]
    (folder / "costs.csv").write_text("region,site,cost\n" + "".join(costs))
    return folder


def many(tmp_path: Path) -> tuple[Path, Counter[str]]:
    """A log of 20,000 handles, each asked for once."""
    rows = [Asked(CLIENTS[number % 3], "", f"20.500.1234/n{number}") for number in range(20_000)]
    path = tmp_path / "many.log"
    path.write_text("\n".join(map(server_line, rows)), encoding="utf-8")
    return path, Counter(str(region_of(it.client)) for it in rows)


def test_any_number_of_handles_is_counted(tmp_path: Path) -> None:
    """Above 8,192 rows as a log. What hsp.toml says of an older demand is taken out, and all else stays."""
    path, counts = many(tmp_path)
    folder = service(tmp_path)
    (folder / "hsp.toml").write_text('title = "Many"\n\n[demand]\nrows = "kinds"\nunit = 5\n')
    words = ("demand", path, "--regions", regions_file(tmp_path))
    result = invoke(*words, "--into", folder, "--log", folder / "log.csv")
    assert result.stderr == "" and result.stdout.splitlines() == [
        "1 log, 20,000 lines: 20,000 queries of 3 regions for 20,000 handles",
        f"{folder}/demand.csv has 20,000 rows",
        "no table holds it, as it has more than 8,192 rows: it is a log, and is planned by prices",
    ]
    table = counts_of((folder / "demand.csv").read_text())
    assert len(table) == 20_000 and set(table.values()) == {1} and Counter(region for region, _ in table) == counts
    assert (folder / "hsp.toml").read_text().strip() == 'title = "Many"'
    log = (folder / "log.csv").read_text().splitlines()
    assert log[0] == "region,handle" and log[2] == "us,20.500.1234/n1" and len(log) == 20_001
    assert invoke(*words).stdout == (folder / "demand.csv").read_text()


@pytest.mark.parametrize("is_long", [True, False])
def test_regions_without_costs_are_named(tmp_path: Path, is_long: bool) -> None:
    """A demand of any length is written all the same."""
    path, _ = many(tmp_path)
    if not is_long:
        path.write_text("".join(path.read_text().splitlines(True)[:100]))
    folder = service(tmp_path)
    (folder / "costs.csv").write_text("region,site,cost\neu,paris,1\n")
    result = invoke("demand", path, "--regions", regions_file(tmp_path), "--into", folder)
    assert result.stdout.splitlines()[-1] == f"{folder}/costs.csv has no cost yet of asia and us"
    assert len(counts_of((folder / "demand.csv").read_text())) == (20_000 if is_long else 100)


def test_counts_beyond_memory_give_the_same_demand(tmp_path: Path) -> None:
    path, _ = many(tmp_path)
    seek = regions_in(regions_file(tmp_path), "", None)
    found = []
    for most in (100, 1 << 20):
        programs = Programs()
        reading, tally = Reading(Form(), seek, Judge(programs, 1000)), Tally(programs, most)
        for part in parts_of([str(path)], reading):
            tally.count(part.counts)
        own = tally.demand()
        assert own.rows == 20_000 and own.why_log and tally.handles == (None if most == 100 else 20_000)
        assert tally.asked == 20_000 and tally.regions == {b"eu", b"us", b"asia"}
        found.append(b"".join(own.pieces()))
    assert found[0] == found[1]


def test_a_count_that_no_table_holds_makes_a_log() -> None:
    """1,001,000 queries of one pair, and 1,000,000."""
    tally = Tally(Programs())
    tally.count({(b"eu", b"20.1/a"): 1_001_000})
    own = tally.demand()
    assert b"".join(own.pieces()) == b"region,handle,count\neu,20.1/a,1001000\n"
    assert (own.rows, own.why_log) == (1, "a row has more than 1,000,000 queries")
    tally = Tally(Programs())
    tally.count({(b"eu", b"20.1/a"): 1_000_000})
    assert not tally.demand().why_log


def test_counts_that_were_put_into_files_are_one_log() -> None:
    """Pairs that come again after others were put away have several rows, which add up."""
    pairs = [((b"eu", b"us")[at % 2], b"20.1/%d" % (at // 2)) for at in range(60_000)] * 2
    tally = Tally(Programs(), most=20_000)
    for _ in tally.add(pairs):
        pass
    own = tally.demand()
    rows = b"".join(own.pieces()).decode().splitlines()[1:]
    sums: Counter[tuple[bytes, bytes]] = Counter()
    for row in rows:
        region, handle, count = row.split(",")
        sums[region.encode(), handle.encode()] += int(count)
    assert own.rows == len(rows) > len(sums) and sums == Counter(pairs)


def test_a_log_is_refused_that_hsplan_stream_refuses(tmp_path: Path) -> None:
    """As with 4,097 regions, of which it takes 4,096, and with a region that is no name."""
    for name, said in (("r", "log: TooManyRegions row 4096; join networks to at most 4,096 regions"), ("é", "BadName")):
        tally = Tally(Programs())
        tally.count({(f"{name}{at}".encode(), b"20.1/a"): 1_000_001 for at in range(4_097)})
        with pytest.raises(Exception, match=f"hsplan-stream refuses this demand: .*{said}"):
            tally.demand()


def test_a_plan_of_the_demand_answers_the_whole_log(hsp: Hsp, tmp_path: Path) -> None:
    folder = service(tmp_path)
    rows = [it for it in asked(LINES, 18) if it.region != "lab"]
    (tmp_path / "log").write_text("\n".join(map(proxy_line, rows)), encoding="utf-8")
    log = folder / "log.csv"
    hsp("demand", str(tmp_path / "log"), "--regions", regions_file(tmp_path), "--into", str(folder), "--log", str(log))
    hsp("plan", str(folder))
    files = [
        it
        for name in ("settings.toml", "demand.csv", "costs.csv", "capacity.csv")
        for it in (f"--{name.split('.')[0]}", str(folder / name))
    ]
    words = [os.environ["HSPLAN"], "dispatch", *files, "--plan", str(folder / "plan.txt"), "--log", str(log)]
    done = subprocess.run(words, capture_output=True, text=True, check=True)
    assert done.stderr == f"assigned {len(rows)} spent 0 unknown 0\n"
    assert done.stdout.count("\n") == len(rows)


def test_a_database_needs_its_package(tmp_path: Path, monkeypatch: pytest.MonkeyPatch) -> None:
    (tmp_path / "base.mmdb").write_bytes(maxmind.database({"10.0.0.0/8": {"continent": {"code": "EU"}}}))
    monkeypatch.setitem(sys.modules, "maxminddb", None)
    line = invoke("demand", tmp_path / "log", "--regions", tmp_path / "base.mmdb", status=5).stderr
    assert line.endswith("base.mmdb: Python has no maxminddb to read it: install it (Debian: python3-maxminddb)\n")


def processor_seconds(path: Path, seek: Seek) -> float:
    """The seconds of the processor that counting a log takes, those of hsplan-stream among them."""
    before = sum(os.times()[:4])
    tally = Tally(Programs())
    for part in parts_of([str(path)], Reading(Form(), seek, Judge(Programs()))):
        tally.count(part.counts)
    assert tally.asked == 20 * LINES
    return sum(os.times()[:4]) - before


def test_a_hundred_thousand_lines_take_less_than_a_second_of_the_processor(tmp_path: Path) -> None:
    """The best of three runs counts, since other work on the machine makes a run longer."""
    (tmp_path / "log").write_text("\n".join(map(server_line, asked(LINES, 21) * 20)), encoding="utf-8")
    seek = regions_in(regions_file(tmp_path), "", None)
    assert any(processor_seconds(tmp_path / "log", seek) < 2 for _ in range(3))


@pytest.mark.parametrize("is_packed", [False, True])
def test_progress_is_shown_on_a_terminal(tmp_path: Path, is_packed: bool) -> None:
    rows = asked(LINES, 22) * 4
    octets = "\n".join(map(server_line, rows)).encode()
    (tmp_path / "log").write_bytes(gzip.compress(octets) if is_packed else octets)
    own, its = pty.openpty()
    words = [sys.executable, "-m", "hsp", "demand", f"{tmp_path}/log", "--regions", regions_file(tmp_path)]
    done = subprocess.run([*words, "-o", "out.csv"], stdout=subprocess.PIPE, stderr=its, env=variables(), cwd=tmp_path)
    os.close(its)
    shown = os.read(own, 1 << 16).decode()
    os.close(own)
    line = rf"\r{tmp_path}/log: \d+,\d+ lines, [\d,]+ a second, \d+%, until \d\d:\d\d:\d\d"
    assert re.match(line, shown) and shown.endswith("\r\x1b[K")
    assert done.stdout.decode().splitlines()[-1].startswith("out.csv has ")


def test_a_row_that_hsplan_refuses_is_shown() -> None:
    """By its region and its handle, also where it isn't the first one. A database may name regions so."""
    tally = Tally(Programs())
    for _ in tally.add([(b"eu", b"20.500.1/a"), (b"eu", b"20.500.1/a"), (b"no name", b"20.500.1/b")]):
        pass
    refused = "hsplan refuses this demand: demand: BadName row 1 in the row 'no name,20.500.1/b,1'"
    with pytest.raises(Exception, match=refused):
        tally.demand()


@pytest.mark.parametrize("log", ["log", "absent"])
def test_what_tells_of_an_older_demand_is_taken_out_or_named(tmp_path: Path, log: str) -> None:
    """Before a log is read."""
    (tmp_path / "log").write_text(server_line(asked(1, 5)[0]))
    folder = service(tmp_path)
    (folder / "hsp.toml").write_text('demand = {rows = "kinds"}\n')
    said = invoke("demand", tmp_path / log, "--regions", regions_file(tmp_path), "--into", folder, status=1).stderr
    assert said.startswith(f"hsp: {folder}/hsp.toml: its table [demand] can't be taken out")
    assert not (folder / "demand.csv").exists()
