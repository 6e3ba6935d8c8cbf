"""From what an operator has to a checked plan: a proxy's JSON of nine sites, a log with times, and a table of pings."""

import json
import random
import time
import tomllib
from pathlib import Path

from conftest import Hsp
from services import rows

SITES = ("paris", "reston", "tokyo", "sydney", "oslo", "lima", "cairo", "delhi", "seoul")
REGIONS = ("eu", "us", "asia", "latin")
# Seconds: the tour has to be done in three minutes.
MOST = 180
HANDLES, QUERIES = 300, 40_000


def servers_of(site: str) -> int:
    return 2 + SITES.index(site) % 3


def proxy_json() -> str:
    """What a handle proxy answers for a prefix with nine sites."""
    values = []
    for at, site in enumerate(SITES):
        interfaces = [{"query": True, "admin": False, "protocol": "TCP", "port": 2641}]
        servers = [
            {"serverId": own, "address": f"203.0.{at}.{own}", "interfaces": interfaces}
            for own in range(1, servers_of(site) + 1)
        ]
        head = {"version": 1, "protocolVersion": "2.11", "serialNumber": 1, "primarySite": at == 0}
        attributes = [{"name": "desc", "value": site}]
        said = {**head, "multiPrimary": False, "attributes": attributes, "servers": servers}
        data = {"format": "site", "value": said}
        values.append({"index": at + 1, "type": "HS_SITE", "data": data, "ttl": 86400})
    return json.dumps({"responseCode": 1, "handle": "0.NA/20.500.1", "values": values})


def way(region: str, site: str) -> int:
    return 10 + 23 * ((3 * REGIONS.index(region) + 5 * SITES.index(site)) % 9)


def access_log(draw: random.Random) -> str:
    """An hour of HAProxy's log, in which each server took some time for each query."""
    lines = []
    for number in range(QUERIES):
        region, site = draw.randrange(len(REGIONS)), draw.choice(SITES)
        second = number * 3600 // QUERIES
        clock = f"26/Nov/2026:09:{second // 60:02}:{second % 60:02}.{number % 1000:03}"
        spent = way(REGIONS[region], site) + draw.randrange(4)
        timers = f"0/0/1/{spent}/{spent + 1} 302 99 - - ---- 9/9/0/0/0 0/0"
        handle = f"20.500.1/item-{min(HANDLES - 1, int(draw.paretovariate(0.7)))}"
        server = f"b/{site}-{1 + number % servers_of(site)}"
        lines.append(f'10.{region}.0.{1 + number % 99}:40000 [{clock}] f {server} {timers} "GET /{handle} HTTP/1.1"\n')
    return "".join(lines)


def test_from_json_log_and_pings_to_a_checked_plan(tmp_path: Path, hsp_apart: Hsp) -> None:
    (tmp_path / "answer.json").write_text(proxy_json())
    (tmp_path / "access.log").write_text(access_log(random.Random(9)))
    networks = "".join(f"10.{at}.0.0/16,{region}\n" for at, region in enumerate(REGIONS))
    (tmp_path / "networks.csv").write_text(f"network,region\n{networks}")
    pings = "".join(f"{region},{','.join(str(way(region, site) + 1.5) for site in SITES)}\n" for region in REGIONS[:3])
    (tmp_path / "pings.csv").write_text(f"region,{','.join(SITES)}\n{pings}")
    answer, log, nets, table, mine = (
        str(tmp_path / name) for name in ("answer.json", "access.log", "networks.csv", "pings.csv", "mine")
    )
    begun = time.monotonic()
    hsp_apart("new", mine)
    hsp_apart("sites", answer, "--into", mine)
    said = hsp_apart("demand", log, "--regions", nets, "--into", mine).stdout
    assert "a count is of the queries in 1 hour\n" in said and "40,000 queries of 4 regions" in said
    said = hsp_apart("costs", table, log, "--regions", nets, "--into", mine).stdout
    assert "not measured" not in said
    said = hsp_apart("capacity", "*=0.55", "paris=0.9", "--per", "second", "--into", mine).stdout
    assert said.startswith("queries that a server takes in 1 hour\n")
    said = hsp_apart("plan", mine).stdout
    assert "check yes: no plan within these capacities costs less" in said and " ms a query" in said
    spent = time.monotonic() - begun
    assert spent < MOST
    costs = {(region, site): int(cost) for region, site, cost in rows(Path(mine) / "costs.csv")}
    assert len(costs) == len(REGIONS) * len(SITES)
    assert all(0 <= cost - way(*pair) <= 4 for pair, cost in costs.items())
    assert tomllib.loads((Path(mine) / "hsp.toml").read_text()) == {"seconds": 3600, "time": "1 hour", "cost": "ms"}
    assert hsp_apart("doctor", mine).stdout.startswith("no fault")
