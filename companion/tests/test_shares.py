"""What shares of regions do by themselves, against sums over `hsplan locate` that are made here."""

import functools
import json
import os
import subprocess
from collections import defaultdict
from fractions import Fraction
from pathlib import Path

from scipy import optimize

from hsp.plans.plans import by_shares, planned

from conftest import Example, Hsp
from services import read, rows, table_of

Server = tuple[str, int]
# How many queries of each region a server is responsible for, by region and site.
Counts = dict[tuple[str, str], dict[Server, int]]


@functools.cache
def located(settings: str, handle: str) -> list[Server]:
    """The responsible server of a handle at each site, as `hsplan locate` prints them: site, place, identifier."""
    words = [os.environ["HSPLAN"], "locate", "--settings", settings, "--", handle]
    lines = subprocess.run(words, capture_output=True, text=True, check=True).stdout.splitlines()
    fields = (line.split() for line in lines)
    return [(site, int(number)) for site, _, number in fields]


def counts_of(folder: Path) -> Counts:
    found: Counts = defaultdict(lambda: defaultdict(int))
    for region, handle, count in rows(folder / "demand.csv"):
        for server in located(str(folder / "settings.toml"), handle):
            found[region, server[0]][server] += int(count)
    return found


def loads_by(shares: dict[tuple[str, str], Fraction], counts: Counts) -> dict[Server, Fraction]:
    """What each server gets where every handle of a region is split by the region's shares."""
    loads: dict[Server, Fraction] = defaultdict(Fraction)
    for key, servers in counts.items():
        for server, count in servers.items():
            loads[server] += count * shares.get(key, Fraction(0))
    return loads


def shares_of(folder: Path, hsp: Hsp, *words: str) -> dict[tuple[str, str], Fraction]:
    """The shares of the plan, from the table that `hsp plan` prints."""
    printed = table_of(hsp("plan", str(folder), *words, "--csv", "--no-save").stdout)
    asked: dict[str, int] = defaultdict(int)
    for it in printed:
        asked[it["region"]] += int(it["queries"])
    return {(it["region"], it["site"]): Fraction(int(it["queries"]), asked[it["region"]]) for it in printed}


def capacities(folder: Path) -> dict[Server, int]:
    return {(site, int(number)): int(room) for site, number, room in rows(folder / "capacity.csv")}


def test_the_line_has_the_sums_over_locate(hsp: Hsp, folder: Path) -> None:
    loads = loads_by(shares_of(folder, hsp), counts_of(folder))
    over = {it: loads[it] - room for it, room in capacities(folder).items() if loads[it] > room}
    assert set(over) == {("paris", 2), ("reston", 2)} and round(sum(over.values())) == 476
    lines = hsp("plan", str(folder), "--no-save").stdout.splitlines()
    assert "by shares of regions only  2 of 5 servers too full, 476 queries too many" in lines
    said = json.loads(hsp("plan", str(folder), "--no-save", "--json").stdout)
    assert said["by_shares_alone"] == {"servers_too_full": 2, "queries_too_many": 476}


def test_shares_that_fit_are_said_to_fit(hsp: Hsp, example: Example) -> None:
    assert "by shares of regions only  no server too full" in hsp("plan", str(example("base")), "--no-save").stdout


def test_a_machine_above_its_limit_is_counted(hsp: Hsp, folder: Path) -> None:
    """reston 2 and 3 share a machine with a limit of 2,000."""
    loads = loads_by(shares_of(folder, hsp, "--settings", str(folder / "hosts.toml")), counts_of(folder))
    assert loads["reston", 2] + loads["reston", 3] > 2000
    line = hsp("plan", str(folder), "--settings", str(folder / "hosts.toml"), "--no-save").stdout.splitlines()[-2]
    assert line.startswith("by shares of regions only  ") and line.endswith("; 1 machine above its limit")


def test_twelve_of_the_servers_of_twelve_sites_are_too_full(twelve: Path) -> None:
    service, programs = read(twelve)
    found = by_shares(planned(service, programs))
    assert (found.servers, found.all_servers) == (12, 66)


def test_no_shares_of_regions_fit_two_sites(folder: Path) -> None:
    """Unknowns are the share of each region that asks paris, and a factor of all capacities. The least factor with
    which some shares fit is 1.087, so with the capacities as they are none fit."""
    counts = counts_of(folder)
    regions = sorted({region for region, _ in counts})
    loads, most = [], []
    for server, room in capacities(folder).items():
        own = [counts[region, server[0]][server] for region in regions]
        is_asked = server[0] == "paris"
        loads.append([*(own if is_asked else [-it for it in own]), -room])
        most.append(0 if is_asked else -sum(own))
    shares = [(0, 1)] * len(regions)
    least = optimize.linprog([0] * len(regions) + [1], loads, most, bounds=[*shares, (None, None)])
    assert round(least.fun, 3) == 1.087
