"""Services whose prices, classes and logs tools/measure/prices_peer.cpp draws, for the measurements by prices."""

import os
import random
import subprocess
from typing import NamedTuple

from lib import oracle, preload

MOST_CLASSES, NEARLY_ALL_NEW = 1_048_576, 1_000_000_000


class Case(NamedTuple):
    """A service that is drawn: so many sites with so many servers, from the fewest to the most a site, regions, the
    greatest cost and price. For each row that is asked for its log has so many rows, with counts up to the greatest
    and so many handles."""

    sites: int
    servers: int
    fewest: int
    most: int
    regions: int
    cost: int
    price: int
    times: int = 1
    most_count: int = 1000
    handles: int = NEARLY_ALL_NEW


def service_of(case: Case) -> oracle.Service:
    """The service. It is the same each time."""
    draw = random.Random(case.regions)
    sizes = [case.fewest] * case.sites
    while sum(sizes) < case.servers:
        at = draw.randrange(case.sites)
        sizes[at] += sizes[at] < case.most
    names = [f"s{at}" for at in range(case.sites)]
    sites = [oracle.Site(name, draw.randrange(3), tuple(range(1, size + 1))) for name, size in zip(names, sizes)]
    regions = [f"region-{at}" for at in range(case.regions)]
    costs = {(region, name): draw.randint(1, case.cost) for region in regions for name in names}
    return oracle.Service(tuple(sites), costs)


def make(folder: str, case: Case, peer: str, rows: int) -> None:
    """Makes the files of a case in a folder, where they aren't there yet."""
    if os.path.exists(os.path.join(folder, "wrong.prices")):
        return
    os.makedirs(folder, exist_ok=True)
    files = service_of(case).files()
    oracle.put_files(folder, {it: files[it] for it in ("settings.toml", "costs.csv")})
    numbers = (rows * case.times, MOST_CLASSES, case.price, case.most_count, case.handles)
    subprocess.run([peer, "make", *map(str, numbers)], cwd=folder, check=True)


def peer_in(folder: str) -> str:
    words = "g++ -O3 -std=c++20 -Wno-deprecated-declarations"
    return preload.compiled("measure/prices_peer.cpp", folder, words, "-lcrypto")


def lines_of(folder: str, name: str) -> list[bytes]:
    with open(os.path.join(folder, name), "rb") as file:
        return file.readlines()
