"""The inputs of the examples.

A number that is not written here is drawn from a digest of a word and of what the number is for. So each run writes
the same octets.
"""

import base64
import hashlib
import json
import math
import os
import urllib.parse
from collections.abc import Iterable, Sequence

from lib import programs

TOP = programs.TOP

Files = dict[str, bytes]
Row = tuple[object, ...]
# A row of a demand: a region, a handle and a count.
Demanded = tuple[str, str, int]
# A latitude and a longitude, in degrees.
Point = tuple[float, float]


BY_HANDLE = 2

INTERFACES = [(3, 0, 2641), (3, 1, 2641), (3, 2, 8000)]


def drawn(limit: int, *words: object) -> int:
    """A number below the limit that only the words decide."""
    digest = hashlib.sha256("/".join(str(it) for it in words).encode()).digest()
    return int.from_bytes(digest[:8], "big") % limit


def whole(number: int, octets: int) -> bytes:
    return number.to_bytes(octets, "big")


def counted(octets: bytes) -> bytes:
    return whole(len(octets), 4) + octets


def address_of(text: str) -> bytes:
    """The 16 octets of an IPv4 address: 12 zero octets, then its own 4."""
    return bytes(12) + bytes(int(it) for it in text.split("."))


def key_of(name: str, server_id: int) -> bytes:
    """A stand-in for a public key record: the planner carries it and never reads it."""
    modulus = hashlib.shake_128(f"{name}/{server_id}".encode()).digest(64)
    return counted(b"RSA_PUB_KEY") + whole(0, 2) + counted(whole(65537, 3)) + counted(modulus)


def interfaces_of(at: int, addresses: list[str]) -> list[tuple[int, int, int]]:
    """The interfaces of the server at a place. Those that stand at one address have ports of their own."""
    before = addresses[:at].count(addresses[at])
    return [(kind, protocol, port + before) for kind, protocol, port in INTERFACES]


def server_octets(name: str, at: int, addresses: list[str]) -> bytes:
    own = interfaces_of(at, addresses)
    interfaces = b"".join(whole(kind, 1) + whole(protocol, 1) + whole(port, 4) for kind, protocol, port in own)
    head = whole(at + 1, 4) + address_of(addresses[at]) + counted(key_of(name, at + 1))
    return head + whole(len(own), 4) + interfaces


def site_octets(name: str, serial: int, addresses: list[str]) -> bytes:
    """HS_SITE data of a site whose servers have the identifiers 1, 2, 3 and so on, and these addresses."""
    head = whole(1, 2) + bytes([2, 11]) + whole(serial, 2) + bytes([0, BY_HANDLE])
    attributes = whole(1, 4) + counted(b"desc") + counted(f"mirror {name}".encode())
    servers = [server_octets(name, at, addresses) for at in range(len(addresses))]
    return head + counted(b"") + attributes + whole(len(servers), 4) + b"".join(servers)


def value_octets(index: int, data: bytes) -> bytes:
    """A value of the type HS_SITE: permission 14, a relative lifetime of a day, and no references."""
    tail = bytes([14, 0]) + whole(86400, 4) + whole(1774000000, 8) + whole(0, 4)
    return whole(index, 4) + counted(b"HS_SITE") + counted(data) + tail


def values_octets(values: Sequence[tuple[int, bytes]]) -> bytes:
    return whole(len(values), 4) + b"".join(value_octets(index, data) for index, data in values)


def settings_text(sites: Iterable[tuple[str, bytes]]) -> bytes:
    return "".join(f'[[site]]\nname = "{name}"\nrecord = "{data.hex()}"\n' for name, data in sites).encode()


def hosts_text(hosts: Iterable[tuple[str, int]]) -> bytes:
    return "".join(
        f'[[host]]\naddress = "{address_of(address).hex()}"\nlimit = {limit}\n' for address, limit in hosts
    ).encode()


def table(header: str, rows: Sequence[Row]) -> bytes:
    return "".join(",".join(str(it) for it in row) + "\n" for row in [header.split(","), *rows]).encode()


TWO_SITES = {"paris": ["192.0.2.11", "192.0.2.12"], "reston": ["198.51.100.21", "198.51.100.22", "198.51.100.22"]}

TWO_CAPACITY = {"paris": 1500, "reston": 1450}

TWO_COSTS = [("eu", "paris", 12), ("eu", "reston", 84), ("us", "paris", 91), ("us", "reston", 17)]
TWO_COSTS += [("asia", "paris", 168), ("asia", "reston", 143)]

TWO_WEIGHTS = {"eu": 300, "us": 260, "asia": 120}

HANDLES = "report-2024 report-2025 dataset-7 dataset-19 dataset-23 thesis-0412 thesis-0977 map-12 map-31".split()
HANDLES += "film-5 audio-88 code-v3".split()


def two_handles() -> list[str]:
    return [f"20.500.1234/{it}" for it in HANDLES]


def two_demand() -> list[Demanded]:
    """Queries in the busiest hour. The first handles are asked for most, and each region asks for each handle."""
    rows = [(region, place, handle) for region in TWO_WEIGHTS for place, handle in enumerate(two_handles())]
    return [
        (region, handle, TWO_WEIGHTS[region] * 3 // (place + 2) + drawn(97, "count", region, handle))
        for region, place, handle in rows
    ]


def two_capacity(capacities: dict[str, int]) -> list[Row]:
    return [
        (name, at + 1, capacities[name] + 10 * at)
        for name, addresses in TWO_SITES.items()
        for at in range(len(addresses))
    ]


def wanted_more(rows: list[Demanded], name: str, times: int) -> list[Demanded]:
    """The rows, with the demand for one handle multiplied by `times`."""
    return [(region, handle, count * times if handle.endswith(name) else count) for region, handle, count in rows]


def log_rows(demand: list[Demanded], number: int, word: str) -> list[tuple[str, str]]:
    """This number of queries, each drawn by the counts of the demand."""
    tickets = [at for at, row in enumerate(demand) for _ in range(row[2])]
    return [demand[tickets[drawn(len(tickets), word, at)]][:2] for at in range(number)]


def two_pings() -> list[Row]:
    """Five measured times for each region and site. The middle one is the cost."""
    spread = [-3, -1, 0, 2, 40]
    return [
        (region, site, f"{cost + it}.{drawn(5, region, site, it)}") for region, site, cost in TWO_COSTS for it in spread
    ]


# The prices of the best plan, and its classes: the regions, the servers, and how many queries each server gets.
TWO_COST = 307216
TWO_PRICES = [0, 72, 0, 74, 0]
TWO_CLASSES = [("eu", {1: 315, 2: 213}), ("eu", {1: 335, 4: 0}), ("us", {0: 154, 3: 52})]


def two_certificate() -> bytes:
    lines = ["HSPLAN PRICES 1", "PLAN", f"cost {TWO_COST}"]
    lines += [f"server {server} {price}" for server, price in enumerate(TWO_PRICES)]
    for region, sent in TWO_CLASSES:
        lines.append(f"class {region} " + " ".join(f"{server} {queries}" for server, queries in sent.items()))
    return "".join(f"{line}\n" for line in [*lines, "END"]).encode()


def two_sites() -> Files:
    sites = [(name, site_octets(name, 7 + at, it)) for at, (name, it) in enumerate(TWO_SITES.items())]
    demand = two_demand()
    plain = settings_text(sites)
    return {
        "settings.toml": plain,
        "hosts.toml": plain + hosts_text([("198.51.100.22", 2000)]),
        "by_index.toml": b'[[site]]\nname = "paris"\nindex = 3\n[[site]]\nname = "reston"\nindex = 4\n',
        "sites.values": values_octets([(3, sites[0][1]), (4, sites[1][1])]),
        "paris.site": sites[0][1],
        "demand.csv": table("region,handle,count", demand),
        "premiere.csv": table("region,handle,count", wanted_more(demand, "film-5", 4)),
        "costs.csv": table("region,site,cost", TWO_COSTS),
        "capacity.csv": table("site,server_id,capacity", two_capacity(TWO_CAPACITY)),
        "boundless.csv": table("site,server_id,capacity", [(*row[:2], 10**9) for row in two_capacity(TWO_CAPACITY)]),
        "pings.csv": table("region,site,milliseconds", two_pings()),
        "log.csv": table("region,handle", log_rows(demand, 600, "two-sites")),
        "plan.prices": two_certificate(),
    }


PROTOCOLS = ["UDP", "TCP", "HTTP"]

# Networks of users. One lies within another, and one is of IPv6.
NETWORKS = [
    ("192.0.2.0/24", "eu"),
    ("192.0.2.128/26", "asia"),
    ("198.51.100.0/24", "us"),
    ("203.0.113.0/24", "asia"),
    ("2001:db8::/32", "eu"),
]

CLIENTS = {
    "eu": ["192.0.2.7", "192.0.2.201", "2001:db8::7"],
    "us": ["198.51.100.7", "198.51.100.90"],
    "asia": ["203.0.113.7", "192.0.2.130"],
}

NO_QUERIES = ["GET /favicon.ico", "GET /", "POST /20.500.1234/film-5", "GET /static"]


def server_json(name: str, at: int, addresses: list[str]) -> dict[str, object]:
    """A server as a handle proxy answers it."""
    key = {"format": "base64", "value": base64.b64encode(key_of(name, at + 1)).decode()}
    interfaces = [
        {"query": True, "admin": True, "protocol": PROTOCOLS[protocol], "port": port}
        for _, protocol, port in interfaces_of(at, addresses)
    ]
    return {"serverId": at + 1, "address": addresses[at], "publicKey": key, "interfaces": interfaces}


def site_json(name: str, serial: int, addresses: list[str]) -> dict[str, object]:
    head = {"version": 1, "protocolVersion": "2.11", "serialNumber": serial, "primarySite": False}
    attributes = [{"name": "desc", "value": name.title()}]
    servers = [server_json(name, at, addresses) for at in range(len(addresses))]
    return {**head, "multiPrimary": False, "attributes": attributes, "servers": servers}


def answer_json(index: int, name: str, serial: int, addresses: list[str]) -> bytes:
    """A handle proxy's answer for a handle that has the site and its administrator."""
    data = {"format": "site", "value": site_json(name, serial, addresses)}
    site = {"index": index, "type": "HS_SITE", "data": data}
    admin = {"handle": "0.NA/20.500.1234", "index": 200, "permissions": "011111110011"}
    values = [site, {"index": 100, "type": "HS_ADMIN", "data": {"format": "admin", "value": admin}}]
    rest = {"ttl": 86400, "timestamp": "2026-11-26T08:00:00Z"}
    answer = {"responseCode": 1, "handle": "0.NA/20.500.1234", "values": [{**it, **rest} for it in values]}
    return (json.dumps(answer, indent=1) + "\n").encode()


def access_line(time: str, client: str, request: str, status: int) -> str:
    return f'{client} - - [{time}] "{request} HTTP/1.1" {status} - "-" "curl/7.88.1"\n'


def time_of(hour: int, seconds: int) -> str:
    return f"26/Nov/2026:{hour:02}:{seconds // 60:02}:{seconds % 60:02} +0000"


def access_log(number: int) -> bytes:
    """The log of a handle proxy, in which each tenth line is no query that a handle server would see."""
    lines = []
    for at, (region, handle) in enumerate(log_rows(two_demand(), number, "bring-in")):
        client = CLIENTS[region][drawn(len(CLIENTS[region]), "client", at)]
        query = ["", "?noredirect", "?auth=true"][drawn(3, "query", at)]
        odd = NO_QUERIES[drawn(len(NO_QUERIES), "odd", at)]
        path = urllib.parse.quote(handle) if drawn(2, "quoted", at) else handle.replace("-", "%2D")
        request, status = (odd, 200) if at % 10 == 9 else (f"GET /{path}{query}", 302)
        lines.append(access_line(time_of(9, at * 6), client, request, status))
    return "".join(lines).encode()


# The hour, in the zone of the log, at which a region asks most.
NOONS = {"eu": 12, "us": 18, "asia": 5}


def hour_demand(hour: int) -> list[Demanded]:
    """The demand of an hour: a region asks for a quarter at midnight of what it asks for at noon."""
    away = {region: min(abs(hour - noon), 24 - abs(hour - noon)) for region, noon in NOONS.items()}
    return [(region, handle, count * (16 - away[region]) // 16) for region, handle, count in two_demand()]


def day_log(part: int) -> bytes:
    """The log of a handle proxy over a day, with one of so many queries."""
    lines = []
    for hour in range(24):
        demand = hour_demand(hour)
        number = sum(row[2] for row in demand) // part
        for at, (region, handle) in enumerate(log_rows(demand, number, f"day-{hour}")):
            client = CLIENTS[region][drawn(len(CLIENTS[region]), "client of the day", hour, at)]
            lines.append(access_line(time_of(hour, at * 3600 // number), client, f"GET /{handle}", 302))
    return "".join(lines).encode()


def bring_in() -> Files:
    return {
        "paris.json": answer_json(3, "paris", 7, TWO_SITES["paris"]),
        "reston.json": answer_json(4, "reston", 8, TWO_SITES["reston"]),
        "networks.csv": table("network,region", NETWORKS),
        "access.log": access_log(600),
        "day.log": day_log(40),
    }


# Degrees of latitude and longitude.
TWELVE_SITES = {
    "paris": (49, 2), "reston": (39, -77), "tokyo": (36, 140), "sydney": (-34, 151), "saopaulo": (-24, -47),
    "capetown": (-34, 18), "mumbai": (19, 73), "frankfurt": (50, 9), "oslo": (60, 11), "toronto": (44, -79),
    "seoul": (37, 127), "nairobi": (-1, 37),
}  # fmt: skip
REGIONS = {
    "eu-west": (48, 0), "eu-north": (58, 14), "eu-south": (41, 14), "us-east": (40, -76), "us-west": (38, -121),
    "latin": (-15, -60), "africa": (-5, 25), "india": (20, 78), "east-asia": (34, 122), "oceania": (-33, 147),
}  # fmt: skip
NUMBER_OF_HANDLES = 2400


def twelve_addresses() -> dict[str, list[str]]:
    return {
        name: [f"203.0.113.{16 * at + it}" for it in range(2 + drawn(6, "servers", name))]
        for at, name in enumerate(TWELVE_SITES)
    }


def twelve_count(place: int, region: str) -> int:
    """How many queries of a busy hour a region has for a handle. Most pairs have none."""
    asks = drawn(10, "asks", region, place) < 3
    return (42000 // (place + 20) + drawn(40, "count", region, place)) if asks else 0


def twelve_demand() -> list[Demanded]:
    pairs = [(region, place) for place in range(NUMBER_OF_HANDLES) for region in REGIONS]
    rows = [(region, f"20.500.{4000 + place % 7}/item-{place}", twelve_count(place, region)) for region, place in pairs]
    return [row for row in rows if row[2]]


def way(place: Point, other: Point) -> float:
    """About how many milliseconds a query takes between two places: the more, the farther apart they are on a flat
    map."""
    north = abs(place[0] - other[0])
    degrees = abs(place[1] - other[1])
    east = min(degrees, 360 - degrees) * 0.7
    return 6 + int(1.6 * math.sqrt(north * north + east * east))


def twelve_costs() -> list[Row]:
    return [
        (region, site, way(REGIONS[region], TWELVE_SITES[site]) + drawn(9, "cost", region, site))
        for region in REGIONS
        for site in TWELVE_SITES
    ]


def twelve_sites() -> Files:
    addresses = twelve_addresses()
    demand = twelve_demand()
    capacity = [
        (name, at + 1, 12500 + drawn(6000, "capacity", name, at))
        for name, it in addresses.items()
        for at in range(len(it))
    ]
    return {
        "settings.toml": settings_text([(name, site_octets(name, 1, it)) for name, it in addresses.items()]),
        "demand.csv": table("region,handle,count", demand),
        "costs.csv": table("region,site,cost", twelve_costs()),
        "capacity.csv": table("site,server_id,capacity", capacity),
        "log.csv": table("region,handle", log_rows(demand, 100000, "twelve-sites")),
    }


def write(folder: str, files: Files) -> None:
    os.makedirs(os.path.join(TOP, folder), exist_ok=True)
    for name, octets in files.items():
        with open(os.path.join(TOP, folder, name), "wb") as file:
            file.write(octets)
