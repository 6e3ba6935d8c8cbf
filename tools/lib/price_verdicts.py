"""Certificates by prices, read and judged here by the definitions in the specs of hsp_price_text and hsp_prices."""

import re
from collections.abc import Iterator, Sequence
from typing import NamedTuple

from lib import oracle, prices

GREATEST_PRICE = GREATEST_AMOUNT = 10**12
GREATEST_SUM = 10**16
MOST_SERVERS = MOST_HOSTS = 1024
MOST_CLASSES = 1 << 20
NUMBER = re.compile(rb"0|[1-9][0-9]{0,19}")
NAME = re.compile(rb"[A-Za-z0-9._-]{1,64}")
REASONS = "Shape NoSuchServer NotLeast NoClass ClassSum Load Cost IdlePrice DemandSum CapacitySum NotShort".split()


class Bounds(NamedTuple):
    """What each server takes, and what the servers of each host take together."""

    capacities: Sequence[int]
    limits: Sequence[int]


class Class(NamedTuple):
    region: bytes
    servers: tuple[int, ...]
    amounts: tuple[int, ...]

    @property
    def key(self) -> prices.Key:
        return self.region, self.servers


def _spelt(words: Sequence[bytes]) -> list[int] | None:
    """The numbers that words spell, where each spells one."""
    return [int(word) for word in words] if all(map(NUMBER.fullmatch, words)) else None


class Claim:
    """What a certificate says: of a plan, or of servers that are short. It is read line by line."""

    def __init__(self) -> None:
        self.kind = b""
        self.sums: dict[bytes, int] = {}
        self.servers: list[int] = []
        self.hosts: list[int] = []
        self.classes: list[Class] = []

    def takes(self, at: int, line: bytes) -> bool:
        """Whether a line can stand at this place, behind those that were taken."""
        if at == 0:
            return line == b"HSPLAN PRICES 1"
        if at == 1:
            self.kind = line
            return line in (b"PLAN", b"SHORT")
        word, *rest = line.split(b" ")
        if word == b"class" and self.kind == b"PLAN":
            return at > 2 and self._takes_class(rest)
        numbers = _spelt(rest)
        if numbers is None:
            return False
        if word in (b"cost", b"demand", b"capacity"):
            return self._takes_sum(word, numbers)
        if word == b"END":
            return numbers == [] and set(self.sums) in ({b"cost"}, {b"demand", b"capacity"})
        return self._takes_price(word, numbers) if self.kind == b"PLAN" else self._takes_server(word, numbers)

    def _takes_sum(self, word: bytes, numbers: list[int]) -> bool:
        """The cost comes first in a plan, the capacity behind the demand in a shortage, and each once."""
        before = {b"capacity": {b"demand"}}.get(word, set())
        is_in_place = set(self.sums) == before and (word == b"cost") == (self.kind == b"PLAN")
        if not is_in_place or len(numbers) != 1 or numbers[0] > GREATEST_SUM:
            return False
        self.sums[word] = numbers[0]
        return True

    def _takes_price(self, word: bytes, numbers: list[int]) -> bool:
        """Prices are numbered, those of servers before those of hosts, and both before classes."""
        known, most = (self.servers, MOST_SERVERS) if word == b"server" else (self.hosts, MOST_HOSTS)
        is_in_place = word == b"host" or word == b"server" and not self.hosts
        if not self.sums or self.classes or not is_in_place or len(numbers) != 2:
            return False
        number, price = numbers
        if number != len(known) or number >= most or price > GREATEST_PRICE:
            return False
        known.append(price)
        return True

    def _takes_server(self, word: bytes, numbers: list[int]) -> bool:
        if word != b"server" or self.sums or len(numbers) != 1 or numbers[0] >= MOST_SERVERS:
            return False
        ascends = not self.servers or self.servers[-1] < numbers[0]
        self.servers.append(numbers[0])
        return ascends

    def _takes_class(self, words: Sequence[bytes]) -> bool:
        """A class has two servers or more, which ascend, and stands behind those before it."""
        numbers = _spelt(words[1:])
        if not words or not NAME.fullmatch(words[0]) or not numbers or len(numbers) % 2 or len(numbers) < 4:
            return False
        own = Class(words[0], tuple(numbers[::2]), tuple(numbers[1::2]))
        ascends = list(own.servers) == sorted(set(own.servers)) and own.servers[-1] < MOST_SERVERS
        is_behind = not self.classes or self.classes[-1].key < own.key
        self.classes.append(own)
        return ascends and is_behind and max(own.amounts) <= GREATEST_AMOUNT and len(self.classes) <= MOST_CLASSES


def read(text: bytes) -> Claim | str:
    """What a text claims, or the words of its fault."""
    claim = Claim()
    *lines, rest = text.split(b"\n")
    for at, line in enumerate(lines):
        if not claim.takes(at, line):
            return f"BadLine line {at + 1}"
        if line == b"END":
            return f"AfterEnd line {at + 2}" if lines[at + 1 :] or rest else claim
    return "Ended"


class Brought(NamedTuple):
    """What the rows of a log bring by the prices of a plan: what each class asks for, whether each row has a place, the
    loads of servers, and the cost."""

    asked: dict[prices.Key, int]
    are_placed: bool
    loads: list[int]
    cost: int


def brought(service: oracle.Service, rows: Sequence[oracle.Row], claim: Claim) -> Brought:
    """The rows go to their least server, where they have only one, and otherwise count for their class."""
    beside = prices.extras(service, claim.servers, claim.hosts)
    asked = {own.key: 0 for own in claim.classes}
    seen, are_placed, loads, cost = set(), True, [0] * len(beside), 0
    for row in rows:
        least = prices.least(prices.ways(service, row), beside)
        key = (row[0].encode(), tuple(way.server for way in least))
        if len(least) == 1:
            loads[least[0].server] += row[2]
            cost += least[0].cost * row[2]
        elif key in asked:
            seen.add(key)
            asked[key] += row[2]
        else:
            are_placed = are_placed and not least and row[2] == 0
    return Brought({key: asked[key] for key in seen}, are_placed, loads, cost)


def of_classes(service: oracle.Service, claim: Claim, loads: list[int]) -> int:
    """What the classes cost. What they send is added to the loads."""
    site_of = [site.name for site in service.sites for _ in site.servers]
    cost = 0
    for own in claim.classes:
        for server, amount in zip(own.servers, own.amounts):
            loads[server] += amount
            cost += service.costs[own.region.decode(), site_of[server]] * amount
    return cost


def on_hosts(service: oracle.Service, loads: Sequence[int]) -> list[int]:
    """What the servers of each host have together."""
    on = prices.hosts_of(service)
    return [sum(load for load, own in zip(loads, on) if own == host) for host in range(service.hosts)]


def caught_by(service: oracle.Service, rows: Sequence[oracle.Row], servers: Sequence[int]) -> int:
    """What the rows ask for that may use only these servers."""
    return sum(row[2] for row in rows if all(way.server in servers for way in prices.ways(service, row)))


def taken_by(service: oracle.Service, bounds: Bounds, servers: Sequence[int]) -> int:
    """What these servers take, those of a host no more than its limit."""
    room = [bound if at in servers else 0 for at, bound in enumerate(bounds.capacities)]
    free = sum(bound for bound, host in zip(room, prices.hosts_of(service)) if host is None)
    return free + sum(min(pair) for pair in zip(on_hosts(service, room), bounds.limits))


def _of_plan(
    service: oracle.Service, bounds: Bounds, rows: Sequence[oracle.Row], claim: Claim
) -> Iterator[tuple[str, bool]]:
    """The reasons against a plan, and whether each stands, as long as none before it does."""
    yield "Shape", [len(claim.servers), len(claim.hosts)] != list(map(len, bounds))
    yield "NoSuchServer", any(own.servers[-1] >= len(bounds.capacities) for own in claim.classes)
    found = brought(service, rows, claim)
    yield "NotLeast", len(found.asked) < len(claim.classes)
    yield "NoClass", not found.are_placed
    yield "ClassSum", any(sum(own.amounts) != found.asked[own.key] for own in claim.classes)
    cost = found.cost + of_classes(service, claim, found.loads)
    taken = [*zip(found.loads, bounds.capacities, claim.servers)]
    taken += zip(on_hosts(service, found.loads), bounds.limits, claim.hosts)
    yield "Load", any(load > bound for load, bound, _ in taken)
    yield "Cost", claim.sums[b"cost"] != cost
    yield "IdlePrice", any(load < bound and price > 0 for load, bound, price in taken)


def _of_set(
    service: oracle.Service, bounds: Bounds, rows: Sequence[oracle.Row], claim: Claim
) -> Iterator[tuple[str, bool]]:
    """The same for a shortage."""
    yield "NoSuchServer", any(server >= len(bounds.capacities) for server in claim.servers)
    yield "DemandSum", claim.sums[b"demand"] != caught_by(service, rows, claim.servers)
    yield "CapacitySum", claim.sums[b"capacity"] != taken_by(service, bounds, claim.servers)
    yield "NotShort", claim.sums[b"capacity"] >= claim.sums[b"demand"]


def verdict(service: oracle.Service, bounds: Bounds, rows: Sequence[oracle.Row], claim: Claim) -> str:
    """Yes, or no with the number and the word of the first reason that stands."""
    reasons = (_of_plan if claim.kind == b"PLAN" else _of_set)(service, bounds, rows, claim)
    reason = next((word for word, stands in reasons if stands), None)
    return f"no {REASONS.index(reason) + 1} {reason}" if reason else "yes"
