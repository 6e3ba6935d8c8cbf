"""What the tests of plans in time share: drawn services with hosts, and their problems as integer programmes."""

import random
from collections.abc import Callable, Sequence
from pathlib import Path
from typing import Any

import numpy
from scipy import optimize

from hsp.plans.service import Service
from lib import examples

Draw = random.Random


def put(folder: Path, files: dict[str, bytes]) -> Path:
    folder.mkdir(parents=True, exist_ok=True)
    for name, octets in files.items():
        (folder / name).parent.mkdir(parents=True, exist_ok=True)
        (folder / name).write_bytes(octets)
    return folder


def demand_of(rows: list[tuple[str, str, int]]) -> bytes:
    return examples.table("region,handle,count", rows)


def service_in(
    folder: Path,
    sites: dict[str, list[str]],
    rows: list[tuple[str, str, int]],
    costs: Sequence[tuple[object, ...]],
    rooms: Sequence[tuple[object, ...]],
    hosts: Sequence[tuple[str, int]] = (),
) -> Path:
    """Writes a service: its sites with the addresses of their servers, the rows of its tables, and machines' limits."""
    records = [(name, examples.site_octets(name, 1, own)) for name, own in sites.items()]
    files = {
        "settings.toml": examples.settings_text(records) + examples.hosts_text(hosts),
        "demand.csv": demand_of(rows),
        "costs.csv": examples.table("region,site,cost", costs),
        "capacity.csv": examples.table("site,server_id,capacity", rooms),
    }
    return put(folder, files)


def drawn_service(draw: Draw, folder: Path, hosts: bool = True) -> Path:
    """Two or three sites of one to three servers, of which some share a machine, with room that is scarce."""
    names = ["a", "b", "c"][: draw.randint(2, 3)]
    addresses = {name: [f"192.0.2.{draw.randint(1, 4)}" for _ in range(draw.randint(1, 3))] for name in names}
    regions = ["x", "y"][: draw.randint(1, 2)]
    rows = [(region, f"20.1/{at}", draw.randint(0, 6)) for region in regions for at in range(draw.randint(2, 5))]
    whole = max(1, sum(row[2] for row in rows))
    servers = [(name, at + 1) for name in names for at in range(len(addresses[name]))]
    shared = sorted({own for group in addresses.values() for own in group})
    limits = [(own, draw.randint(whole // 2, whole)) for own in shared[:2]] if hosts else []
    costs = [(region, name, draw.randint(0, 4)) for region in regions for name in names]
    capacity = [(*server, draw.randint(1 + whole // 3, whole + 1)) for server in servers]
    return service_in(folder, addresses, rows, costs, capacity, limits)


class Flows:
    """The plans of a service as the points of an integer programme: a variable for each row and site."""

    def __init__(self, service: Service) -> None:
        self.service = service
        self.arcs = [(row, at) for row, own in enumerate(service.rows) for at in service.sites_for(own.region)]
        self.costs = numpy.array(
            [service.costs[service.rows[row].region, service.sites[at].name] for row, at in self.arcs], float
        )
        self.number = len(self.arcs)

    def _sum(self, takes: Callable[[int, int], bool]) -> list[float]:
        return [float(takes(row, at)) for row, at in self.arcs]

    def bounds(self) -> list[Any]:
        """Each row's count is met, and no server and no host is above what it takes."""
        service = self.service
        found = []
        for own, row in enumerate(service.rows):
            found.append((self._sum(lambda at, _, own=own: at == own), row.count, row.count))
        for server in service.servers:
            uses = self._sum(lambda row, at, own=server: service.server(at, service.rows[row].handle) == own)
            found.append((uses, 0, service.capacity(server)))
        for host in service.settings.get("host", []):
            uses = self._sum(
                lambda row, at, own=host["address"]: service.server(at, service.rows[row].handle).address == own
            )
            found.append((uses, 0, host["limit"]))
        return found

    def least(self, goal: Any, more: list[Any], extra: int = 0) -> float | None:
        """The least value of a goal over all plans, with so many variables more; None where there is no plan."""
        rows = [([*weights, *[0.0] * extra], low, high) for weights, low, high in self.bounds()] + more
        matrix, low, high = (numpy.array(own, float) for own in zip(*rows))
        found = optimize.milp(
            goal, constraints=optimize.LinearConstraint(matrix, low, high), integrality=numpy.ones(len(goal))
        )
        return None if found.x is None else float(found.fun)

    def cheapest(self) -> int | None:
        found = self.least(self.costs, [])
        return None if found is None else round(found)

    def fewest_moved(self, cost: int, old: dict[tuple[int, int], int]) -> int:
        """The fewest queries that a plan of this cost has no longer where `old` has them: a variable more for each
        arc, at least old - x and at least 0."""
        number = self.number
        more: list[Any] = [([*self.costs, *[0.0] * number], cost, cost)]
        for at, arc in enumerate(self.arcs):
            weights = numpy.zeros(2 * number)
            weights[at] = weights[number + at] = 1
            more.append((weights, old.get(arc, 0), numpy.inf))
        found = self.least(numpy.r_[numpy.zeros(number), numpy.ones(number)], more, number)
        assert found is not None
        return round(found)
