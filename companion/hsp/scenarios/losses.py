"""What is lost, and what then remains: a plan near the one in force, or how much room lacks."""

from collections.abc import Callable, Mapping
from dataclasses import dataclass, replace

from hsp.plans.joined import joined
from hsp.plans.plans import capacity_file, costs_file
from hsp.plans.service import Server, Service, dotted
from hsp.scenarios.judged import Judged, side_by_side
from hsp.scenarios.nearest import Portions

SITE, SERVER, HOST = "site", "server", "host"


@dataclass(frozen=True)
class Loss:
    """A site, a server, or a machine with several servers."""

    kind: str
    name: str
    servers: tuple[Server, ...]

    @property
    def folder(self) -> str:
        """The name of its folder below `fallback`."""
        return f"{self.kind}-{self.name.replace(' ', '-').replace(':', '.')}"


@dataclass(frozen=True)
class After:
    """What a loss leaves. Of a plan: its cost, the queries that it moves, and those that the loss itself moves.

    Of a shortage: how many queries its rows can't be served, and the servers that these rows may use.
    """

    loss: Loss
    service: Service
    cost: int | None
    moved: int | None = None
    forced: int = 0
    lack: int = 0


def losses_of(service: Service) -> list[Loss]:
    """Each site, each server, and each machine with a limit, or at one address, that has several servers."""
    found = [Loss(SITE, site.name, tuple(site.servers)) for site in service.sites]
    found += [Loss(SERVER, server.label, (server,)) for server in service.servers]
    machines: dict[str, list[Server]] = {}
    for server in service.servers:
        machines.setdefault(server.address.lower(), []).append(server)
    several = {address: own for address, own in machines.items() if len(own) > 1}
    return found + [Loss(HOST, dotted(address), tuple(own)) for address, own in several.items()]


def without(service: Service, loss: Loss, programs: Judged, more: Mapping[Server, int] | None = None) -> Service:
    """The service after a loss, with more room at some servers, and its certificate: a site's costs are left out, and
    servers take nothing."""
    room = dict(service.capacities)
    for server, own in (more or {}).items():
        room[server.site, server.id] += own
    costs, inputs = service.costs, service.inputs
    if loss.kind == SITE:
        costs = {key: cost for key, cost in costs.items() if key[1] != loss.name}
        inputs = inputs.but(costs=costs_file(programs, costs))
    else:
        room.update({(server.site, server.id): 0 for server in loss.servers})
    if more or loss.kind != SITE:
        inputs = inputs.but(capacity=capacity_file(programs, room))
    return replace(service, costs=costs, capacities=room, inputs=inputs)


def _planned(lost: Service, programs: Judged) -> Service:
    """The service after a loss with its plan, or its shortage, by rows."""
    certificate, path = programs.plan(joined(lost, programs))
    if lost.log and certificate.is_plan:
        programs.insist(lost.inputs, path)
    return replace(lost, certificate=certificate, plan_file=path)


def after(service: Service, loss: Loss, programs: Judged, portions: Portions | None) -> After:
    """What a loss leaves. With portions the plan is one near that in force."""
    lost = without(service, loss, programs)
    near = portions.nearest(lost) if portions else None
    if not near:
        lost = _planned(lost, programs)
        if not lost.certificate.is_plan:
            lack = lost.certificate.demand - lost.certificate.capacity
            programs.put_away(lost.plan_file)
            return After(loss, lost, None, lack=lack)
        near = portions.nearest(lost, lost.certificate) if portions else None
    if not near or not portions:
        return After(loss, lost, lost.certificate.cost)
    programs.put_away(near.portions.costs, near.portions_plan)
    forced = portions.forced(loss.servers)
    found = replace(lost, certificate=near.certificate, plan_file=near.plan_file)
    return After(loss, found, near.certificate.cost, near.moved, forced)


def survived(
    service: Service, programs: Judged, portions: Portions | None, done: Callable[[], None] = lambda: None
) -> list[After]:
    """What each loss leaves, the worst first: the greatest lack, then the dearest plan."""
    tasks: list[Callable[[], After]] = [
        lambda loss=loss: after(service, loss, programs, portions) for loss in losses_of(service)  # type: ignore[misc]
    ]
    return sorted(side_by_side(tasks, done), key=lambda found: (-found.lack, -(found.cost or 0)))
