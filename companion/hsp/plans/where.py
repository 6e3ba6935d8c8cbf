"""Where the queries for one handle go by a plan: what hsplan or hsplan-stream answers, and what each server costs."""

from collections.abc import Iterator
from dataclasses import dataclass, replace

from hsp.base.numbers import percent
from hsp.base.programs import Prices, Programs
from hsp.base.spelling import near
from hsp.base.text import bold, colored, escaped
from hsp.plans.counted import counted_in
from hsp.plans.flows import beside_of
from hsp.plans.service import Server, Service

ASSIGNED, REFUSED, SPENT, UNKNOWN = "assigned", "refused", "spent", "unknown"


@dataclass(frozen=True)
class Choice:
    """A server that a handle may use: what a query costs and pays there, and how many queries like it go there.

    Queries like it are those of its row or its class. Of a handle that pays least at one server no number is known.
    """

    server: Server
    cost: int
    pays: int
    queries: int | None

    @property
    def price(self) -> int:
        """The prices of the server and of its machine."""
        return self.pays - self.cost


@dataclass(frozen=True)
class Where:
    """What a query is answered, and the servers that it may use, those first where it pays least.

    A query that is in no row of the demand is answered by prices.
    """

    answer: str
    choices: list[Choice]
    is_by_prices: bool = False

    @property
    def servers(self) -> list[Server]:
        """The servers to which such queries go; the one that is answered first."""
        word, *rest = self.answer.split()
        if word != ASSIGNED:
            return []
        own = [choice for choice in self.choices if [choice.server.site, str(choice.server.id)] == [rest[0], rest[2]]]
        own += [choice for choice in self.choices if choice.queries and choice not in own]
        return [choice.server for choice in own]


def _of_class(service: Service, region: str, servers: list[int]) -> dict[int, int]:
    """What the class of a region and its least servers sends to each."""
    certificate = service.certificate
    own = certificate.classes if isinstance(certificate, Prices) else []
    return next((amounts for name, amounts in own if name == region and sorted(amounts) == sorted(servers)), {})


def _of_row(service: Service, region: str, handle: str) -> dict[int, int]:
    """What the row of a handle sends to each server."""
    own = next(at for at, row in enumerate(service.rows) if (row.region, row.handle) == (region, handle))
    uses = (use for use in service.certificate.uses if use.row == own)
    return {service.server(use.site, handle).number: use.queries for use in uses}


def _by_prices(service: Service, programs: Programs) -> Service:
    """The service with a plan by prices of the same demand."""
    inputs = replace(service.inputs, is_log=True)
    certificate, path = programs.judged(inputs)
    return replace(
        service, inputs=inputs, certificate=certificate, plan_file=path, log=counted_in(service.inputs.demand)
    )


def where(service: Service, programs: Programs, region: str, handle: str) -> Where:
    """Where a query goes by the plan of a service; of one that its table lacks, by prices of the same demand."""
    if not service.log and all((row.region, row.handle) != (region, handle) for row in service.rows):
        return replace(where(_by_prices(service, programs), programs, region, handle), is_by_prices=True)
    answer = programs.where(service.inputs, service.plan_file, region, handle)
    if answer.startswith(REFUSED):
        return Where(answer, [])
    places, beside = programs.places(service.inputs, [handle]), beside_of(service)
    found = []
    for at in service.sites_for(region):
        site = service.sites[at]
        server = site.servers[places[handle, site.name]]
        cost = service.costs[region, site.name]
        found.append((server, cost, cost + beside[server.number]))
    least = min((pays for _, _, pays in found), default=0)
    if service.log:
        amounts = _of_class(service, region, [server.number for server, _, pays in found if pays == least])
    else:
        amounts = _of_row(service, region, handle)
    choices = [Choice(server, cost, pays, amounts.get(server.number)) for server, cost, pays in found]
    return Where(answer, sorted(choices, key=lambda choice: (choice.pays, choice.server.number)))


def reason(service: Service, found: Where, region: str) -> str:
    """Which file lacks what, where a query has no server or no row for that; nothing where the answer says why."""
    costs, demand = service.inputs.costs, service.inputs.demand
    if found.answer == SPENT:
        return f"{demand} counts 0 queries for it"
    if found.answer == UNKNOWN:
        known = dict.fromkeys(name for name, _ in service.costs)
        meant = near(region, known)
        return f"{costs} has no cost of {region} at any site" + (f"; did you mean {meant}?" if meant else "")
    is_answered = found.is_by_prices and found.choices
    return f"{demand} has no row of it, so this is by prices of the same demand" if is_answered else ""


def lines(service: Service, found: Where, region: str, handle: str) -> Iterator[str]:
    """The answer, why it names no server, and a line for each server that the handle may use."""
    goes = f"goes to {' or '.join(server.label for server in found.servers)}" if found.servers else found.answer
    yield f"{bold(escaped(handle))} from {escaped(region)}  {colored(goes, 'green' if found.servers else 'yellow')}"
    why = reason(service, found, region)
    if why:
        yield f"  why  {escaped(why)}"
    wide = max((len(choice.server.label) for choice in found.choices), default=0)
    whole = sum(choice.queries or 0 for choice in found.choices)
    for choice in found.choices:
        price = f" and its price {choice.price:,}" if choice.price else ""
        is_split = choice.queries and len(found.servers) > 1
        part = f"; {percent(choice.queries or 0, whole)} of such queries" if is_split else ""
        yield f"  {choice.server.label.ljust(wide)}  pays {choice.pays:,}{service.unit}: cost {choice.cost:,}{price}{part}"


def json_of(service: Service, found: Where, region: str, handle: str) -> dict[str, object]:
    """The same for other programs. What needs no reason has null."""
    servers = [{**it.server.said, "cost": it.cost, "price": it.price, "queries": it.queries} for it in found.choices]
    why = reason(service, found, region) or None
    return {"region": region, "handle": handle, "answer": found.answer, "why": why, "servers": servers}
