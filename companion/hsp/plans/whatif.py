"""The plan again with one thing changed, or several things together. Each line is a plan of hsplan."""

import re
from collections.abc import Callable, Iterable, Iterator, Sequence
from dataclasses import dataclass, replace
from fractions import Fraction

from hsp.base.grammar import HEADERS
from hsp.base.numbers import average, listed, queries_of, signed
from hsp.base.programs import Missing, Programs, table_text
from hsp.base.spelling import near
from hsp.base.text import bold, colored
from hsp.plans.counted import grown, is_log, rows_of, times
from hsp.plans.joined import joined
from hsp.plans.plans import capacity_file, costs_file
from hsp.plans.service import Row, Server, Service, table

# What is changed: room at a full server, a lost site, all demand, the size of one server, or what is named.
MORE, LOST, DEMAND, SIZE, TOGETHER = "more", "lost", "demand", "size", "together"
# What a name is changed to: a size or a cost, or a factor.
WHOLE, FACTOR = re.compile(r"[0-9]{1,10}"), re.compile(r"[0-9]{1,10}(\.[0-9]{1,9})?")
# What an option says each time.
Words = Sequence[str]
EIGHTHS = " \u258f\u258e\u258d\u258c\u258b\u258a\u2589"
FULL_BLOCK = "\u2588"


@dataclass(frozen=True)
class Case:
    """A change, and what the plan costs after it; or how many queries then cannot be served."""

    variant: str
    what: str
    room: int
    cost: int | None
    change: int | None
    lack: int


class Changes:
    """Plans a service again and again, each time with one thing changed."""

    def __init__(self, service: Service, programs: Programs, done: Callable[[], None] = lambda: None) -> None:
        self.service, self.programs, self.done = service, programs, done

    def planned(self, variant: str, what: str, room: int = 0, **changed: str) -> Case:
        inputs = joined(self.service, self.programs).but(**changed)
        if "demand" in changed:  # what no table can hold is planned as a log is
            inputs = replace(inputs, is_log=inputs.is_log or is_log(inputs.demand))
        certificate, _ = self.programs.plan(inputs)
        self.done()
        if not certificate.is_plan:
            return Case(variant, what, room, None, None, certificate.demand - certificate.capacity)
        now = self.service.certificate
        change = certificate.cost - now.cost if now.is_plan else None
        return Case(variant, what, room, certificate.cost, change, 0)

    def with_room(self, variant: str, server: Server, room: int) -> Case:
        """A server that can take so many queries."""
        capacities = {**self.service.capacities, (server.site, server.id): room}
        return self.planned(variant, server.label, room, capacity=capacity_file(self.programs, capacities))

    def without(self, site: str) -> Case:
        """No region may use the site."""
        costs = {key: cost for key, cost in self.service.costs.items() if key[1] != site}
        return self.planned(LOST, site, costs=costs_file(self.programs, costs))

    def with_demand(self, percent: float) -> Case:
        """Each row asks for more queries, rounded up; those of a log all together."""
        path = demand_times(self.service, self.programs, 1 + Fraction(percent) / 100)
        return self.planned(DEMAND, f"{percent:g}% more demand", demand=path)

    def together(self, servers: Words, lost: Words, costs: Words, demand: Words) -> Case:
        """All of these changes in one plan."""
        service = self.service
        rooms, paid = dict(service.capacities), dict(service.costs)
        for name, room in map(_change, servers):
            own = server_named(service, name)
            rooms[own.site, own.id] = int(room)
        for name, cost in map(_change, costs):
            region, _, site = name.partition(":")
            paid[region, _known(site, [it.name for it in service.sites], "site")] = int(cost)
        for site in lost:
            _known(site, [it.name for it in service.sites], "site")
        for name, factor in (_change(own, FACTOR) for own in demand):
            path = demand_times(service, self.programs, factor, _asked(service, name))
            rows = [] if service.log else [Row(region, handle, int(count)) for region, handle, count in table(path)]
            service = replace(service, inputs=service.inputs.but(demand=path), rows=rows)
        paid = {key: cost for key, cost in paid.items() if key[1] not in lost}
        files = {"costs": costs_file(self.programs, paid), "capacity": capacity_file(self.programs, rooms)}
        return self.planned(TOGETHER, "these changes", 0, demand=joined(service, self.programs).demand, **files)


def _change(words: str, numbers: re.Pattern[str] = WHOLE) -> tuple[str, Fraction]:
    """What is changed, and to which number."""
    name, _, number = words.rpartition("=")
    if not name or not numbers.fullmatch(number):
        whole = "a whole number" if numbers is WHOLE else "a number"
        raise Missing(f"'{words}' is no change: write a name, '=' and {whole}")
    return name, Fraction(number)


def _known(name: str, names: Sequence[str], what: str) -> str:
    """The name, which has to be one of these."""
    if name not in names:
        meant = near(name, names)
        raise Missing(f"no {what} '{name}'" + (f": did you mean {meant}?" if meant else ""))
    return name


def _asked(service: Service, name: str) -> str:
    """The name of a region, or a handle, of the demand."""
    if service.log and any(row.handle == name.encode() for rows in rows_of(service.inputs.demand) for row in rows):
        return name
    return _known(name, [*service.regions, *(row.handle for row in service.rows)], "region or handle")


def demand_times(service: Service, programs: Programs, factor: Fraction, name: str | None = None) -> str:
    """The demand where each row, or each of a region or a handle, asks for so many times as much. Each row is rounded
    up, and the rows of a log all together."""
    if service.log:
        path = programs.put(b"", ".csv")
        demand = service.inputs.demand if name and "/" in name else joined(service, programs).demand
        programs.add(path, grown(demand, factor, name))
        return path
    are_own = (name in (None, row.region, row.handle) for row in service.rows)
    counts = (times(row.count, factor) if is_own else row.count for row, is_own in zip(service.rows, are_own))
    lines = (f"{head}{count}\n" for head, count in zip(service.row_heads, counts))
    return programs.put(f"{HEADERS['demand']}\n{''.join(lines)}", ".csv")


def full_servers(service: Service) -> list[Server]:
    """The servers with a price, or all of them in a shortage."""
    if not service.certificate.is_plan:
        return service.servers
    prices = service.certificate.prices("server")
    return [server for server in service.servers if prices[server.number]]


def standard(changes: Changes, step: float) -> list[Case]:
    """A step of room at each full server, each site lost, and 10% more demand."""
    service = changes.service
    wider = []
    for server in full_servers(service):
        room = service.capacity(server)
        wider.append(changes.with_room(MORE, server, room + max(1, round(room * step / 100))))
    wider.sort(key=lambda case: (case.cost is None, case.cost or case.lack))
    lost = [changes.without(site.name) for site in service.sites]
    lost.sort(key=lambda case: (case.cost is not None, -(case.cost or case.lack)))
    return wider + lost + [changes.with_demand(10)]


def server_named(service: Service, words: str) -> Server:
    for server in service.servers:
        if words == f"{server.site}:{server.id}":
            return server
    if not service.servers:
        raise Missing(f"no server '{words}': the settings have no site")
    site = words.rpartition(":")[0]
    ids = [str(server.id) for server in service.servers if server.site == site]
    if ids:
        raise Missing(f"no server '{words}': {site} has {listed(ids, 8)}")
    meant = near(words, [f"{server.site}:{server.id}" for server in service.servers])
    first = service.servers[0]
    remedy = f"did you mean {meant}?" if meant else f"write site:identifier, as {first.site}:{first.id}"
    raise Missing(f"no server '{words}': {remedy}")


def sizes(changes: Changes, server: Server, low: int, high: int, points: int) -> list[Case]:
    """The cost by the size of one server, at so many sizes and at the one that it has."""
    steps = max(1, points - 1)
    rooms = {round(low + (high - low) * at / steps) for at in range(points)}
    own = changes.service.capacity(server)
    return [changes.with_room(SIZE, server, room) for room in sorted(rooms | ({own} if low <= own <= high else set()))]


def greatest(cases: Iterable[Case]) -> int:
    """The greatest change of all cases, or cost where there is no plan to change: the scale of all bars."""
    return max((abs(case.change if case.change is not None else case.cost or 0) for case in cases), default=0)


def bar(part: float, most: float, width: int = 24) -> str:
    """A bar of eighths of a letter, so that small differences show."""
    eighths = round(8 * width * part / most) if most else 0
    return FULL_BLOCK * (eighths // 8) + (EIGHTHS[eighths % 8] if eighths % 8 else "")


def _line(case: Case, most: int) -> str:
    if case.cost is None:
        return f"  {case.what:<18} {colored('short'.rjust(13), 'red')} by {queries_of(case.lack)}"
    change = case.change if case.change is not None else case.cost
    shown = signed(change) if case.change is not None else f"{case.cost:,}"
    colour = "green" if change < 0 else "yellow"
    return f"  {case.what:<18} {shown:>13}  {colored(bar(abs(change), most), colour)}".rstrip()


def lines(service: Service, cases: list[Case], step: float) -> Iterator[str]:
    """The cases, each kind under its head."""
    unit, now = service.unit, service.certificate
    if now.is_plan:
        yield f"now   {bold(f'{now.cost:,}{unit}')}, {average(now.cost, service.asked)}{unit} a query"
    else:
        yield f"now   {colored('short', 'red')} by {queries_of(now.demand - now.capacity)}"
    heads = {MORE: f"{step:g}% more room at", LOST: "without the site", DEMAND: "all regions together"}
    heads[TOGETHER] = "all changes in one plan"
    most = greatest(case for case in cases if case.variant in heads)
    for variant, head in heads.items():
        own = [case for case in cases if case.variant == variant]
        if own:
            yield bold(head)
        yield from (_line(case, most) for case in own)
    yield from size_lines(service, [case for case in cases if case.variant == SIZE])


def size_lines(service: Service, cases: list[Case]) -> Iterator[str]:
    if not cases:
        return
    own = next(server for server in service.servers if server.label == cases[0].what)
    yield bold(f"{'room at ' + own.label:<18}{'cost':>16}{'change':>14}")
    for case in cases:
        mark = "  now" if case.room == service.capacity(own) else ""
        if case.cost is None:
            yield f"{case.room:>18,}{'short':>16} by {queries_of(case.lack)}{mark}"
        else:
            yield f"{case.room:>18,}{case.cost:>16,}{signed(case.change) if case.change is not None else '':>14}{mark}"


def csv_of(cases: list[Case]) -> str:
    rows = ((it.variant, it.what, it.room or "", it.cost, it.change, it.lack or "") for it in cases)
    return table_text("case,what,room,cost,change,lack", rows)
