"""What a plan comes to: loads, shares, what room saves, and what would have to be bought. Each number is a plan's of
hsplan, or a sum of its uses that is compared with its reports."""

import json
import os
from collections import Counter
from collections.abc import Callable, Iterable, Mapping, Sequence
from dataclasses import dataclass, field, replace
from fractions import Fraction
from math import ceil
from typing import Any

from hsp.base.grammar import GREATEST_COST, HEADERS, MOST_SERVERS, MOST_SITES
from hsp.base.numbers import some
from hsp.base.programs import BOUNDLESS, Bound, Certificate, Class, Inputs, Missing, Programs
from hsp.plans.flows import classes_of, flows_of, loads_of, servers_of
from hsp.plans.flows import shares_of as shares_of_classes
from hsp.plans.joined import joined
from hsp.plans.service import Row, Server, Service, asked_by, dotted

# At most so many full servers are asked what room there saves, those with the greatest prices.
MOST_GAINS = 40

Shares = dict[tuple[str, int], int]
# How many queries of a region may go to a server of a site.
Leads = dict[tuple[str, int, int], int]
DIFFERS = "the uses by place differ from hsplan's report of {}: please report this with your files"


@dataclass(frozen=True)
class Gain:
    """What room at a full server saves: one query more, and as much room as is of use."""

    server: Server
    one: int
    room: int
    all: int


@dataclass(frozen=True)
class Host:
    """A machine with a limit: what its servers take together, and what one query more saves there, once planned."""

    address: str
    limit: int
    load: int
    price: int
    servers: list[Server]
    is_full: bool
    one: int = 0


@dataclass(frozen=True)
class Reference:
    """What a plan is held against: all ask their cheapest site, or another plan."""

    words: str
    cost: int
    asked: int
    loads: list[int]
    regions: dict[str, tuple[int, int]]
    shares: Shares


@dataclass(frozen=True)
class Planned:
    """A plan of a service, with the sums of hsplan's reports."""

    service: Service
    loads: list[int]
    prices: list[int]
    bound: Bound
    regions: dict[str, tuple[int, int]]
    shares: Shares
    uses: dict[int, list[tuple[int, int]]]
    leads: Leads
    hosts: list[Host]
    gains: list[Gain] = field(default_factory=list)
    # Of a log, in place of uses: what each region sends to the servers where its queries pay least.
    classes: list[Class] = field(default_factory=list)

    @property
    def cost(self) -> int:
        return self.service.certificate.cost

    def is_full(self, server: Server) -> bool:
        room = self.service.capacity(server)
        return 0 < room <= self.loads[server.number]

    @property
    def full(self) -> list[Server]:
        return [server for server in self.service.servers if self.is_full(server)]

    def added(self, row: int) -> int:
        """What a row costs above its cheapest site."""
        return self.added_at(self.service.rows[row].region, self.uses.get(row, []))

    def added_at(self, region: str, uses: Iterable[tuple[int, int]]) -> int:
        """What queries of a region at some sites cost above its cheapest site."""
        costs = {at: self.service.costs[region, self.service.sites[at].name] for at in self.service.sites_for(region)}
        return sum(queries * (costs[site] - min(costs.values())) for site, queries in uses)


@dataclass(frozen=True)
class Shortage:
    """Rows that ask for more than the servers that they may use can take, and what those of each region ask for.

    Of a log the rows aren't listed.
    """

    demand: int
    capacity: int
    rows: list[Row]
    servers: list[Server]
    stranded: list[str]
    regions: dict[str, int]

    @property
    def lack(self) -> int:
        return self.demand - self.capacity


def capacity_file(programs: Programs, capacities: dict[tuple[str, int], int]) -> str:
    return programs.put_table(HEADERS["capacity"], ((site, at, room) for (site, at), room in capacities.items()))


def costs_file(programs: Programs, costs: Mapping[tuple[str, str], int]) -> str:
    return programs.put_table(HEADERS["costs"], ((region, site, cost) for (region, site), cost in costs.items()))


def _sites_text(settings: Mapping[str, Any], prefix: str = "") -> str:
    """The blocks of the settings' sites, with a prefix before their names."""
    lines = []
    for site in settings.get("site", []):
        source = f"record = {json.dumps(site['record'])}" if "record" in site else f"index = {site['index']}"
        lines.append(f"[[site]]\nname = {json.dumps(prefix + site['name'])}\n{source}\n")
    return "".join(lines)


def settings_file(programs: Programs, settings: Mapping[str, Any], *hosts: Mapping[str, Any], twins: str = "") -> str:
    """Settings in the form that hsplan reads: their sites, and twins of these by a prefix, with some hosts."""
    blocks = [f'[[host]]\naddress = "{host["address"]}"\nlimit = {host["limit"]}\n' for host in hosts]
    sites = _sites_text(settings) + (_sites_text(settings, twins) if twins else "")
    return programs.put("".join([sites, *blocks]), ".toml")


def _shares(service: Service, certificate: Certificate) -> Shares:
    """How many queries each region sends to each site."""
    shares: Counter[tuple[str, int]] = Counter()
    for use in certificate.uses:
        shares[service.rows[use.row].region, use.site] += use.queries
    return dict(shares)


def servers_at(service: Service, host: Mapping[str, Any]) -> list[Server]:
    """The servers that run on a host of the settings."""
    return [server for server in service.servers if server.address == host["address"].lower()]


def _hosts(service: Service, loads: list[int]) -> list[Host]:
    prices = service.certificate.prices("host")
    found = []
    for host, price in zip(service.settings.get("host", []), prices):
        own = servers_at(service, host)
        load, limit = sum(loads[server.number] for server in own), host["limit"]
        found.append(Host(dotted(host["address"]), limit, load, price, own, 0 < limit <= load))
    return found


def _leads(service: Service) -> Leads:
    """Which servers the queries of each region may use, of a table."""
    leads: Counter[tuple[str, int, int]] = Counter()
    for row in service.rows:
        for site in service.sites_for(row.region):
            leads[row.region, site, service.server(site, row.handle).number] += row.count
    return leads


def planned(service: Service, programs: Programs) -> Planned:
    """The plan of a service. Its uses, added up by places, have to be the loads of hsplan's report."""
    if service.log:
        return _priced(service, programs)
    reports, bound = programs.loads(service.inputs, service.plan_file)
    uses: dict[int, list[tuple[int, int]]] = {}
    sums = [0] * len(service.servers)
    for use in service.certificate.uses:
        uses.setdefault(use.row, []).append((use.site, use.queries))
        sums[service.server(use.site, service.rows[use.row].handle).number] += use.queries
    loads = [report.load for report in reports]
    if sums != loads:
        raise Missing(DIFFERS.format("loads"))
    return Planned(
        service,
        loads,
        [report.price for report in reports],
        bound,
        programs.regions(service.inputs, service.plan_file),
        _shares(service, service.certificate),
        uses,
        _leads(service),
        _hosts(service, loads),
    )


def _priced(service: Service, programs: Programs) -> Planned:
    """The plan of a log, whose sums have to be those of both reports of hsplan-stream."""
    reports, bound = programs.loads(service.inputs, service.plan_file)
    regions = programs.regions(service.inputs, service.plan_file)
    flows, loads = flows_of(service, programs), [report.load for report in reports]
    classes = classes_of(service, flows)
    if loads_of(service, classes) != loads:
        raise Missing(DIFFERS.format("loads"))
    if service.log and {region: asked for region, (asked, _) in regions.items()} != service.log.regions:
        raise Missing(DIFFERS.format("regions"))
    shares, prices = shares_of_classes(service, classes), [report.price for report in reports]
    hosts = _hosts(service, loads)
    return Planned(service, loads, prices, bound, regions, shares, {}, flows.leads, hosts, classes=classes)


def cheapest(service: Service, programs: Programs) -> Reference | None:
    """Where all queries go to their cheapest site: the plan without any limit. None where a region has no site."""
    everywhere = {key: BOUNDLESS for key in service.capacities}
    settings = settings_file(programs, service.settings)
    inputs = joined(service, programs).but(settings=settings, capacity=capacity_file(programs, everywhere))
    certificate, plan = programs.plan(inputs)
    if not certificate.is_plan:
        return None
    loads, _ = programs.loads(inputs, plan)
    shares = {} if service.log else _shares(service, certificate)
    regions = programs.regions(inputs, plan)
    words = "if all asked their cheapest site"
    return Reference(words, certificate.cost, service.asked, [load.load for load in loads], regions, shares)


def _with_room(programs: Programs, service: Service, server: Server, room: int) -> Inputs:
    """The inputs where a server can take `room` queries."""
    capacity = capacity_file(programs, {**service.capacities, (server.site, server.id): room})
    return joined(service, programs).but(capacity=capacity)


def _gain(programs: Programs, plan: Planned, server: Server) -> Gain:
    service, room = plan.service, plan.service.capacity(server)
    one, _ = programs.plan(_with_room(programs, service, server, room + 1))
    inputs = _with_room(programs, service, server, BOUNDLESS)
    free, path = programs.plan(inputs)
    load = programs.loads(inputs, path)[0][server.number].load
    return Gain(server, plan.cost - one.cost, load - room, plan.cost - free.cost)


def _with_one(programs: Programs, plan: Planned, host: Host) -> Host:
    """A machine with what one query more saves there, if it has a price."""
    if not host.price:
        return host
    service, own = plan.service, plan.service.settings
    hosts = [{**it, "limit": it["limit"] + (dotted(it["address"]) == host.address)} for it in own["host"]]
    more, _ = programs.plan(joined(service, programs).but(settings=settings_file(programs, own, *hosts)))
    return replace(host, one=plan.cost - more.cost)


def with_gains(
    plan: Planned, programs: Programs, progress: Callable[[int], Callable[[], None]] = lambda _: lambda: None
) -> Planned:
    """The plan with what room saves at its full servers and machines. A price only bounds that, so each is planned."""
    from concurrent.futures import ThreadPoolExecutor  # loaded only here, as it takes others with it

    priced = [server for server in plan.service.servers if plan.prices[server.number] > 0 and plan.is_full(server)]
    priced.sort(key=lambda server: -plan.prices[server.number])
    priced, found = priced[:MOST_GAINS], []
    done = progress(len(priced))
    with ThreadPoolExecutor(min(4, os.cpu_count() or 1)) as pool:
        for gain in pool.map(lambda server: _gain(programs, plan, server), priced):
            found.append(gain)
            done()
        hosts = list(pool.map(lambda host: _with_one(programs, plan, host), plan.hosts))
    found.sort(key=lambda saving: (-saving.one, -saving.all))
    return replace(plan, gains=found, hosts=hosts)


def reached_by(short: Service, programs: Programs) -> list[Server]:
    """The servers that the rows of a shortage may use."""
    if short.log:
        return servers_of(short)
    reached = programs.reached(short.inputs, short.plan_file)
    return [server for server in short.servers if (server.site, server.id) in reached]


def shortage(service: Service, programs: Programs) -> Shortage:
    """Who lacks what, and the servers that these rows may use."""
    certificate, servers = service.certificate, reached_by(service, programs)
    rows = [] if service.log else [service.rows[number] for number in certificate.rows]
    asked = flows_of(service, programs).caught if service.log else asked_by(rows)
    if sum(asked.values()) != certificate.demand:
        raise Missing(DIFFERS.format("the shortage"))
    stranded = sorted(region for region in asked if asked[region] and not service.sites_for(region))
    return Shortage(certificate.demand, certificate.capacity, rows, servers, stranded, +asked)


def _twinned(
    service: Service, programs: Programs, cost: Callable[[int], int], dear: int
) -> tuple[Certificate, Counter[Server]]:
    """A plan where each site has a twin without limits, at a cost that is `dear` higher, and the loads of twins."""
    settings, rows = service.settings, list[tuple[str, str, int]]()
    for (region, site), price in service.costs.items():
        rows += [(region, site, cost(price)), (region, f"hsp-twin-{site}", cost(price) + dear)]
    room = dict(service.capacities)
    room.update({(f"hsp-twin-{site}", at): BOUNDLESS for site, at in service.capacities})
    inputs = joined(service, programs).but(
        settings=settings_file(programs, settings, *settings.get("host", []), twins="hsp-twin-"),
        costs=programs.put_table(HEADERS["costs"], rows),
        capacity=capacity_file(programs, room),
    )
    certificate, path = programs.plan(inputs)
    loads = programs.loads(inputs, path)[0] if certificate.is_plan else []
    own = zip(service.servers, loads[len(service.servers) :])
    return certificate, Counter({server: load.load for server, load in own if load.load})


def least_purchase(service: Service, programs: Programs) -> dict[Server, int] | None:
    """How much more room at which servers is the least that serves all, and of those a cheapest. None where that
    can't be planned: with more than 16 sites or 512 servers, with costs above 50,000, or where a machine is full."""
    dearest = max(service.costs.values(), default=0)
    if 2 * len(service.sites) > MOST_SITES or 2 * len(service.servers) > MOST_SERVERS or dearest * 20 > GREATEST_COST:
        return None
    least, _ = _twinned(service, programs, lambda _: 0, 1)
    best, bought = _twinned(service, programs, lambda cost: cost, GREATEST_COST - dearest)
    return dict(bought) if least.is_plan and best.is_plan and bought.total() == least.cost else None


def with_purchase(service: Service, programs: Programs, bought: dict[Server, int]) -> Service | None:
    """The service after a purchase, or None where it still lacks room."""
    room = dict(service.capacities)
    for server, more in bought.items():
        room[server.site, server.id] += more
    capacity = capacity_file(programs, room)
    inputs = service.inputs.but(capacity=capacity)
    certificate, path = programs.plan(joined(service, programs).but(capacity=capacity))
    if not certificate.is_plan:
        return None
    return replace(service, inputs=inputs, capacities=room, certificate=certificate, plan_file=path)


def purchased(service: Service, programs: Programs) -> tuple[dict[Server, int] | None, Service | None]:
    """A least purchase and the service after it; None of both where that can't be planned."""
    bought = least_purchase(service, programs)
    after = with_purchase(service, programs, bought) if bought else None
    return (bought if after else None), after


def to_buy(service: Service, bought: Mapping[Server, int]) -> dict[Server, int]:
    """The least that has to be bought so that so much of it remains. Of a whole capacity a part is kept back, and the
    rest is rounded down."""
    if not service.reserve:
        return dict(bought)
    wanted = {server: (service.capacity(server) + more) / (1 - service.reserve) for server, more in bought.items()}
    return {server: ceil(room) - service.given_capacities[server.site, server.id] for server, room in wanted.items()}


def above(service: Service, loads: Iterable[int | Fraction]) -> tuple[int, int]:
    """How many servers would get more than they can take, and how many queries too many."""
    over = [
        load - service.capacity(server)
        for server, load in zip(service.servers, loads)
        if load > service.capacity(server)
    ]
    return len(over), round(sum(over))


def above_limits(hosts: Iterable[Host], loads: Sequence[int | Fraction]) -> int:
    """How many machines would get more than their limits."""
    return sum(sum(loads[server.number] for server in host.servers) > host.limit for host in hosts)


def too_full(words: str, hosts: int) -> str:
    """Words of servers that are too full, and of so many machines."""
    machines = f"{some(hosts, 'machine')} above {'its limit' if hosts == 1 else 'their limits'}"
    return "; ".join(filter(None, [words, machines if hosts else ""]))


@dataclass(frozen=True)
class ByShares:
    """What is too full where each handle of a region is split by the shares of the whole region: so many of all
    servers, the queries above their capacities, and machines above their limits."""

    servers: int
    queries: int
    all_servers: int
    hosts: int

    @property
    def is_within(self) -> bool:
        """Nothing is too full."""
        return not self.servers and not self.hosts

    @property
    def words(self) -> str:
        if self.is_within:
            return "no server too full"
        words = f"{self.servers} of {some(self.all_servers, 'server')} too full"
        words += f", {some(self.queries, 'query', 'queries')} too many" if self.servers else ""
        return too_full(words, self.hosts)


def by_shares(plan: Planned) -> ByShares:
    """What the shares of regions do by themselves. A share is a mean over handles, and a handle has one server."""
    service = plan.service
    loads = [Fraction(0)] * len(service.servers)
    for (region, site, server), count in plan.leads.items():
        asked = plan.regions[region][0]
        if asked:
            loads[server] += Fraction(count * plan.shares.get((region, site), 0), asked)
    return ByShares(*above(service, loads), len(service.servers), above_limits(plan.hosts, loads))
