"""What the terminal shows of a plan. Colour is only for a terminal; a pipe gets the same words without it."""

from collections import Counter
from collections.abc import Iterator, Mapping

from hsp.base.numbers import average, listed, percent, percent_exactly, queries_of, signed, some
from hsp.base.text import bold, colored, dim, escaped
from hsp.plans.plans import Gain, Planned, Reference, Shortage, above, above_limits, by_shares, to_buy, too_full
from hsp.plans.service import Server, Service

SHOWN = 5


def head(service: Service) -> str:
    """What the service is called, and how large it is."""
    sizes = [
        some(len(service.sites), "site"),
        some(len(service.servers), "server"),
        some(len(service.regions), "region"),
        service.rows_words,
        queries_of(service.asked),
    ] + service.limits
    time = f" in {service.titles.time}" if service.titles.time else ""
    return bold(service.titles.title) + dim(f"  {', '.join(sizes)}{time}")


def _verdict(plan: Planned, reference: Reference) -> str:
    count, queries = above(plan.service, reference.loads)
    hosts = above_limits(plan.hosts, reference.loads)
    extra = plan.cost - reference.cost
    if not count and not hosts:
        return "all ask their cheapest site, and no server is above its capacity"
    share = 100 * extra / max(1, reference.cost)
    words = "<0.1%" if 0 < share < 0.05 else f"{share:.1f}%"
    too_many = f"{some(count, 'server')} would get {queries_of(queries)} too many" if count else ""
    kept = f"keeping to {'limits' if hosts else 'capacity'} costs {extra:,}{plan.service.unit} ({words})"
    return f"left alone, {too_full(too_many, hosts)}; {kept}"


def plan_lines(plan: Planned, reference: Reference | None, every: bool) -> Iterator[str]:
    """The verdict, the cost, the full servers with what room there saves, machines, and where regions go."""
    service, unit = plan.service, plan.service.unit
    if reference:
        yield f"{colored('fits', 'green')}  {_verdict(plan, reference)}"
    beside = f"; {average(reference.cost, reference.asked)} {reference.words}" if reference else ""
    each = average(plan.cost, service.asked)
    yield f"cost  {bold(f'{plan.cost:,}{unit}')}, {each}{unit} a query{beside}"
    yield from full_lines(plan, every)
    for host in plan.hosts:
        note = f"; one query more saves {host.one:,}{unit}" if host.one else ""
        yield f"host  {host.address} takes {host.load:,} of {host.limit:,}{note}"
    yield from region_lines(plan, reference, every)
    yield f"by shares of regions only  {by_shares(plan).words}"


def full_lines(plan: Planned, every: bool) -> Iterator[str]:
    """The full servers at which room saves something."""
    unit = plan.service.unit
    worth = [gain for gain in plan.gains if gain.all > 0]
    full, idle = len(plan.full), len(plan.full) - len(worth)
    words = f"full  {full} of {some(len(plan.service.servers), 'server')}"
    words += f", {idle} of them where more room saves nothing" if idle else ""
    yield words + ("; more room saves" if worth else "")
    shown = worth if every else worth[:SHOWN]
    wide = max((len(gain.server.label) for gain in shown), default=0)
    for gain in shown:
        label = colored(gain.server.label.ljust(wide), "yellow")
        one = f"one query more {gain.one:,}{unit}"
        yield f"      {label}  {one}; {gain.room:,} more {gain.all:,}{unit} in all"
    if len(worth) > len(shown):
        yield dim(f"      and {len(worth) - len(shown)} more, up to {worth[len(shown)].one:,}{unit} each (--all)")


def _shares_of(plan: Planned, region: str) -> str:
    """Where a region's queries go, in shares."""
    asked = plan.regions[region][0]
    parts = [(plan.shares.get((region, at), 0), site.name) for at, site in enumerate(plan.service.sites)]
    parts = sorted((part for part in parts if part[0]), reverse=True)
    return listed((f"{name} {percent(queries, asked)}" for queries, name in parts), 5) or "nowhere"


def added_by(plan: Planned, reference: Reference | None, region: str) -> int:
    """What a region costs above the reference."""
    before = reference.regions.get(region, (0, 0))[1] if reference else 0
    return plan.regions[region][1] - before


def region_lines(plan: Planned, reference: Reference | None, every: bool) -> Iterator[str]:
    """The cost of each region's queries, and where they go; those first that pay most for the limits."""
    regions = sorted(plan.regions, key=lambda name: (-added_by(plan, reference, name), name))
    shown = regions if every else regions[:SHOWN]
    wide = max((len(name) for name in shown), default=0)
    for at, region in enumerate(shown):
        asked, cost = plan.regions[region]
        change = ""
        if reference and asked and added_by(plan, reference, region):
            change = f" ({signed(round(added_by(plan, reference, region) / asked, 1))})"
        word = "goes  " if not at else "      "
        yield f"{word}{region.ljust(wide)}  {average(cost, asked):>5}{change}  {_shares_of(plan, region)}"
    if len(regions) > len(shown):
        yield dim(f"      and {some(len(regions) - len(shown), 'region')} more (--all)")


def shortage_lines(
    service: Service, short: Shortage, bought: dict[Server, int] | None = None, after: Service | None = None
) -> Iterator[str]:
    """How many queries cannot be served, who asks them, where room lacks, and what has to be bought."""
    lack = bold(queries_of(short.lack))
    yield (
        f"{colored('short', 'red')} {lack} can't be served, whatever the plan: "
        f"{short.demand:,} may only go to servers that take {short.capacity:,}"
    )
    if short.stranded:
        verb = "has" if len(short.stranded) == 1 else "have"
        why = f"{listed(short.stranded)} {verb} no cost for any site, so no site may serve them"
        if service.within is None:
            yield f"why   {why}: give costs, or mend the name"
        else:
            yield f"why   {listed(short.stranded)} {verb} no site within {service.within:,}{service.unit}"
    yield f"who   {_who(service, short)}"
    if service.within is not None and not service.log:
        most = sorted(short.regions.items(), key=lambda pair: -pair[1])
        yield f"from  {listed(f'{region} ({count:,})' for region, count in most)}"
    if len(short.servers) == len(service.servers):
        yield f"where all {len(service.servers)} servers together lack room"
    elif short.servers:
        servers = listed(f"{server.label} ({service.capacity(server):,})" for server in short.servers)
        verb = "is" if len(short.servers) == 1 else "are"
        yield f"where {servers} {verb} all that these may use; room elsewhere doesn't help"
    yield from purchase_lines(service, short, bought, after)


def _who(service: Service, short: Shortage) -> str:
    """The handles that lack room, those first that ask for most; of a log the regions."""
    asked: Counter[str] = Counter()
    if service.log:
        most = sorted(short.regions.items(), key=lambda pair: -pair[1])
        return f"rows of {some(len(most), 'region')}: {listed(f'{region} ({count:,})' for region, count in most)}"
    for row in short.rows:
        asked[row.handle] += row.count
    names = listed(f"{escaped(name)} ({count:,})" for name, count in asked.most_common())
    return f"{some(len(short.rows), 'row')} of {some(len(asked), 'handle')}: {names}"


def bought_lines(service: Service, bought: Mapping[Server, int]) -> Iterator[str]:
    """How much more each server of a purchase takes, the most first."""
    wide = max((len(own.label) for own in bought), default=0)
    for server, more in sorted(bought.items(), key=lambda pair: -pair[1]):
        before = service.capacity(server)
        yield f"      {colored(server.label.ljust(wide), 'yellow')}  {more:>9,} more: {before:,} to {before + more:,}"


def reserve_lines(service: Service, bought: Mapping[Server, int], every: bool = False) -> Iterator[str]:
    """What has to be bought where a part of new room is kept back, too; nothing where nothing is kept back."""
    if service.reserve:
        most = sorted(to_buy(service, bought).items(), key=lambda pair: -pair[1])
        names = listed((f"{server.label} {more:,}" for server, more in most), len(most) if every else SHOWN)
        part = percent_exactly(service.reserve)
        yield f"      so much has to remain: as {part} of new room is kept back too, buy {names}"


def purchase_lines(
    service: Service, short: Shortage, bought: dict[Server, int] | None, after: Service | None
) -> Iterator[str]:
    """The least purchase, by server, and the cost after it; or the least that the short rows want."""
    if not bought or not after:
        if short.servers:
            yield f"buy   at least room for {queries_of(short.lack)} more at these servers"
        return
    whole = bold(f"room for {queries_of(sum(bought.values()))} more")
    cost = after.certificate.cost
    each = f"{average(cost, service.asked)} a query"
    yield f"buy   {whole}, the least that suffices; then the cost is {cost:,}{service.unit}, {each}"
    yield from bought_lines(service, bought)
    yield from reserve_lines(service, bought, True)
