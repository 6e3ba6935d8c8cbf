"""What the terminal shows of growth."""

from collections.abc import Iterator, Sequence

from hsp.base.numbers import listed, queries_of, some
from hsp.base.text import bold, colored, escaped, json_text
from hsp.plans.service import Server, Service
from hsp.scenarios.growth import STEP, Growth, Purchase, Short, percent_of

# So many servers, or handles, are named in a line.
NAMED = 5
# What rounding adds to the queries is said where it is more than this part of them.
MUCH_ADDED = 0.01


def who(service: Service, short: Short) -> str:
    """How many rows are short, or, of a log, the queries of its rows."""
    return some(len(short.rows), "row") if short.rows else "rows"


def is_whole(service: Service, short: Short) -> bool:
    """Whether all servers that take something are full."""
    return {it for it in service.servers if service.capacity(it)} <= set(short.servers)


def where(service: Service, short: Short) -> str:
    """What binds: all servers, or those of some handles."""
    if is_whole(service, short):
        return f"all {some(len(short.servers), 'server')}" if len(short.servers) > 1 else "the only server"
    return listed((server.label for server in short.servers), NAMED)


def then(service: Service, short: Short) -> str:
    """Which rows ask for more than what."""
    return f"{who(service, short)} ask for more than {short.capacity:,} at {where(service, short)}"


def span(growth: Growth) -> str:
    """Between which two numbers the first shortage lies."""
    if growth.fits is None:
        return "short whatever it asks"
    if growth.short_from is None:
        return f"fits until {percent_of(growth.fits)}, as far as a demand can count"
    return f"fits until {percent_of(growth.fits)}; from {percent_of(growth.short_from)} on"


def cause(service: Service, short: Short) -> str:
    """Whether the service as a whole is full, or some handles are."""
    if is_whole(service, short):
        return "the service as a whole is full"
    asked: dict[str, int] = {}
    for at in short.rows:
        row = service.rows[at]
        asked[row.handle] = asked.get(row.handle, 0) + row.count
    handles = sorted(asked, key=lambda handle: -asked[handle])
    which = f": {listed(map(escaped, handles), NAMED)}" if handles else ""
    return f"the servers of some handles are full{which}"


def lines(service: Service, all_growths: Sequence[Growth], purchases: Sequence[Purchase]) -> Iterator[str]:
    """The growth of all demand, of each region, and what more would need."""
    first, *regions = all_growths
    short = first.short
    yield f"{bold('all demand')}  {span(first)}" + (f" {then(service, short)}" if short else "")
    if short:
        yield f"      {cause(service, short)}"
    wide = max((len(growth.region or "") for growth in regions), default=0)
    for at, growth in enumerate(regions):
        word = "one   " if not at else "      "
        own = growth.short
        binds = "" if not own or (short and own.servers == short.servers) else f": {where(service, own)}"
        yield f"{word}{(growth.region or '').ljust(wide)}  {span(growth)}" + (f" short{binds}" if own else "")
    for at, purchase in enumerate(purchases):
        yield ("buy   " if not at else "      ") + _need(service, purchase)


def _need(service: Service, purchase: Purchase) -> str:
    head = f"{colored(f'+{purchase.percent}%', 'yellow')}  {_rounded(service, purchase)}"
    cost = f"the cost is then {purchase.cost or 0:,}{service.unit}"
    if purchase.is_beyond:
        return f"{head}more than a demand can count"
    if purchase.bought is None:
        return f"{head}room for at least {queries_of(purchase.lack)} more"
    if not purchase.bought:
        return f"{head}no room; {cost}"
    names = ranked(purchase.bought)
    size = sum(purchase.bought.values())
    return f"{head}room for {queries_of(size)} more, the least that suffices: {names}; {cost}"


def _rounded(service: Service, purchase: Purchase) -> str:
    """How many queries a growth is, where each row rounded up makes it a greater one."""
    wanted = service.asked * (100 + purchase.percent) / 100
    if purchase.asked <= (1 + MUCH_ADDED) * wanted:
        return ""
    return f"{queries_of(purchase.asked)}, as each row is rounded up: "


def ranked(bought: dict[Server, int]) -> str:
    """What is bought at which server, the most first."""
    most = sorted(bought.items(), key=lambda pair: -pair[1])
    return listed((f"{server.label} {more:,}" for server, more in most), NAMED)


def json_of(service: Service, all_growths: Sequence[Growth], purchases: Sequence[Purchase]) -> str:
    """The same for other programs. Factors are of the present counts."""

    def factor(number: int | None) -> float | None:
        return None if number is None else number / STEP

    growths = [
        {
            "region": growth.region,
            "fits_until": factor(growth.fits),
            "short_from": factor(growth.short_from),
            "rows": len(growth.short.rows) if growth.short else None,
            "capacity": growth.short.capacity if growth.short else None,
            "servers": [it.said for it in growth.short.servers] if growth.short else [],
        }
        for growth in all_growths
    ]
    needs = [
        {
            "percent": purchase.percent,
            "queries": purchase.asked,
            "lack": purchase.lack,
            "cost": purchase.cost,
            "least_purchase": None
            if purchase.bought is None
            else [{**it.said, "more": more} for it, more in purchase.bought.items()],
        }
        for purchase in purchases
    ]
    report = {"title": service.titles.title, "queries": service.asked, "growth": growths, "purchases": needs}
    return json_text(report)
