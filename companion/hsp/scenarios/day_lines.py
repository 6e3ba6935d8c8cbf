"""What the terminal shows of a day, and the table of its hours."""

from collections import Counter
from collections.abc import Collection, Iterator, Sequence
from dataclasses import dataclass
from fractions import Fraction

from hsp.base.numbers import listed, part, queries_of, some
from hsp.base.programs import table_text
from hsp.base.text import bold, colored, dim
from hsp.intake.hours import CYCLES
from hsp.plans.service import Service
from hsp.plans.whatif import bar
from hsp.scenarios.blocks import Block
from hsp.scenarios.hours import HourPlan, label_of

# So many servers are shown by the hours in which room there has a price.
SHOWN = 6
# So many blocks are named.
NAMED = 12
HEADER = "hour,queries,served,cost,lack,full,dearest_site,dearest_server_id,price,moved,block"


@dataclass(frozen=True)
class Day:
    """The plans of all hours, and the fewest blocks of hours; none where the demand is a log."""

    service: Service
    plans: Sequence[HourPlan]
    blocks: Sequence[Block]
    price: Fraction

    @property
    def worst(self) -> HourPlan:
        """The worst hour: that which lacks most, or in which a query costs most."""
        return max(self.plans, key=lambda plan: (0 if plan.is_plan else plan.lack, plan.each))

    @property
    def busiest(self) -> HourPlan:
        return max(self.plans, key=lambda plan: plan.hour.asked)

    def priced(self) -> list[tuple[int, list[int]]]:
        """The servers at which room has a price in some hours, those first that have it in most: their numbers, and
        the price in each hour."""
        hours: Counter[int] = Counter()
        for plan in self.plans:
            hours.update(plan.priced)
        order = sorted(hours, key=lambda at: (-hours[at], at))
        return [(at, [plan.loads[at].price if plan.loads else 0 for plan in self.plans]) for at in order]


def lines(day: Day, every: bool) -> Iterator[str]:
    """A line for each hour; the servers that are dear; the blocks."""
    service = day.service
    wide = max(len(plan.hour.label) for plan in day.plans)
    most = max(plan.each for plan in day.plans)
    is_moving = any(plan.moved is not None for plan in day.plans)
    yield bold(
        f"{'hour'.rjust(max(4, wide))}   queries   a query   full"
        + ("   moves" if is_moving else "")
        + "  dearest room at"
    )
    for plan in day.plans:
        yield _line(service, plan, most, max(4, wide), is_moving)
    yield from _servers(day, every)
    yield from verdicts(day)


def _line(service: Service, plan: HourPlan, most: float, wide: int, is_moving: bool) -> str:
    head = f"{plan.hour.label.rjust(wide)} {plan.hour.asked:>9,}"
    if not plan.is_plan:
        return f"{head}  {colored('short', 'red')} by {queries_of(plan.lack)}"
    at = plan.dearest
    room = f"{service.servers[at].label} ({plan.loads[at].price:,})" if at is not None else "none"
    moved = "" if not is_moving else f" {_share(plan):>7}"
    own = f"{head} {plan.each:>9.1f} {len(plan.full):>6}{moved}  {room:<20}"
    return f"{own} {colored(bar(plan.each, most), 'yellow')}".rstrip()


def _share(plan: HourPlan) -> str:
    return part(plan.moved / plan.hour.asked) if plan.moved is not None and plan.hour.asked else ""


def _servers(day: Day, every: bool) -> Iterator[str]:
    found = day.priced()
    if not found:
        return
    yield bold("servers by the hours in which room there has a price")
    shown = found if every else found[:SHOWN]
    wide = max(len(day.service.servers[at].label) for at, _ in shown)
    for at, prices in shown:
        marks = "".join("#" if price else "." for price in prices)
        yield f"  {day.service.servers[at].label.ljust(wide)}  {marks}  {sum(map(bool, prices))}"
    if len(found) > len(shown):
        yield dim(f"  and {some(len(found) - len(shown), 'more server')} (--all)")


def verdicts(day: Day) -> Iterator[str]:
    """The worst hour, the busiest one, and the blocks."""
    worst, busiest = day.worst, day.busiest
    then = f"{worst.each:.1f}{day.service.unit} a query" if worst.is_plan else f"short by {queries_of(worst.lack)}"
    yield f"worst {worst.hour.clock}: {then}; the busiest is {busiest.hour.clock} with {queries_of(busiest.hour.asked)}"
    short = [plan.hour.label for plan in day.plans if not plan.is_plan]
    if short:
        yield f"short {some(len(short), 'hour')}: {listed(short, NAMED)}"
    plain = [plan.hour.label for plan in day.plans if plan.moved is not None and not plan.is_nearest]
    if plain:
        yield f"near  no: nothing shows the fewest moves at {listed(plain, NAMED)}; plain plans are there"
    absent = _absent(day)
    if absent:
        yield f"none  {some(len(absent), 'hour has', 'hours have')} no demand: {listed(absent, NAMED)}"
    if day.blocks:
        yield _blocks(day)


def _absent(day: Day) -> list[str]:
    """The hours of the day, or of the week, that have no demand."""
    there = {plan.hour.name for plan in day.plans}
    return [label_of(name) for name in _cycle(there) if name not in there]


def _cycle(names: Collection[str]) -> list[str]:
    """The names of all hours of the day, or of the week, of which some are."""
    return next(cycle.names for cycle in CYCLES.values() if set(names) <= set(cycle.names))


def planned_hours(day: Day) -> str:
    """The folders of the hours that have a plan: from the first to the last, and those between that have none."""
    there = [plan.hour.name for plan in day.plans if plan.is_plan]
    if len(there) < 2:
        return "".join(there)
    names = _cycle(there)
    between = names[names.index(there[0]) : names.index(there[-1])]
    lacking = [name for name in between if name not in there]
    return f"{there[0]} to {there[-1]}" + (f" but {listed(lacking, NAMED)}" if lacking else "")


def _blocks(day: Day) -> str:
    """What the blocks serve, and at which price. A block is of hours in a row, and none goes over the end."""
    number, served = len(day.blocks), sum(len(block.hours) for block in day.blocks)
    names = listed((block.label for block in day.blocks), NAMED)
    above = f"{part(float(day.price))} above {some(served, 'plan')}"
    if number == 1:
        return f"block 1 plan serves {some(served, 'hour')} as it stands: {names}; {above}"
    serve = f"{number:,} plans serve {some(served, 'hour')}, each as it stands"
    return f"block {serve}: {names}; {above}; fewer blocks of hours in a row don't serve them"


def csv_of(day: Day) -> str:
    """A row for each hour, for other programs."""
    rows = []
    block_of = {hour.name: block.name for block in day.blocks for hour in block.hours}
    for plan in day.plans:
        dearest: list[object] = ["", "", ""]
        if plan.dearest is not None:
            server = day.service.servers[plan.dearest]
            dearest = [server.site, server.id, plan.loads[plan.dearest].price]
        own = [plan.certificate.cost, "", len(plan.full)] if plan.is_plan else ["", plan.lack, ""]
        head = [plan.hour.name, plan.hour.asked, str(plan.is_plan).lower()]
        rows.append([*head, *own, *dearest, plan.moved, block_of.get(plan.hour.name, "")])
    return table_text(HEADER, rows)
