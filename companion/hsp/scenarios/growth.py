"""How far a demand can grow. A plan shows that a demand still fits; a short set of rows, that it doesn't from some
factor on. Each short set says which factor to try next, so few plans are made."""

from collections import Counter
from collections.abc import Callable, Sequence
from dataclasses import dataclass, replace
from fractions import Fraction

from hsp.base.grammar import GREATEST_COUNT, GREATEST_ROW_COUNT
from hsp.base.programs import Certificate
from hsp.plans.counted import times
from hsp.plans.flows import flows_of
from hsp.plans.plans import purchased, reached_by
from hsp.plans.service import Server, Service, asked_by
from hsp.plans.whatif import demand_times
from hsp.scenarios.judged import Judged, side_by_side

# Factors are tried in steps of a hundredth of a percent.
STEP = 10000


@dataclass(frozen=True)
class Short:
    """Rows that ask for more than the servers that they may use take, at each factor above `above`. Rows of a log have
    no numbers."""

    above: Fraction
    rows: list[int]
    demand: int
    capacity: int
    servers: list[Server]
    # What their rows that don't grow ask for.
    rest: int


@dataclass(frozen=True)
class Growth:
    """How far the queries of a region, or of all, can grow. A factor is a number of steps, of which STEP are 1.

    Up to `fits` a plan serves them, None where none does however few they are. From `short_from` on the rows of `short`
    are short, None where no table holds so much.
    """

    region: str | None
    fits: int | None
    short_from: int | None
    short: Short | None


@dataclass(frozen=True)
class Purchase:
    """What so many percent more need: a least purchase, None where only the lack of a short set is known, or where the
    counts are beyond what a demand can hold. `asked` are the queries, each row rounded up."""

    percent: int
    asked: int
    lack: int
    bought: dict[Server, int] | None
    cost: int | None
    is_beyond: bool = False


def percent_of(factor: int) -> str:
    """The growth of a factor; as the factor itself where percents would be read for that."""
    change = (factor - STEP) / 100
    if change > 1000:
        return f"{factor / STEP:,.4f}".rstrip("0").rstrip(".") + " times as much"
    return f"{change:+,.2f}%".replace("-", "\u2212")


class Growing:
    """Asks for the growth of a service."""

    def __init__(self, service: Service, programs: Judged) -> None:
        self._service, self._programs = service, programs

    def _demand(self, factor: int, region: str | None) -> str:
        return demand_times(self._service, self._programs, Fraction(factor, STEP), region)

    def planned(self, factor: int, region: str | None = None) -> Service:
        """The service with another demand, and its certificate. Its rows are those of the present demand."""
        inputs = self._service.inputs.but(demand=self._demand(factor, region))
        certificate, path = self._programs.plan(inputs)
        return replace(self._service, inputs=inputs, certificate=certificate, plan_file=path)

    def _counts(self, short: Service) -> tuple[list[int], dict[str, int]]:
        """The rows of a short set, none where a log has them, and what they ask for now, by region."""
        if self._service.log:
            return [], dict(flows_of(replace(short, inputs=self._service.inputs), self._programs).caught)
        return short.certificate.rows, asked_by(self._service.rows[at] for at in short.certificate.rows)

    def _short(self, tried: Service, region: str | None) -> Short | None:
        """What a shortage says of other factors. None where its rows lack room without those that grow."""
        rows, counts = self._counts(tried)
        demand, capacity = tried.certificate.demand, tried.certificate.capacity
        now = sum(count for own, count in counts.items() if region in (None, own))
        rest = sum(counts.values()) - now
        if not now or capacity < rest:
            return None
        above = Fraction(capacity - rest, now)
        return Short(above, rows, demand, capacity, reached_by(tried, self._programs), rest)

    def _next(self, short: Short, factor: int, region: str | None) -> int:
        """The greatest factor below one at which a set of rows isn't short, rounded up row by row."""
        low, high = 0, min(factor, int(STEP * short.above) + 1)
        rows = (self._service.rows[at] for at in short.rows)
        counts = Counter(row.count for row in rows if region in (None, row.region))
        while counts and high - low > 1:
            tried = Fraction((low + high) // 2, STEP)
            asked = sum(number * times(count, tried) for count, number in counts.items())
            low, high = (low, (low + high) // 2) if asked + short.rest > short.capacity else ((low + high) // 2, high)
        return high - 1

    def _first(self, region: str | None) -> int:
        """A factor above which nothing has to be tried: all rows together are short, or no table holds the counts."""
        service, counts = self._service, self._service.by_region
        now = sum(count for name, count in counts.items() if region in (None, name))
        room = sum(map(service.capacity, service.servers)) - sum(counts.values()) + now
        return min(self.most(region), STEP * max(0, room) // max(1, now) + 1)

    def most(self, region: str | None = None) -> int:
        """The greatest factor at which a demand can hold the counts."""
        service = self._service
        if service.log:
            return STEP * GREATEST_ROW_COUNT // max(1, *service.log.regions.values())
        counts = [row.count for row in service.rows if region in (None, row.region)]
        return STEP * GREATEST_COUNT // max([1, *counts])

    def growth(self, region: str | None = None) -> Growth:
        """How far the queries of a region, or of all, can grow."""
        factor, short = self._first(region), None
        while True:
            tried = self.planned(factor, region)
            if tried.certificate.is_plan:
                break
            found = self._short(tried, region)
            self._put_away(tried)
            if not found:
                return Growth(region, None, None, None)
            short = found if short is None or found.above < short.above else short
            factor = self._next(found, factor, region)
        self._put_away(tried)
        return self._short_from(Growth(region, factor, None, short))

    def _short_from(self, found: Growth) -> Growth:
        """The same with the first step at which a set is short whatever is rounded. A certificate of its own shows it."""
        short = found.short
        while short is not None:
            factor = min(int(STEP * short.above) + 1, self.most(found.region))
            tried = self.planned(factor, found.region)
            shown = self._short(tried, found.region)
            self._put_away(tried)
            assert shown is not None
            if STEP * shown.above >= factor - 1:
                return replace(found, short_from=factor, short=shown)
            short = shown
        return found

    def _put_away(self, tried: Service) -> None:
        self._programs.put_away(tried.inputs.demand, tried.plan_file)

    def purchase(self, percent: int) -> Purchase:
        factor = STEP * (100 + percent) // 100
        asked = self._asked(Fraction(factor, STEP))
        if factor > self.most():
            return Purchase(percent, asked, 0, None, None, is_beyond=True)
        grown = self.planned(factor)
        certificate: Certificate = grown.certificate
        if certificate.is_plan:
            return Purchase(percent, asked, 0, {}, certificate.cost)
        lack = certificate.demand - certificate.capacity
        bought, after = purchased(grown, self._programs)
        return Purchase(percent, asked, lack, bought, after.certificate.cost if after else None)

    def _asked(self, factor: Fraction) -> int:
        """The queries of all rows times a factor, each rounded up as in its table; those of a log all together."""
        service = self._service
        if service.log:
            return times(service.asked, factor)
        return sum(times(row.count, factor) for row in service.rows)


def at_least(purchases: Sequence[Purchase]) -> list[Purchase]:
    """Purchases for growths in their order, where more growth lacks no less than less growth does."""
    found: list[Purchase] = []
    lack = 0
    for purchase in purchases:
        lack = max(lack, sum(purchase.bought.values()) if purchase.bought else purchase.lack)
        found.append(replace(purchase, lack=lack) if purchase.bought is None else purchase)
    return found


def grown(service: Service, programs: Judged, done: Callable[[], None] = lambda: None) -> list[Growth]:
    """The growth of all demand together, and then of each region that asks for something, by their names."""
    own = Growing(service, programs)
    regions = sorted(region for region, count in service.by_region.items() if count)
    tasks: list[Callable[[], Growth]] = [own.growth]
    if len(regions) > 1:
        tasks += [lambda region=region: own.growth(region) for region in regions]  # type: ignore[misc]
    return side_by_side(tasks, done)
