"""The fewest blocks of hours in a row that one plan serves each.

The table of each row's greatest count in some hours has a plan: it serves each of these hours. A part of such a block
is one too, so the longest blocks, one after the other, are the fewest.
"""

import itertools
from collections.abc import Callable, Sequence
from dataclasses import dataclass
from fractions import Fraction

from hsp.base.grammar import HEADERS
from hsp.base.programs import Certificate, Inputs
from hsp.plans.service import OF_DAY, OF_WEEK, Service
from hsp.scenarios.hours import Hour, HourPlan
from hsp.scenarios.judged import Judged, side_by_side


@dataclass(frozen=True)
class Block:
    """Hours in a row, and the plan of each row's greatest count in them."""

    hours: Sequence[Hour]
    counts: list[int]
    inputs: Inputs
    certificate: Certificate
    plan_file: str

    @property
    def name(self) -> str:
        """Its first and last hour, as the name of a folder."""
        first, last = self.hours[0], self.hours[-1]
        return f"{first.name}-to-{last.name}"

    @property
    def label(self) -> str:
        first, last = self.hours[0].label, self.hours[-1].label
        return first if first == last else f"{first}-{last}"

    def cost(self, service: Service) -> Fraction:
        """What its hours cost where each row is split by the shares that it has in the plan."""
        costs = [[service.costs.get((row.region, site.name), 0) for site in service.sites] for row in service.rows]
        whole = Fraction(0)
        spent = [0] * len(self.counts)
        for row, site, queries in zip(*self.certificate.use_columns):
            spent[row] += queries * costs[row][site]
        for row, most in enumerate(self.counts):
            if most and spent[row]:
                whole += Fraction(spent[row] * sum(hour.counts[row] for hour in self.hours), most)
        return whole


def is_block(name: str) -> bool:
    first, _, last = name.partition("-to-")
    return any(form.fullmatch(first) and form.fullmatch(last) for form in (OF_DAY, OF_WEEK))


def block_of(service: Service, hours: Sequence[Hour], programs: Judged) -> Block | None:
    """The block of some hours. None where no plan serves all of them."""
    counts = [max(own) for own in zip(*(hour.counts for hour in hours))]
    lines = (f"{head}{count}\n" for head, count in zip(service.row_heads, counts))
    inputs = service.inputs.but(demand=programs.put(f"{HEADERS['demand']}\n{''.join(lines)}", ".csv"))
    certificate, path = programs.plan(inputs)
    if certificate.is_plan:
        return Block(hours, counts, inputs, certificate, path)
    programs.put_away(inputs.demand, path)
    return None


# Blocks that were tried, by their first hour and the end, which isn't in them.
Known = dict[tuple[int, int], Block | None]


class _Search:
    """Searches blocks among hours in a row, each of which has a plan."""

    def __init__(self, service: Service, hours: Sequence[Hour], programs: Judged) -> None:
        self._service, self._hours, self._programs = service, hours, programs

    def _block(self, bounds: tuple[int, int], known: Known) -> Block | None:
        if bounds not in known:
            first, end = bounds
            known[bounds] = block_of(self._service, self._hours[first:end], self._programs)
        return known[bounds]

    def _longest(self, bounds: Callable[[int], tuple[int, int]], most: int, known: Known) -> int:
        """The greatest size of a block between such bounds. All smaller ones have a plan too."""
        low, high = 1, most + 1
        while high - low > 1:
            size = min(4 * low, (low + high + 1) // 2)
            low, high = (size, high) if self._block(bounds(size), known) else (low, size)
        return low

    def _ends(self) -> tuple[list[int], Known]:
        """The ends of the longest blocks, one after the other from the first hour on."""
        found, known = [0], dict[tuple[int, int], Block | None]()
        while (at := found[-1]) < len(self._hours):
            found.append(at + self._longest(lambda size: (at, at + size), len(self._hours) - at, known))
        return found[1:], known

    def _begins(self) -> tuple[list[int], Known]:
        """The begins of the longest blocks, one before the other from the last hour on, the first one first."""
        found, known = [len(self._hours)], dict[tuple[int, int], Block | None]()
        while at := found[0]:
            found.insert(0, at - self._longest(lambda size: (at - size, at), at, known))
        return found[:-1], known

    def fewest(self) -> list[Block]:
        """The fewest blocks. They are as even as can be where that serves too, since long blocks cost more."""
        (ends, known), (begins, more) = side_by_side([self._ends, self._begins])
        known.update(more)
        number = len(ends)
        even = [round(at * len(self._hours) / number) for at in range(1, number)]
        inner = [max(begin, min(end, own)) for begin, own, end in zip(begins[1:], even, ends)]
        for bounds in ([0, *inner, len(self._hours)], [0, *ends]):
            blocks = [self._block(own, known) for own in zip(bounds, bounds[1:])]
            found = [block for block in blocks if block]
            if len(found) == number:
                return found
        raise AssertionError("the longest blocks have plans")


def fewest(service: Service, plans: Sequence[HourPlan], programs: Judged) -> list[Block]:
    """The fewest blocks that serve all hours that have a plan. None goes over an hour that has no demand."""
    blocks: list[Block] = []
    placed = enumerate(plans)
    for (is_plan, _), group in itertools.groupby(placed, lambda it: (it[1].is_plan, it[1].hour.place - it[0])):
        if is_plan:
            blocks += _Search(service, [plan.hour for _, plan in group], programs).fewest()
    return blocks


def price(service: Service, plans: Sequence[HourPlan], blocks: Sequence[Block]) -> Fraction:
    """By which part blocks cost more than a plan of each hour. Of nothing it is 0."""
    least = sum(plan.certificate.cost for plan in plans if plan.is_plan)
    whole = sum((block.cost(service) for block in blocks), Fraction(0))
    return (whole - least) / least if least else Fraction(0)
