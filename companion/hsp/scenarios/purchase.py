"""One purchase of room that serves every loss, and short sets that show how little can do.

Rounds: the short sets so far say what is bought at least; after it each loss is planned again, and each shortage is one
more set. The weights of the sets show that no purchase is smaller: no server is reached by sets of more weight than 1
together, so what each set lacks, times its weight, has to be bought.
"""

import importlib
import itertools
import math
import re
import sys
from collections import Counter
from collections.abc import Callable, Iterable, Sequence
from dataclasses import dataclass, field, replace
from fractions import Fraction
from typing import Any

from hsp.base.numbers import some
from hsp.base.programs import Missing
from hsp.base.text import show_progress
from hsp.plans.joined import joined
from hsp.plans.plans import reached_by
from hsp.plans.service import Server, Service
from hsp.scenarios.judged import Judged, side_by_side
from hsp.scenarios.losses import Loss, losses_of, without

# After so many rounds, or with so many sets, each loss buys what it still lacks.
MOST_ROUNDS, MOST_SETS = 40, 4_000
# Weights are fractions of denominators up to this.
FINEST = 1_000_000


@dataclass(frozen=True)
class Lack:
    """Rows that after a loss ask for more than the servers that they may use take now."""

    loss: Loss
    rows: int
    demand: int
    capacity: int
    servers: frozenset[Server]
    text: str = field(repr=False)
    weight: Fraction = Fraction(0)

    @property
    def queries(self) -> int:
        """How many queries lack room."""
        return self.demand - self.capacity


@dataclass
class Purchase:
    """Room that serves every loss; the least that does by the weighted sets; and losses that no room serves."""

    bought: dict[Server, int] = field(default_factory=dict)
    lacks: list[Lack] = field(default_factory=list)
    unserved: list[Loss] = field(default_factory=list)
    rounds: int = 0

    @property
    def size(self) -> int:
        return sum(self.bought.values())

    @property
    def least(self) -> int:
        """No purchase below it serves every loss."""
        return math.ceil(sum(lack.weight * lack.queries for lack in self.lacks))


def solver() -> Any:
    """SciPy's linear programmes by HiGHS."""
    try:
        return importlib.import_module("scipy.optimize")
    except ImportError:
        raise Missing("--buy needs SciPy: apt install python3-scipy") from None


class Rounds:
    """Purchases for the short sets that are known."""

    def __init__(self, service: Service, lacks: list[Lack]) -> None:
        self._optimize: Any = solver()
        self._numpy: Any = importlib.import_module("numpy")
        self._lacks = lacks
        self._servers = [it for it in service.servers if any(it in lack.servers for lack in lacks)]
        self._reached = self._numpy.array([[it in lack.servers for it in self._servers] for lack in lacks], float)
        self._queries = self._numpy.array([lack.queries for lack in lacks], float)
        self._rooms = self._numpy.array([max(1, service.capacity(it)) for it in self._servers], float)

    def weights(self) -> list[Fraction]:
        """Weights of the sets whose sum of lacks is the greatest, as exact fractions that no server's sum passes 1."""
        found = self._optimize.linprog(
            -self._queries, A_ub=self._reached.T, b_ub=self._numpy.ones(len(self._servers)), method="highs"
        )
        own = [Fraction(float(part)).limit_denominator(FINEST) for part in found.x]
        sums = [sum(itertools.compress(own, column)) for column in self._reached.T]
        over = max([Fraction(1), *map(Fraction, sums)])
        return [weight / over for weight in own]

    def bought(self) -> dict[Server, int]:
        """A least purchase for these sets in whole queries, which adds as evenly to the servers' room as may be."""
        optimize, numpy, number = self._optimize, self._numpy, len(self._servers)
        whole = optimize.milp(
            numpy.ones(number),
            constraints=optimize.LinearConstraint(self._reached, self._queries),
            integrality=numpy.ones(number),
            options={"time_limit": 10},
        )
        if whole.x is None:
            return self._rounded_up()
        size = round(whole.x.sum())
        evenly = numpy.c_[numpy.diag(1 / self._rooms), -numpy.ones(number)]
        spread = optimize.milp(
            numpy.r_[numpy.zeros(number), 1],
            constraints=[
                optimize.LinearConstraint(numpy.c_[self._reached, numpy.zeros(len(self._lacks))], self._queries),
                optimize.LinearConstraint(evenly, -numpy.inf, 0),
                optimize.LinearConstraint(numpy.r_[numpy.ones(number), 0], 0, size),
            ],
            integrality=numpy.r_[numpy.ones(number), 0],
            options={"time_limit": 10, "mip_rel_gap": 0.01},
        )
        rooms = whole.x if spread.x is None else spread.x[:number]
        return self._where_more([round(more) for more in rooms])

    def _rounded_up(self) -> dict[Server, int]:
        found = self._optimize.linprog(
            self._numpy.ones(len(self._servers)), A_ub=-self._reached, b_ub=-self._queries, method="highs"
        )
        return self._where_more([math.ceil(more - 1e-6) for more in found.x])

    def _where_more(self, rooms: list[int]) -> dict[Server, int]:
        """The servers of which more room is bought."""
        return {it: more for it, more in zip(self._servers, rooms) if more > 0}


def show_round(found: Purchase | None) -> None:
    """How far the search is, on a terminal; nothing takes that away again."""
    if sys.stderr.isatty() and (found is None or found.rounds > 1):
        show_progress("" if found is None else f"buying: round {found.rounds}, {some(len(found.lacks), 'short set')}")


class Purchases:
    """Searches for a purchase that serves every loss of a service."""

    def __init__(self, service: Service, programs: Judged) -> None:
        self._service, self._programs = service, programs
        limits = {host["address"].lower(): host["limit"] for host in service.settings.get("host", [])}
        self._limits = {it: limits[it.address.lower()] for it in service.servers if it.address.lower() in limits}

    def search(self) -> Purchase:
        """The purchase, with the sets that show how little can do."""
        found, losses = Purchase(), losses_of(self._service)
        todo, is_whole = losses, True
        while True:
            found.rounds += 1
            show_round(found)
            short = self._short(todo, found)
            served = [loss for loss in losses if loss not in found.unserved]
            if len(served) < len(losses):
                losses, is_whole = served, False
                found.lacks = [lack for lack in found.lacks if lack.loss in served]
            elif not short and is_whole:
                return self._weighed(found)
            if short and not self._add(short, found):
                self._on_top(found, losses)
                return self._weighed(found)
            found.bought = Rounds(self._service, found.lacks).bought() if found.lacks else {}
            todo, is_whole = ([it.loss for it in short], False) if short else (losses, True)

    def _add(self, short: Sequence[Lack], found: Purchase) -> bool:
        """Adds the sets that are new. False where none is, or the rounds run out."""
        known = {(it.loss, it.servers, it.demand) for it in found.lacks}
        fresh = [it for it in short if (it.loss, it.servers, it.demand) not in known]
        if not fresh or found.rounds >= MOST_ROUNDS or len(found.lacks) + len(fresh) > MOST_SETS:
            return False
        found.lacks += fresh
        return True

    def _short(self, losses: Sequence[Loss], found: Purchase) -> list[Lack]:
        """What lacks after these losses with the purchase so far. A loss that no room serves is set aside."""
        tasks: list[Callable[[], Lack | None]] = [
            lambda loss=loss: self.lack_of(loss, found.bought) for loss in losses  # type: ignore[misc]
        ]
        lacks = [lack for lack in side_by_side(tasks) if lack]
        found.unserved += [it.loss for it in lacks if not self._useful(it, found.bought)]
        return [it for it in lacks if it.loss not in found.unserved]

    def lack_of(self, loss: Loss, bought: dict[Server, int]) -> Lack | None:
        """The rows that lack room after a loss, bought room counted, with what their servers take now; None where a
        plan serves all."""
        service, programs = self._service, self._programs
        lost = without(service, loss, programs, bought)
        certificate, path = programs.plan(joined(lost, programs))
        lost = replace(lost, certificate=certificate, plan_file=path)
        try:
            if certificate.is_plan:
                return None
            reached = reached_by(lost, programs)
            rows = 0 if service.log else len(certificate.rows)
            own = frozenset(it for it in reached if it not in loss.servers)
            return Lack(loss, rows, certificate.demand, self._room(own, {}), own, certificate.text)
        finally:
            programs.put_away(path, *({lost.inputs.costs, lost.inputs.capacity} - set(service.inputs.files())))

    def _rooms(self, servers: Iterable[Server], bought: dict[Server, int]) -> Counter[str]:
        """What the servers of each machine with a limit take; those of others below the empty address."""
        rooms: Counter[str] = Counter()
        for it in servers:
            rooms[it.address.lower() if it in self._limits else ""] += self._service.capacity(it) + bought.get(it, 0)
        return rooms

    def _room(self, servers: Iterable[Server], bought: dict[Server, int]) -> int:
        """What servers take together: those of a machine at most its limit."""
        own = list(servers)
        limits = {it.address.lower(): self._limits[it] for it in own if it in self._limits}
        return sum(min(room, limits.get(at, room)) for at, room in self._rooms(own, bought).items())

    def _useful(self, lack: Lack, bought: dict[Server, int]) -> dict[Server, int]:
        """The servers at which room serves some rows of a set, with how much of it at most: no machine passes its
        limit."""
        rooms = self._rooms(lack.servers, bought)
        limited = (it for it in lack.servers if it in self._limits)
        left = {it: self._limits[it] - rooms[it.address.lower()] for it in limited}
        return {it: left.get(it, lack.queries) for it in lack.servers if left.get(it, 1) > 0}

    def _on_top(self, found: Purchase, losses: Sequence[Loss]) -> None:
        """Buys what each loss still lacks, at the largest server that serves it."""
        for loss in losses:
            while lack := self.lack_of(loss, found.bought):
                useful = self._useful(lack, found.bought)
                if not useful:
                    found.unserved.append(loss)
                    break
                at = max(useful, key=lambda it: (self._service.capacity(it), -it.number))
                lacking = lack.demand - self._room(lack.servers, found.bought)
                found.bought[at] = found.bought.get(at, 0) + min(useful[at], lacking)

    def _weighed(self, found: Purchase) -> Purchase:
        """The purchase with the weights of its sets, each of which is judged as a shortage of its loss as things are."""
        show_round(None)
        if not found.lacks:
            return found
        weights = Rounds(self._service, found.lacks).weights()
        found.lacks = [replace(lack, weight=weight) for lack, weight in zip(found.lacks, weights) if weight]
        for lack in found.lacks:
            lost = without(self._service, lack.loss, self._programs)
            text = re.sub(r"(?m)^capacity \d+$", f"capacity {lack.capacity}", lack.text)
            self._programs.insist(joined(lost, self._programs), self._programs.put(text))
        return found
