"""What lies ahead of a plan: how far the demand can grow, the worst loss, and what was moved since the plan before."""

from collections.abc import Iterator, Sequence
from dataclasses import dataclass

from hsp.base.numbers import part, queries_of
from hsp.base.paths import shell_word
from hsp.base.programs import Missing
from hsp.base.unfit import Unfit
from hsp.plans.page import Fact, FactTable
from hsp.plans.service import Service
from hsp.scenarios import grow_lines, survive_lines
from hsp.scenarios.growth import STEP, Growth, grown, percent_of
from hsp.scenarios.in_force import in_force
from hsp.scenarios.judged import Judged, Progress
from hsp.scenarios.losses import After, losses_of, survived
from hsp.scenarios.nearest import moved_between


@dataclass(frozen=True)
class Ahead:
    """The growths, first that of all demand; the losses, the worst first; and how many queries are moved, if that is
    known. A service that is short has no losses, and one that nobody asks has neither growths nor losses."""

    service: Service
    growths: Sequence[Growth]
    losses: Sequence[After]
    moved: int | None = None

    def lines(self) -> Iterator[str]:
        """A line for each."""
        folder = shell_word(self.service.folder)
        for first in self.growths[:1]:
            short = f" {grow_lines.then(self.service, first.short)}" if first.short else ""
            yield f"grow  {grow_lines.span(first)}{short} (hsp grow {folder})"
        if self.losses:
            yield f"loss  {survive_lines.worst(self.service, self.losses)} (hsp survive {folder})"
        if self.moved is not None:
            yield f"moves {_share(self.service, self.moved)} of the queries since the plan before"

    def report(self) -> dict[str, object]:
        """The same for other programs. Factors are of the present counts, and what isn't known is null."""
        fits, short_from = next(((it.fits, it.short_from) for it in self.growths), (None, None))
        worst = self.losses[0] if self.losses else None
        loss = (
            {"kind": worst.loss.kind, "what": worst.loss.name, "cost": worst.cost, "lack": worst.lack}
            if worst
            else None
        )
        return {
            "fits_until": None if fits is None else fits / STEP,
            "short_from": None if short_from is None else short_from / STEP,
            "worst_loss": loss,
            "moved_since_before": self.moved,
        }

    def facts(self) -> list[Fact]:
        """The same as tiles of a page."""
        found = []
        for first in self.growths[:1]:
            short = f"short from {percent_of(first.short_from)} on" if first.short_from is not None else ""
            fits = percent_of(first.fits) if first.fits is not None else "short"
            found.append(Fact("Fits until", fits, short))
        if self.losses:
            worst = self.losses[0]
            after = survive_lines.change(self.service, worst)
            found.append(Fact("Worst loss", worst.loss.name, after))
        if self.moved is not None:
            found.append(moved_fact(self.service, self.moved))
        return found

    def tables(self) -> list[FactTable]:
        """The same as tables of a page."""
        found = [growth_table(self.service, self.growths)] if self.growths else []
        return [*found, loss_table(self.service, self.losses)] if self.losses else found


def _share(service: Service, moved: int) -> str:
    """Which part of all queries is moved; of nothing 0."""
    return part(moved / service.asked if service.asked else 0.0)


def moved_fact(service: Service, moved: int) -> Fact:
    return Fact("Moves", _share(service, moved), f"{queries_of(moved)} since the plan before")


def growth_table(service: Service, growths: Sequence[Growth]) -> FactTable:
    """How far all demand, and each region's, can grow."""
    rows = []
    for growth in growths:
        fits = percent_of(growth.fits) if growth.fits is not None else "short"
        short_from = percent_of(growth.short_from) if growth.short_from is not None else "never"
        binds = grow_lines.where(service, growth.short) if growth.short else ""
        rows.append([growth.region or "all demand", fits, short_from, binds])
    note = (
        "Up to the first number a plan serves all; from the second on some rows ask for more than their servers take."
    )
    return FactTable(
        "ahead", "When the demand grows", note, ["", "fits until", "short from", "what is full then"], rows
    )


def loss_table(service: Service, losses: Sequence[After]) -> FactTable:
    """What each loss leaves, the worst first."""
    rows = [
        [f"{survive_lines.WORDS[it.loss.kind]} {it.loss.name}", survive_lines.change(service, it)] for it in losses
    ]
    served = sum(it.cost is not None for it in losses)
    note = (
        f"{served:,} of {len(losses):,} losses leave a plan; what it costs more stands beside them. The worst first."
    )
    return FactTable("losses", "When something is lost", note, ["without", "then"], rows)


def ahead_of(service: Service, programs: Judged) -> Ahead:
    if not service.asked:
        return Ahead(service, [], [])
    growths = grown(service, programs)
    if not service.certificate.is_plan:
        return Ahead(service, growths, [])
    return Ahead(service, growths, survived(service, programs, None, Progress(len(losses_of(service)))))


def moved_since(path: str, service: Service, programs: Judged) -> int | None:
    """How many queries a service's plan moves since the one in a file; None where that isn't known."""
    if service.log or not service.certificate.is_plan:
        return None
    try:
        held = in_force(path, service, programs)
    except (Missing, Unfit, OSError):
        return None
    return moved_between(service, held.homes, service.certificate)
