"""A plan near the one in force, as `hsp plan --near` makes it: its lines, and the tables that show it."""

import os
from dataclasses import dataclass, replace

from hsp.base.bounds import octets_of
from hsp.base.files import refuse_no_folder
from hsp.base.numbers import part
from hsp.base.paths import path_in
from hsp.base.programs import Inputs
from hsp.plans.service import NAMES, Service
from hsp.scenarios.in_force import PLAN, InForce, files_beside, in_force
from hsp.scenarios.judged import Judged
from hsp.scenarios.nearest import Portions, TooMany, moved_between

# The folder beside a plan with the tables of its portions and their plan.
FOLDER = "near"
# Its files.
KEPT = (NAMES["demand"], NAMES["costs"], PLAN)


@dataclass(frozen=True)
class Near:
    """A service with a plan near the one in force, or with the plain plan where `why` says why it isn't near. Of a log
    nobody knows what its plan moves."""

    service: Service
    held: InForce | None
    moved: int
    plain: int
    why: str = ""
    portions: Inputs | None = None
    portions_plan: str = ""

    def line(self) -> str:
        """How many queries are moved, and by how many the plain plan would move."""
        moved, plain = self._share(self.moved), self._share(self.plain)
        if not self.held:
            return f"near  no: {self.why}; this is the plain plan"
        if self.why:
            return f"near  no: {self.why}; this is the plain plan, which moves {plain} from {self.held.path}"
        of = f"{self.service.asked:,} queries"
        return f"near  moves {moved} of {of} from {self.held.path}, the fewest of all cheapest plans; plain {plain}"

    def report(self) -> dict[str, object]:
        """The same for other programs. What isn't known is null."""
        known = bool(self.held)
        return {
            "moved": self.moved if known else None,
            "moved_is_fewest": known and not self.why,
            "moved_by_plain_plan": self.plain if known else None,
        }

    @property
    def beside(self) -> list[str]:
        """The files that were read with the plan in force."""
        return files_beside(self.held.path) if self.held else []

    def _share(self, moved: int) -> str:
        return f"{moved:,} ({part(moved / self.service.asked) if self.service.asked else '0%'})"

    def contents(self, plan: str) -> dict[str, bytes]:
        """The tables of the portions and their plan, which are kept beside a plan."""
        if not self.portions:
            return {}
        folder = path_in(os.path.dirname(plan), FOLDER)
        refuse_no_folder(folder, "what shows that a plan is near is written")
        sources = zip(KEPT, (self.portions.demand, self.portions.costs, self.portions_plan))
        return {path_in(folder, name): octets_of(source) for name, source in sources}

    def shown_by(self, plan: str) -> str:
        """What shows that no cheapest plan moves fewer."""
        if not self.portions:
            return ""
        folder = path_in(os.path.dirname(plan), FOLDER)
        return f"check yes: {path_in(folder, PLAN)} shows that no cheapest plan moves fewer"


def near_plan(words: str, service: Service, programs: Judged) -> Near:
    """Of the cheapest plans of a service one that moves the fewest queries from the plan in force."""
    if service.log:
        return Near(service, None, 0, 0, "the rows of a log have no portions")
    held = in_force(words, service, programs)
    plain = moved_between(service, held.homes, service.certificate)
    if service.asked and not any((row.region, row.handle) in held.homes for row in service.rows if row.count):
        return Near(service, held, plain, plain, f"none of its rows is asked for in {service.inputs.demand}")
    try:
        portions = Portions(service, held.homes, programs)
    except TooMany as fault:
        return Near(service, held, plain, plain, f"{fault}, more than tables hold")
    near = portions.nearest(service, service.certificate)
    if not near:
        return Near(service, held, plain, plain, "the portions' plan isn't a cheapest one")
    own = replace(service, certificate=near.certificate, plan_file=near.plan_file)
    return Near(own, held, near.moved, plain, "", near.portions, near.portions_plan)
