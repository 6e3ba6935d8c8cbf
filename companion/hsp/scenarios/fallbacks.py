"""The folder of fallback plans: for each loss that leaves a plan, this plan and the table that the loss changes."""

import contextlib
import csv
import io
import os
import re
from collections.abc import Iterable, Sequence
from dataclasses import dataclass

from hsp.base.bounds import octets_of, whole
from hsp.base.files import forget, locked, refuse_clashes, refuse_no_folder, replace_all
from hsp.base.paths import path_in
from hsp.base.programs import table_text
from hsp.base.unfit import Unfit
from hsp.plans.answering import LESS_CAPACITY, LESS_SETTINGS, kept_beside
from hsp.plans.service import NAMES, Service
from hsp.scenarios.in_force import PLAN
from hsp.scenarios.judged import Judged
from hsp.scenarios.losses import HOST, SERVER, SITE, After, Loss

FOLDER, TABLE = "fallback", "losses.csv"
HEADER = "kind,what,served,cost,change,lack,moved,lost,plan"
# The name of a folder of a loss.
NAME = re.compile(rf"({SITE}|{SERVER}|{HOST})-[A-Za-z0-9._-]+")
# The names of the files that a fallback may have.
OWN = (PLAN, NAMES["costs"], NAMES["capacity"], LESS_CAPACITY, LESS_SETTINGS)


@dataclass(frozen=True)
class Fallbacks:
    """A folder of fallback plans. Its table is written last: a folder without it isn't whole."""

    folder: str
    service: Service
    programs: Judged

    @property
    def root(self) -> str:
        """The folder above, below which no link is followed."""
        return os.path.dirname(self.folder) or "."

    @property
    def table(self) -> str:
        return path_in(self.folder, TABLE)

    def path(self, found: After, name: str = "") -> str:
        """The path of a file of a loss, or of its folder."""
        return path_in(self.folder, os.path.join(found.loss.folder, name))

    def refuse(self, all_losses: Sequence[str]) -> None:
        """Refuses to write through a link, over a file that is read, or where no folder can be."""
        for path in (self.folder, *(path_in(self.folder, name) for name in all_losses)):
            refuse_no_folder(path, "fallback plans are written")
        kept = (path_in(self.folder, os.path.join(loss, name)) for loss in all_losses for name in OWN)
        refuse_clashes(self.service.own_inputs.files(), [self.table, *kept])

    def keep(self, all_found: Sequence[After]) -> int:
        """Writes the fallback plans, and takes away those of losses that have none, and of what has left the service.
        Returns how many plans there are."""
        os.makedirs(self.folder, exist_ok=True)
        with locked([self.folder]):
            gone = self._earlier() - {found.loss.folder for found in all_found}
            forget(self.root, self.folder, [TABLE])
            for folder in [*gone, *(found.loss.folder for found in all_found if found.cost is None)]:
                self._forget(folder, OWN)
            for found in all_found:
                if found.cost is not None:
                    contents = self._contents(found)
                    replace_all(contents, self.root)
                    self._forget(found.loss.folder, set(OWN) - {os.path.basename(path) for path in contents})
            replace_all({self.table: csv_of(self.service, all_found, self).encode()}, self.root)
        return sum(found.cost is not None for found in all_found)

    def _contents(self, found: After) -> dict[str, bytes]:
        """The plan, the table that the loss changes, and the inputs less a reserve."""
        role = "costs" if found.loss.kind == SITE else "capacity"
        plan = self.path(found, PLAN)
        _, contents = kept_beside(found.service, plan)
        for name, source in ((PLAN, found.service.plan_file), (NAMES[role], getattr(found.service.inputs, role))):
            contents[self.path(found, name)] = octets_of(source)
        return contents

    def _earlier(self) -> set[str]:
        """The folders of the losses that the table of an earlier run has, but for those of which a file is read."""
        try:
            rows = list(csv.DictReader(io.StringIO(whole(self.table).decode(), newline="")))
        except (OSError, UnicodeDecodeError, csv.Error, Unfit):
            return set()
        folders = {Loss(row.get("kind") or "", row.get("what") or "", ()).folder for row in rows}
        read = {os.path.dirname(os.path.realpath(path)) for path in self.service.own_inputs.files()}
        return {it for it in folders if NAME.fullmatch(it) and os.path.realpath(path_in(self.folder, it)) not in read}

    def _forget(self, folder: str, names: Iterable[str]) -> None:
        """Takes away files of a loss, and its folder where nothing else is there. A link is not followed."""
        path = path_in(self.folder, folder)
        forget(self.root, path, names)
        with contextlib.suppress(OSError):
            os.rmdir(path)


def csv_of(service: Service, all_found: Sequence[After], kept: Fallbacks | None = None) -> str:
    """What each loss leaves, as a table for other programs: the worst first."""
    rows = []
    for found in all_found:
        loss, is_served = found.loss, found.cost is not None
        change = found.cost - service.certificate.cost if found.cost is not None else ""
        plan = os.path.join(loss.folder, PLAN) if kept and is_served else ""
        lost = found.forced if found.moved is not None else ""
        sums = found.cost, change, found.lack, found.moved, lost
        rows.append((loss.kind, loss.name, str(is_served).lower(), *sums, plan))
    return table_text(HEADER, rows)
