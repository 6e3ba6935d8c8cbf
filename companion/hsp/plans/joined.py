"""A shorter log with the same plans: a row for each kind of a log's rows.

What is planned of it has the cost and the loads of a plan of the log. A plan that is shown is checked against the log
itself, by hsplan-stream.
"""

from collections.abc import Iterable, Iterator

from hsp.base.grammar import HEADERS
from hsp.base.programs import Inputs, Programs
from hsp.plans.counted import Asked, examples, row_text, rows_of
from hsp.plans.service import Service

# So many kinds of rows are held in memory.
MOST_KINDS = 1 << 18
# A kind of rows: their region, and the place of their server at each site.
Kind = tuple[bytes, tuple[bytes, ...]]
# Rows with their kinds.
Placed = Iterable[tuple[Kind, Asked]]


def placed(service: Service, programs: Programs, demand: str) -> Iterator[list[tuple[Kind, Asked]]]:
    """The rows of a log with their kinds, in pieces. hsplan-stream says the places."""
    for rows in rows_of(demand):
        places = programs.places_by_site(service.inputs, examples(rows), len(service.sites))
        yield [((row.region, places.get(row.handle, ())), row) for row in rows]


def _kinds(service: Service, programs: Programs) -> dict[Kind, Asked] | None:
    """A row for each kind, with its first handle and the sum of its queries. None where there are too many kinds."""
    found: dict[Kind, Asked] = {}
    for rows in placed(service, programs, service.inputs.demand):
        for kind, row in rows:
            first = found.get(kind)
            found[kind] = row if first is None else first._replace(queries=first.queries + row.queries)
        if len(found) > MOST_KINDS:
            return None
    return found


def joined(service: Service, programs: Programs) -> Inputs:
    """The inputs of a service with the shorter log; as they are where the demand is a table, or has too many kinds."""
    inputs = service.inputs
    if not service.log:
        return inputs
    key = inputs.settings, inputs.demand
    if key not in programs.shorter:
        kinds = _kinds(service, programs)
        programs.shorter[key] = inputs.demand if kinds is None else _log(programs, kinds.values())
    return inputs.but(demand=programs.shorter[key])


def _log(programs: Programs, rows: Iterable[Asked]) -> str:
    """A log of rows, by its path."""
    path = programs.put(f"{HEADERS['demand']}\n", ".csv")
    programs.add(path, map(row_text, rows))
    return path
