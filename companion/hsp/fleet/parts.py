"""The parts of a run. A worker runs each in a Python of its own, with a request and a reply in JSON."""

import json
import os
import re
import sys
from collections.abc import Callable
from typing import Any

from hsp.base.files import created
from hsp.base.grammar import LOG_HEAD
from hsp.base.programs import Missing, Programs, Refused
from hsp.base.unfit import Unfit
from hsp.fleet import answers
from hsp.fleet.tables import Table
from hsp.intake.forms import Form, within
from hsp.intake.queries import Judge, Reading
from hsp.intake.regions import regions_in
from hsp.intake.side_by_side import parts_of
from hsp.intake.times import Span

Request = dict[str, Any]
Reply = dict[str, Any]


def form_of(said: Request) -> Form:
    pattern = re.compile(os.fsencode(said["pattern"])) if said["pattern"] else None
    prefixes = frozenset(os.fsencode(prefix) for prefix in said["prefixes"])
    return Form(said["name"], said["client"], said["handle"], said["path"], pattern, prefixes, said["time"])


def fields_of_form(form: Form) -> Request:
    pattern = os.fsdecode(form.pattern.pattern) if form.pattern else None
    prefixes = sorted(map(os.fsdecode, form.prefixes))
    names = {"name": form.name, "client": form.client, "handle": form.handle, "path": form.path, "time": form.time}
    return {**names, "pattern": pattern, "prefixes": prefixes}


def count(request: Request) -> Reply:
    """Counts a log. Its queries are kept beside it where a file for them is named."""
    seek = regions_in(request["files"]["networks"], request["by"], request["elsewhere"])
    span = Span(*request["span"])
    reading = Reading(form_of(request["form"]), seek, Judge(Programs()), tag=None if span.is_all else within(span))
    table, asked = Table(request["log"]), 0
    kept = created(request["staged"][0]) if request["staged"] else None
    try:
        if kept:
            kept.write(LOG_HEAD)
        for part in parts_of([request["log"]], reading, kept is not None):
            asked += part.counts.total()
            table.add(part.counts)
            if kept:
                kept.writelines(part.kept)
        if kept:
            kept.flush()
            os.fsync(kept.fileno())
    finally:
        if kept:
            kept.close()
    skipped = {"counts": reading.skipped.counts, "first": reading.skipped.first}
    return {"table": table.text, "asked": asked, "skipped": skipped}


WORK: dict[str, Callable[[Request], Reply]] = {"count": count, "answer": answers.answer}


def replied(request: Request) -> Reply:
    """What a part found; or `fault`, which no repetition mends; or `again`, which one may mend."""
    try:
        return WORK[request["what"]](request)
    except Unfit as fault:
        return {"fault": fault.message, "status": 1}
    except Refused as fault:
        return {"fault": fault.line, "status": fault.status}
    except Missing as fault:
        return {"fault": str(fault), "status": 5}
    except answers.Again as fault:
        return {"again": str(fault), "status": fault.status}
    except MemoryError:
        return {"again": "out of memory", "status": 4}
    except OSError as fault:
        return {"again": f"{fault.filename}: {fault.strerror}", "status": 5}


def main() -> None:
    with open(sys.argv[2], encoding="ascii") as file:
        request = json.load(file)
    json.dump(replied(request), sys.stdout)
