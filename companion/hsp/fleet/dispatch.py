"""`hsp fleet dispatch`: a part for each front, and its answers beside its log."""

import contextlib
import os
import re
import tempfile
from collections import Counter
from dataclasses import dataclass, field, replace
from typing import Any

import click

from hsp.base.files import refuse_clashes
from hsp.base.grammar import MOST_FRONTS
from hsp.base.numbers import listed, some
from hsp.base.options import ANY_FILE
from hsp.base.paths import path_in, shell_word
from hsp.base.programs import Inputs, Missing, Programs
from hsp.base.text import say
from hsp.base.unfit import Unfit
from hsp.fleet import kit
from hsp.fleet.answers import SUMS, line_of_row
from hsp.fleet.engine import Engine, Reply
from hsp.fleet.progress import shown
from hsp.fleet.session import Targets, place_of, session, with_cluster
from hsp.fleet.split import Parted
from hsp.intake.bring import FOLDER
from hsp.plans.answering import less_reserve
from hsp.plans.service import inputs_in, newer_than

SUFFIX = ".answers"
# How a certificate by prices begins.
PRICES = b"HSPLAN PRICES "
OF_FRONT = re.compile(r"([0-9]+)(?:@([^=/]+))?=(.+)", re.DOTALL)


@dataclass
class Front:
    """A front, or all of them where it has no number, and its logs at one host."""

    number: int | None
    host: str | None
    logs: list[str] = field(default_factory=list)

    @property
    def targets(self) -> list[str]:
        return [os.path.abspath(log + SUFFIX) for log in self.logs]


def fronts_of(words: tuple[str, ...], most: int) -> list[Front]:
    """The fronts in their order. Several logs of a front are one log."""
    found: dict[int, Front] = {}
    for text in words:
        match = OF_FRONT.fullmatch(text)
        if not match and len(words) > 1:
            raise click.UsageError(f"'{text}' names no front: give FRONT=LOG or FRONT@HOST=LOG, or one log of all")
        if not match:
            return [Front(None, None, [text])]
        number, host = int(match[1]), match[2]
        if number >= most:
            raise click.UsageError(f"front {number} isn't one of {most}: the first one is 0")
        own = found.setdefault(number, Front(number, host))
        if own.host != host:
            raise click.UsageError(f"front {number} has logs at two hosts: a front begins with its whole share again")
        own.logs.append(match[3])
    names = [(front.host, path) for front in found.values() for path in front.targets]
    if len(set(names)) < len(names):
        raise click.UsageError("a log is given twice")
    logs = {(front.host, os.path.abspath(path)) for front in found.values() for path in front.logs}
    for _, path in logs.intersection(names):
        raise Unfit(f"{path}: it would be read and written")
    return [found[front] for front in sorted(found)]


def request_of(front: Front, options: dict[str, Any], targets: list[str]) -> Reply:
    said = {name: options[name] for name in ("fronts", "by_prices")}
    return {**said, "what": "answer", "front": front.number, "logs": front.logs, "targets": targets}


def _rows(reply: Reply) -> int:
    return sum(reply["sums"].values()) if "sums" in reply else 0


def apart(engine: Engine, fronts: list[Front], options: dict[str, Any]) -> list[Reply]:
    """Answers the logs of each front, and publishes all answers."""
    hosts = [engine.host(front.host) if front.host else None for front in fronts]
    parts = [
        engine.submit(request_of(front, options, front.targets), host=host)
        for front, host in zip(fronts, hosts, strict=True)
    ]
    replies = engine.outcomes(parts, shown(engine, "front", len(parts), _rows))
    engine.publish([(front.targets, reply, host) for front, reply, host in zip(fronts, replies, hosts)])
    return replies


def beside(own: Front) -> "tempfile.TemporaryDirectory[str]":
    """A folder for the logs of each front, beside the log of all: every worker has to read them."""
    return tempfile.TemporaryDirectory(dir=os.path.dirname(own.targets[0]), prefix=".hsp-fleet-")


def together(engine: Engine, own: Front, folder: str, options: dict[str, Any]) -> list[Reply]:
    """Answers a log of all fronts: each front apart, and the answers in the order of the log."""
    log, output = own.logs[0], own.targets[0]
    parted = Parted(log, folder, options["fronts"])
    if not parted.is_plain:
        return _in_one(engine, own, options)
    fronts = [Front(at, None, [path]) for at, path in enumerate(parted.logs)]
    parts = [engine.submit(request_of(front, options, front.targets)) for front in fronts]
    replies = engine.outcomes(parts, shown(engine, "front", len(parts), _rows), every=True)
    _fine(parted, replies)
    engine.publish([(front.targets, reply, None) for front, reply in zip(fronts, replies)])
    parted.merge([front.targets[0] for front in fronts], output)
    return replies


def _fine(parted: Parted, replies: list[Reply]) -> None:
    """Reports the first fault of the log, as one run would."""
    rows = [(parted.row(at, reply["row"]), reply) for at, reply in enumerate(replies) if "row" in reply]
    if rows:
        row, fault = min(rows, key=lambda pair: pair[0])
        raise Unfit(f"{parted.path}: line {line_of_row(parted.path, row)}: {fault['word']}")
    for reply in replies:
        if "fault" in reply:
            raise Unfit(reply["fault"])


def _in_one(engine: Engine, own: Front, options: dict[str, Any]) -> list[Reply]:
    """A log that can't be parted by its lines is answered by one run."""
    if options["by_prices"]:
        wanted = f"by prices each line has to begin with a front below {options['fronts']}"
        raise Unfit(f"{own.logs[0]}: {wanted}")
    parts = [engine.submit(request_of(own, options, own.targets))]
    replies = engine.outcomes(parts, shown(engine, "log", 1, _rows))
    engine.publish([(own.targets, replies[0], None)])
    return replies


def of_these_files(folder: str, programs: Programs, inputs: Inputs, plan: str) -> Inputs:
    """The inputs of which a plan is: the folder's, or those less a reserve that are kept beside it. Refuses a plan of
    other files, or of files that have changed, before any worker is asked."""
    verdict = programs.verdict(inputs, plan)
    if not verdict.startswith("no "):
        return inputs
    less = less_reserve(plan, inputs)
    if less and programs.verdict(less, plan) == "yes":
        return less
    newer = newer_than(inputs.files(), plan)
    why = f"the plan is older than {listed(newer)}" if newer else "the plan isn't one of these files"
    raise Unfit(f"{plan}: {why}: hsp plan {shell_word(folder)}; {inputs.program} check says {verdict}")


def inputs_for(folder: str, certificate: str) -> Inputs:
    """The files of a folder, whose demand is read as a log where the certificate is one by prices."""
    if not os.path.isfile(certificate):
        raise Missing(f"{certificate}: no such file: hsp plan {shell_word(folder)} makes it")
    with open(certificate, "rb") as file:
        is_by_prices = file.read(len(PRICES)) == PRICES
    inputs = inputs_in(folder, {})
    return replace(inputs, is_log=inputs.is_log or is_by_prices)


@click.command()
@click.argument("folder", metavar="DIR", type=FOLDER)
@click.argument("logs", metavar="[FRONT[@HOST]=]LOG..", nargs=-1, required=True, type=ANY_FILE)
@click.option(
    "--fronts", type=click.IntRange(1, MOST_FRONTS), required=True, metavar="N", help="how many fronts the plan has"
)
@click.option("--plan", metavar="FILE", type=ANY_FILE, help="the certificate, in place of DIR/plan.txt")
@with_cluster
def dispatch(folder: str, logs: tuple[str, ...], plan: str | None, **given: Any) -> None:
    """Answers the queries of logs by the plan of DIR, in parallel.

    Each front answers by its share, on many processors or machines. A front's LOG is a table region,handle. Every
    worker can read it, or those of its host only. The answers are in LOG.answers. One LOG of all fronts is a table
    front,region,handle. By a plan by prices any handle is answered, and logs of any length.
    """
    place, fronts = place_of(given), fronts_of(logs, given["fronts"])
    certificate = plan or path_in(folder, "plan.txt")
    inputs, own = inputs_for(folder, certificate), [front for front in fronts if not front.host]
    given["by_prices"] = inputs.is_log
    read = [certificate, *inputs.files(), *(path for front in own for path in front.logs)]
    refuse_clashes(read, [path for front in own for path in front.targets])
    inputs = of_these_files(folder, Programs(), inputs, certificate)
    files = {**kit.files_of(inputs, certificate), **kit.programs(), "hsp.zip": kit.companion()}
    targets: Targets = [(front.targets, front.host) for front in fronts]
    with contextlib.ExitStack() as stack:
        folder = stack.enter_context(beside(fronts[0])) if fronts[0].number is None else ""
        engine = stack.enter_context(session(place, targets))
        engine.ship(files, given["installed"])
        if folder:
            replies = together(engine, fronts[0], folder, given)
        else:
            replies = apart(engine, fronts, given)
    sums: Counter[str] = Counter()
    for reply in replies:
        sums.update(reply["sums"])
    answers = [path + SUFFIX for front in fronts for path in front.logs]
    counts = ", ".join(f"{sums[word]:,} {word}" for word in SUMS if sums[word])
    say(f"{some(sum(sums.values()), 'row')}: {counts}; answers in {listed(answers)}")
