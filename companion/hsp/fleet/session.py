"""A run from its first worker to its last file, and the options that say where it runs."""

import contextlib
import sys
from collections.abc import Callable, Iterator
from typing import Any, NoReturn, TypeVar

import click

from hsp.base.ends import BROKEN, ended
from hsp.base.numbers import some
from hsp.base.options import ANY_FILE
from hsp.base.signals import STOPPED, deaf, stopping
from hsp.base.text import say, show_progress
from hsp.fleet.engine import Engine, Place, Unfinished
from hsp.fleet.local import Gone

Command = TypeVar("Command", bound=Callable[..., Any])
# Paths whose unpublished files are taken away at the end, and their host.
Targets = list[tuple[list[str], str | None]]
OPTIONS = [
    click.option("--workers", type=click.IntRange(1, 256), metavar="N", help="of this machine; one a processor"),
    click.option("--scheduler", metavar="ADDRESS", help="tcp://HOST:PORT or tls://HOST:PORT that runs already"),
    click.option(
        "--tls-ca", metavar="FILE", type=ANY_FILE, help="the certificate of the authority that a tls scheduler trusts"
    ),
    click.option("--tls-cert", metavar="FILE", type=ANY_FILE, help="this client's certificate"),
    click.option("--tls-key", metavar="FILE", type=ANY_FILE, help="its key"),
    click.option("--installed", is_flag=True, help="workers use the programs in their PATH, if these are the same"),
    click.option(
        "--patience", type=click.FloatRange(1), default=60, show_default=True, help="seconds to wait for a worker"
    ),
]


def with_cluster(command: Command) -> Command:
    """Adds the options that say where a run takes place."""
    for option in reversed(OPTIONS):
        command = option(command)
    return command


def place_of(given: dict[str, Any]) -> Place:
    scheduler, workers = given["scheduler"], given["workers"]
    keys = given["tls_ca"], given["tls_cert"], given["tls_key"]
    if scheduler and workers:
        raise click.UsageError("--workers is for this machine, --scheduler for workers that run already")
    if not scheduler and any(keys):
        raise click.UsageError("--tls-ca, --tls-cert and --tls-key are for a --scheduler")
    if scheduler and not scheduler.startswith(("tcp://", "tls://")):
        raise click.UsageError(f"a scheduler is tcp://HOST:PORT or tls://HOST:PORT, not {scheduler}")
    if scheduler and scheduler.startswith("tls:") != all(keys) or any(keys) != all(keys):
        raise click.UsageError("a scheduler at tls:// needs --tls-ca, --tls-cert and --tls-key, another one none")
    return Place(scheduler, workers, keys, given["patience"])


@contextlib.contextmanager
def session(place: Place, targets: Targets) -> Iterator[Engine]:
    """A run. It ends with one line where it can't go on, and takes away all that it hasn't published."""
    away = next((host for _, host in targets if host), None)
    if away and not place.scheduler:
        why = "without it all workers are of this machine"
        raise click.UsageError(f"a log at {away} needs --scheduler: {why}")
    engine: Engine | None = None

    def stop(number: int) -> None:
        if not engine or not engine.is_publishing:
            raise Unfinished(STOPPED + number, "interrupted; nothing was written")

    with stopping(stop):
        try:
            engine = Engine(place)
            yield engine
            _report_restarts(engine)
        except Unfinished as fault:
            _ended(fault.status, str(fault))
        except Gone as fault:
            _ended(BROKEN, str(fault))
        finally:
            deaf()
            if engine:
                engine.end(targets)


def _report_restarts(engine: Engine) -> None:
    """Reports the workers of this machine that ended before the run did."""
    many = engine.local.restarts if engine.local else 0
    if many:
        parts = "another one did its parts" if many == 1 else "others did their parts"
        say(f"hsp: {some(many, 'worker')} ended early; {parts}", err=True)


def _ended(status: int, line: str) -> NoReturn:
    if sys.stderr.isatty():
        show_progress("")
    ended(status, line)
