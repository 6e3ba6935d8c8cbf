"""The commands of hsp, and what ends it."""

import contextlib
import sys
from collections.abc import Iterator
from typing import Any

import click

from hsp import __version__
from hsp.base.ends import BROKEN, OUT_OF_MEMORY, ended, lost, with_streams
from hsp.base.groups import Group
from hsp.base.programs import Missing, Programs, Refused
from hsp.base.signals import Stopped, stopping
from hsp.base.text import escaped, say

# The modules of the commands.
MODULES = {
    "plan": "hsp.commands.plan",
    "view": "hsp.commands.view",
    "whatif": "hsp.commands.whatif",
    "where": "hsp.commands.where",
    "doctor": "hsp.commands.doctor",
    "new": "hsp.intake.bring",
    "sites": "hsp.intake.bring",
    "demand": "hsp.intake.bring",
    "costs": "hsp.measures.costs",
    "capacity": "hsp.measures.capacity",
    "grow": "hsp.scenarios.command",
    "survive": "hsp.scenarios.command",
    "within": "hsp.scenarios.within",
    "forecast": "hsp.scenarios.forecast",
    "day": "hsp.scenarios.day",
    "export": "hsp.proxy.command",
    "steer": "hsp.proxy.steer",
    "fleet": "hsp.fleet.command",
}


@contextlib.contextmanager
def visible_faults() -> Iterator[None]:
    """Escapes what faults of the words say: names of files stand among these, and may have any octets."""
    try:
        yield
    except click.ClickException as fault:
        fault.message = escaped(fault.message)
        raise


class Commands(Group):
    """The commands, and one place for faults."""

    def make_context(self, *words: Any, **more: Any) -> click.Context:
        with visible_faults():
            return super().make_context(*words, **more)

    def invoke(self, context: click.Context) -> Any:
        try:
            with visible_faults():
                return super().invoke(context)
        except Missing as fault:
            ended(BROKEN, *fault.lines)
        except Refused as fault:
            ended(fault.status, f"hsplan refuses these files: {fault.line}")
        except OSError as fault:
            lost(fault)

    def main(self, *words: Any, **more: Any) -> Any:
        with_streams()
        try:
            with stopping():
                return super().main(*words, **more)
        except Stopped as fault:
            ended(fault.status, "interrupted")
        except MemoryError:
            ended(OUT_OF_MEMORY, "out of memory")
        except OSError as fault:  # of the words that --help and --version print
            lost(fault)


@click.group(
    cls=Commands,
    elsewhere=MODULES,
    invoke_without_command=True,
    context_settings={"help_option_names": ["-h", "--help"], "max_content_width": 100},
)
@click.version_option(__version__, "-V", "--version", prog_name="hsp", message="%(prog)s %(version)s")
@click.pass_context
def main(context: click.Context) -> None:
    """Shows the load plan of a Handle System service.

    DIR has settings.toml, demand.csv, costs.csv and capacity.csv, and may have hsp.toml with a title and units.
    Every rule is hsplan's. Nothing is sent anywhere, but by fleet to its workers and by steer to HAProxy. At a
    terminal, hsp by itself says what to do next.
    """
    if context.invoked_subcommand is None:
        if sys.stdout.isatty():
            from hsp.doctor.next_step import next_lines

            say(*next_lines(".", Programs()))
            say("help  hsp --help")
        else:
            click.echo(context.get_help())
