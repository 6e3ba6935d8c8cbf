"""The command `hsp doctor`."""

import os
import sys

import click

from hsp.base.grammar import COMMANDS, program_of
from hsp.base.programs import Programs
from hsp.base.text import colored, give, say
from hsp.doctor import Examined, examined, examined_words
from hsp.doctor.cut_short import cut_short
from hsp.doctor.printing import json_of as findings_json
from hsp.doctor.printing import lines as finding_lines
from hsp.doctor.service_folder import with_files
from hsp.plans.terminal import head


class WordsBehind(click.Command):
    """A command that takes the words behind `--` as they are."""

    def parse_args(self, context: click.Context, args: list[str]) -> list[str]:
        if "--" in args:
            at = args.index("--")
            context.meta["words"] = args[at + 1 :]
            if [arg for arg in args[:at] if arg not in ("--json", "--strict")]:
                context.fail("give either DIR, or the words of a command of hsplan behind --")
            args = args[:at]
        first = args[0] if args else ""
        if (first in COMMANDS or program_of(first)) and not os.path.isdir(first):
            context.fail(f"no folder '{first}': words of a command stand behind --, as hsp doctor -- {first} ..")
        return super().parse_args(context, args)

    def collect_usage_pieces(self, context: click.Context) -> list[str]:
        return [*super().collect_usage_pieces(context), "| -- COMMAND.."]


def shown_findings(found: Examined, summary: str) -> None:
    """Prints findings, and what is there where no fault is."""
    say(*finding_lines(found.findings))
    if found.is_cut_short:
        note = cut_short(found.findings)
        say(": ".join(filter(None, [note.message, note.remedy])))
    if not found.errors:
        say(summary)


@click.command(cls=WordsBehind)
@with_files
@click.option("--strict", is_flag=True, help="status 1 for warnings too")
@click.option("--json", "as_json", is_flag=True, help="one object for each finding, for editors")
@click.pass_context
def doctor(context: click.Context, folder: str, strict: bool, as_json: bool, **given: str | None) -> None:
    """Shows each fault of the files: place, cause and remedy.

    Where hsplan has no fault, it shows what is accepted and seldom meant. In place of DIR the words of a command of
    hsplan may stand behind --, as in: hsp doctor -- plan --settings settings.toml --demand demand.csv
    """
    programs = Programs()
    words = context.meta.get("words")
    found = examined(folder, programs, given) if words is None else examined_words(words, programs)
    summary = "no fault in these words and files"
    if found.service:
        summary = f"{colored('no fault', 'green')}  {head(found.service)}"
    if as_json:
        give(findings_json([*found.findings, *([cut_short(found.findings)] if found.is_cut_short else [])]))
    else:
        shown_findings(found, summary)
    sys.exit(found.status or int(strict and bool(found.warnings)))
