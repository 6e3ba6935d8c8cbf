"""Text as people see it. No sign of a file steers a terminal, ends a line, or turns the direction of what follows."""

import json
import os
import re
import secrets
import sys
import unicodedata
from typing import Any

import click

# Kinds of signs that nobody sees: controls, formats such as marks of direction, halves of a letter, ends of lines.
UNSEEN = ("Cc", "Cf", "Cs", "Zl", "Zp")
# What marks colours of hsp's own until a line is printed. No file can hold it, since it is drawn anew each time.
OWN = secrets.token_hex(16)
COLOUR = re.compile(f"\x1b{OWN}(\\[[0-9;]*m)")


def escaped(text: str) -> str:
    """The text with an escape in place of each sign that isn't seen, as `\\x1b`."""
    if text.isprintable():
        return text
    signs = (sign.encode("unicode_escape").decode() if unicodedata.category(sign) in UNSEEN else sign for sign in text)
    return "".join(signs)


def visible(text: str) -> str:
    """A text in which each sign has one place, so that carets stand below it: one that is not seen becomes a mark."""
    return "".join(
        sign if sign.isprintable() else "\u2423" if sign in "\u00a0\t\u200b\ufeff\r" else "\ufffd" for sign in text
    )


def is_utf8(text: str) -> bool:
    """Whether a word or a name of a file is text."""
    return not any("\ud800" <= sign <= "\udfff" for sign in text)


def is_plain() -> bool:
    """Whether no colours are shown. A pipe gets the same words as a terminal without them."""
    return bool(os.environ.get("NO_COLOR")) or not (sys.stdout and sys.stdout.isatty())


def _styled(text: str, **style: Any) -> str:
    """A text between marked signs of its style."""
    if is_plain():
        return text
    before, _, after = click.style("|", **style).replace("\x1b", f"\x1b{OWN}").partition("|")
    return f"{before}{text}{after}"


def bold(text: str) -> str:
    return _styled(text, bold=True)


def dim(text: str) -> str:
    return _styled(text, dim=True)


def colored(text: str, colour: str) -> str:
    return _styled(text, fg=colour, bold=True)


def say(*lines: str, err: bool = False) -> None:
    """Prints lines for people. Only colours of hsp's own stay, and none that stand in a file."""
    for parts in map(COLOUR.split, lines):
        click.echo("".join(f"\x1b{part}" if at % 2 else escaped(part) for at, part in enumerate(parts)), err=err)


def give(text: str | bytes) -> None:
    """Prints a text for programs as it is, or by its lines for a person at a terminal."""
    if not sys.stdout.isatty():
        click.echo(text, nl=False)
        return
    lines = text if isinstance(text, str) else text.decode("utf-8", "replace")
    for line in lines.removesuffix("\n").split("\n"):
        click.echo(escaped(line))


def json_text(said: object) -> str:
    """JSON for other programs, as people read it too."""
    return json.dumps(said, indent=2, ensure_ascii=False) + "\n"


def show_progress(line: str) -> None:
    """Shows a line on a terminal in place of the last one; an empty one takes it away."""
    click.echo(f"\r{escaped(line)}\033[K", err=True, nl=False)
