"""Inputs that a command can't use: one line, and status 1."""

from typing import Any

import click

from hsp.base.text import say


class Unfit(click.ClickException):
    """A file holds what this command can't use."""

    exit_code = 1

    def show(self, file: Any = None) -> None:
        say(f"hsp: {self.message}", err=True)


def shown(value: Any) -> str:
    """The beginning of a value, in one line of plain characters."""
    try:
        text = ascii(value)
    except RecursionError:
        text = "what is nested too deep"
    return text if len(text) <= 60 else f"{text[:57]}..."
