"""Options that are paths, and options that do nothing beside others or without them.

A command refuses an empty path, and what does nothing, in one line, with status 2.
"""

import functools
import re
from collections.abc import Callable
from fractions import Fraction
from typing import Any, TypeVar, cast

import click
from click.core import ParameterSource

Run = TypeVar("Run", bound=Callable[..., Any])
# Why an option does nothing where a table or JSON is printed.
LINES = "it is of the lines, and none are printed"


class PathName(click.Path):
    """A path of a file or a folder. An empty one is refused: it isn't an option that isn't given."""

    def convert(self, value: Any, param: click.Parameter | None, context: click.Context | None) -> Any:
        if not value:
            self.fail("'' is no path", param, context)
        return super().convert(value, param, context)


class Percent(click.ParamType):
    """A part in percent, as an exact number, within bounds that some words say."""

    name = "percent"

    def __init__(self, is_within: Callable[[Fraction], bool], words: str) -> None:
        self._is_within, self._words = is_within, words

    def convert(self, value: Any, param: click.Parameter | None, context: click.Context | None) -> Fraction:
        if isinstance(value, Fraction):
            return value
        part = Fraction(value) / 100 if re.fullmatch(r"[0-9]{1,3}(\.[0-9]{1,9})?", str(value)) else None
        if part is None or not self._is_within(part):
            self.fail(f"'{value}' is no part {self._words}", param, context)
        return part


PERCENTILE = Percent(lambda part: 0 < part <= 1, "above 0 and up to 100, such as 50 or 99.9")
# A file that the command opens itself, and says why where it can't.
ANY_FILE = PathName(readable=False)


def given() -> set[str]:
    """The options of the running command that stand among its words, by all of their spellings."""
    context = click.get_current_context()
    there = (it for it in context.command.params if it.name and is_word(context, it.name))
    return {spelling for it in there for spelling in it.opts}


def is_word(context: click.Context, name: str) -> bool:
    return context.get_parameter_source(name) is ParameterSource.COMMANDLINE


def _before(refused: Callable[[set[str]], str]) -> Callable[[Run], Run]:
    """Looks at the words before a command runs."""

    def over(run: Run) -> Run:
        @functools.wraps(run)
        def first(*words: Any, **more: Any) -> Any:
            line = refused(given())
            if line:
                raise click.UsageError(line)
            return run(*words, **more)

        return cast(Run, first)

    return over


def idle(option: str, *beside: str, why: str) -> Callable[[Run], Run]:
    """Refuses an option that does nothing where all of the others are given."""
    line = f"{option} does nothing with {' and '.join(beside)}: {why}"
    return _before(lambda there: line if there.issuperset((option, *beside)) else "")


def needs(option: str, other: str) -> Callable[[Run], Run]:
    """Refuses an option that does nothing without another one."""
    return _before(lambda there: f"{option} needs {other}" if option in there and other not in there else "")


def apart(option: str, other: str, why: str) -> Callable[[Run], Run]:
    """Refuses two options of which only one can be followed."""
    line = f"{option} and {other} don't go together: {why}"
    return _before(lambda there: line if there.issuperset((option, other)) else "")
