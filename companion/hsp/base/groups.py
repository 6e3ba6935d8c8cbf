"""Groups of commands that know what a misspelt word likely means, and import a command when it is wanted."""

import difflib
import importlib
from collections.abc import Mapping
from typing import Any

import click

from hsp.base.grammar import program_of


class Group(click.Group):
    """Commands, and what is likely meant by a word that is none of them.

    Those of `elsewhere` are named there with their modules, which are imported when a command is wanted.
    """

    def __init__(self, *words: Any, elsewhere: Mapping[str, str] | None = None, **more: Any) -> None:
        super().__init__(*words, **more)
        self._elsewhere = elsewhere or {}

    def names(self) -> list[str]:
        return sorted({*self.commands, *self._elsewhere})

    def all_commands(self) -> dict[str, click.Command]:
        """All commands by their names, in the order of these."""
        return {name: self._known(name) for name in self.names()}

    def _known(self, name: str) -> click.Command:
        """A command of this group, imported where it wasn't wanted before."""
        if name not in self.commands:
            self.add_command(getattr(importlib.import_module(self._elsewhere[name]), name))
        return self.commands[name]

    def list_commands(self, context: click.Context) -> list[str]:
        return self.names()

    def get_command(self, context: click.Context, name: str) -> click.Command | None:
        return self._known(name) if name in self.names() else None

    def meant_by(self, word: str) -> str:
        """What a word that is no command likely means: a near name, or a command of another program."""
        near = difflib.get_close_matches(word, self.names(), 1, 0.8 if program_of(word) else 0.5)
        found = [f"'{name}'" for name in near]
        if program_of(word):
            found.append(f"'{program_of(word)} {word}'")
        if word in ("help", "version"):
            found.append(f"'hsp --{word}'")
        return f"; did you mean {' or '.join(found)}?" if found else ""

    def resolve_command(
        self, context: click.Context, words: list[str]
    ) -> tuple[str | None, click.Command | None, list[str]]:
        if words and words[0] not in self.names() and not words[0].startswith("-"):
            context.fail(f"no command '{words[0]}'{self.meant_by(words[0])}")
        return super().resolve_command(context, words)
