"""Words as they are given to a command of hsplan or hsplan-stream."""

from dataclasses import dataclass
from typing import NamedTuple

from hsp.base.grammar import COMMANDS, Command, program_of, value_of


class Word(NamedTuple):
    """A word, and its column in the line of all words, from 0."""

    text: str
    column: int


@dataclass
class Line:
    """The words of a command, as they stand in one line."""

    program: str
    words: list[Word]
    text: str

    @property
    def command(self) -> str:
        return self.words[0].text if self.words else ""

    @property
    def takes(self) -> Command:
        """What the command takes, where the program has it."""
        return COMMANDS[self.program][self.command]


def shown(line: Line) -> str:
    """The form of the line's command, as a manual page shows it."""
    takes = line.takes
    words = [f"--{name} {value_of(line.program, name)}" for name in takes.needed]
    return " ".join([line.program, line.command, *words, *([takes.last.upper()] if takes.last else [])])


def line_of(words: list[str]) -> Line:
    """The words in a line. The name of the program may stand in front; otherwise the command says which it is."""
    own = list(words)
    program = ""
    if own and own[0].rpartition("/")[2] in ("hsplan", "hsplan-stream"):
        program = own.pop(0).rpartition("/")[2]
    program = program or program_of(own[0] if own else "") or "hsplan"
    text, placed = program, []
    for word in own:
        placed.append(Word(word, len(text) + 1))
        text += " " + word
    return Line(program, placed, text)


class Option(NamedTuple):
    """An option of a line: its name, its value if it has one, and the words that it stands in."""

    name: str
    value: str | None
    word: Word
    value_word: Word | None


def split(line: Line) -> tuple[list[Option], list[Word]]:
    """The options of a line, and its other words, both without the command."""
    options: list[Option] = []
    others: list[Word] = []
    words = line.words[1:]
    at = 0
    while at < len(words):
        word = words[at]
        at += 1
        if word.text == "--":
            return options, others + words[at:]
        if not word.text.startswith("-") or word.text == "-":
            others.append(word)
            continue
        name, equals, value = word.text.lstrip("-").partition("=")
        if equals:
            options.append(Option(name, value, word, word))
        elif at + 1 < len(words) and words[at].text == "=":
            options.append(Option(name, words[at + 1].text, word, words[at]))
            at += 2
        elif at < len(words) and not words[at].text.startswith("--"):
            options.append(Option(name, words[at].text, word, words[at]))
            at += 1
        else:
            options.append(Option(name, None, word, None))
    return options, others
