"""Transcripts: lines that begin with `$ ` are commands for bash. What they print stands below them, up to the next
command.

A command goes on in the lines below that begin with `> `. A line `...` stands for any number of printed lines.
Standard output and standard error stand together, as at a terminal. The commands of a transcript are run in turn in
one shell, so that what one sets or writes is there for the next. With `cd examples/two-sites` as the first command, a
transcript goes from the top of the repository to an example.
"""
import functools
import os
import re
import shutil
import subprocess
import tempfile
from collections.abc import Callable, Iterable

from lib import companion, programs

TOP = programs.TOP
PROGRAM = programs.tested("hsplan")
MARK = "\x1e"
# What a step printed, by its lines; None where it was not reached.
Printed = list[str] | None
# Puts more into the folder that a transcript runs in.
Prepare = Callable[[str], None]


class Step:
    def __init__(self, line: str) -> None:
        self.lines = [line]
        self.wanted: list[str] = []

    def command(self) -> str:
        return "\n".join(it[2:] for it in self.lines)


def steps_of(lines: Iterable[str]) -> list[Step]:
    """The steps of a transcript. Lines before the first command do not belong to it."""
    steps: list[Step] = []
    for line in lines:
        if line.startswith("$ "):
            steps.append(Step(line))
        elif steps and line.startswith("> ") and not steps[-1].wanted:
            steps[-1].lines.append(line)
        elif steps:
            steps[-1].wanted.append(line)
    return steps


def text_of(steps: Iterable[Step]) -> str:
    return "".join("\n".join(it.lines + it.wanted) + "\n" for it in steps)


def stream_beside(program: str) -> str:
    """The `hsplan-stream` that belongs to a program: the one in its folder, or otherwise the one that checks try."""
    beside = os.path.join(os.path.dirname(program), "hsplan-stream")
    return beside if os.path.exists(beside) else programs.tested("hsplan-stream")


@functools.cache
def _made() -> frozenset[str]:
    """The files of the examples that aren't kept: what commands of a document wrote when somebody followed it."""
    if not shutil.which("git"):
        return frozenset()
    words = ["git", "ls-files", "-z", "--others", "--ignored", "--exclude-standard", "--", "examples"]
    done = subprocess.run(words, cwd=TOP, stdout=subprocess.PIPE, stderr=subprocess.DEVNULL, text=True)
    return frozenset(os.path.join(TOP, it) for it in done.stdout.split("\0") if it)


def _ignored(folder: str, names: list[str]) -> list[str]:
    return [it for it in names if it == "out" or os.path.join(folder, it) in _made()]


def room_for(folder: str, program: str) -> dict[str, str]:
    """Makes in an empty folder what a transcript may read and run: the examples without what somebody made in them,
    the program as `hsplan`, `hsplan-stream`, and `hsp`. Returns its environment."""
    shutil.copytree(os.path.join(TOP, "examples"), os.path.join(folder, "examples"), ignore=_ignored)
    os.mkdir(os.path.join(folder, "bin"))
    os.symlink(program, os.path.join(folder, "bin", "hsplan"))
    os.symlink(stream_beside(program), os.path.join(folder, "bin", "hsplan-stream"))
    with open(os.path.join(folder, "bin", "hsp"), "wb") as file:
        file.write(companion.archive())
    os.chmod(file.name, 0o755)
    return dict(os.environ, PATH=os.path.join(folder, "bin") + os.pathsep + os.environ["PATH"], LC_ALL="C")


def printed_by(steps: list[Step], program: str, prepare: Prepare | None = None, shell: str = "bash") -> list[Printed]:
    """What each step prints, as lines. None stands for a step that was not reached."""
    script = "exec 2>&1\n" + "".join(f"{it.command()}\nprintf '{MARK}'\n" for it in steps)
    with tempfile.TemporaryDirectory() as folder:
        environment = room_for(folder, program)
        if prepare:
            prepare(folder)
        ended = subprocess.run(
            [shell], input=script, cwd=folder, env=environment, stdout=subprocess.PIPE, text=True, timeout=600
        )
    texts = ended.stdout.split(MARK)[:-1]
    return [it.splitlines() for it in texts] + [None] * (len(steps) - len(texts))


def fits(wanted: list[str], got: Printed) -> bool:
    """Whether the printed lines are the wanted ones. A wanted line `...` stands for any number of lines."""
    if got is None:
        return False
    pattern = "".join("(?:.*\n)*" if it == "..." else re.escape(it) + "\n" for it in wanted)
    return re.fullmatch(pattern, "".join(it + "\n" for it in got)) is not None


def faults_of(
    name: str, steps: list[Step], program: str, prepare: Prepare | None = None, shell: str = "bash"
) -> list[str]:
    """The steps that print something other than they have to, each as a text."""
    found = []
    for step, got in zip(steps, printed_by(steps, program, prepare, shell)):
        if not fits(step.wanted, got):
            shown = ["not run"] if got is None else got[:40]
            found.append(
                "\n  ".join([f"{name}: $ {step.command()}", "wanted:"] + step.wanted[:40] + ["printed:"] + shown)
            )
    return found
