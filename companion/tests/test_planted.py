"""What planted changes of the companion showed to be tried by no test: each case here refuses one of them."""

from collections.abc import Iterator
from pathlib import Path

import click
import pytest

from hsp.base.groups import Group
from hsp.cli import main
from hsp.fleet import session

from conftest import run_here
from printed import assert_kept


def commands(group: click.Group, words: tuple[str, ...] = ()) -> Iterator[tuple[str, ...]]:
    yield words
    assert isinstance(group, Group)
    for name, command in group.all_commands().items():
        if isinstance(command, click.Group):
            yield from commands(command, (*words, name))
        else:
            yield (*words, name)


@pytest.mark.parametrize("words", list(commands(main)), ids=" ".join)
def test_each_command_prints_its_help(words: tuple[str, ...]) -> None:
    done = run_here([*words, "--help"], COLUMNS="100")
    assert done.exit_code == 0
    assert_kept("help", " ".join(["hsp", *words, "--help"]), done.stdout + done.stderr)


@pytest.mark.parametrize("words", [words for words in commands(main) if words], ids=" ".join)
def test_each_command_says_what_it_lacks(
    words: tuple[str, ...], tmp_path: Path, monkeypatch: pytest.MonkeyPatch
) -> None:
    monkeypatch.chdir(tmp_path)
    done = run_here(words, COLUMNS="100")
    assert_kept("help", " ".join(["hsp", *words]), f"{done.exit_code}\n{done.stdout}{done.stderr}")


def test_a_worker_that_ends_plainly_is_a_fault_of_its_input(capsys: pytest.CaptureFixture[str]) -> None:
    for status, line in ((1, "log: Header"), (5, "read failed")):
        with pytest.raises(SystemExit) as ended:
            session._ended(status, line)
        assert ended.value.code == status and capsys.readouterr().err == f"hsp: {line}\n"
