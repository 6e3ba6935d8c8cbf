"""Files that are changed while a command reads them: nothing is printed or kept that is of none of their texts."""

import os
import shutil
from collections.abc import Callable
from pathlib import Path

import pytest

from hsp.base.held import Held

from conftest import Example, Hsp
from scenarios import demand_of
from test_proxy import NETWORKS

# At which time that a program gets an order a file is changed, by the command that asks for it.
COMMANDS = {
    "plan": ("report", 1),
    "plan --no-save": ("report", 2),
    "plan --near OLD": ("check", 2),
    "view": ("report", 1),
    "whatif": ("plan", 3),
    "where": ("dispatch", 1),
    "grow": ("check", 2),
    "survive": ("check", 3),
    "day": ("check", 3),
    "export haproxy": ("check", 1),
}


@pytest.fixture
def folder(example: Example, tmp_path: Path) -> Path:
    """A service with room for the loss of a site, with three hours, and beside it another one with a plan."""
    own = example("two-sites")
    (own / "plan.html").unlink()
    capacity = (own / "capacity.csv").read_text()
    (own / "capacity.csv").write_text(capacity.replace("0\n", "00\n"))
    rows = [line.split(",") for line in (own / "demand.csv").read_text().splitlines()[1:]]
    for hour in range(3):
        (own / f"h0{hour}").mkdir()
        counts = [(region, handle, int(count) // (hour + 1)) for region, handle, count in rows]
        (own / f"h0{hour}/demand.csv").write_bytes(demand_of(counts))
    (tmp_path / "networks.csv").write_text(NETWORKS)
    return own


@pytest.fixture
def changing(tmp_path: Path, monkeypatch: pytest.MonkeyPatch) -> Callable[[Path, str, int], None]:
    """Has a file replaced by one of the same length when a program is asked for something for so many times."""

    def put(file: Path, order: str, times: int) -> None:
        other = tmp_path / "other"
        other.write_text(file.read_text().replace("91", "19").replace("84", "48").replace("32\n", "23\n"))
        assert other.read_text() != file.read_text()
        for name in ("hsplan", "hsplan-stream"):
            key = name.upper().replace("-", "_")
            path = tmp_path / f"late-{name}"
            lines = [f"[ $1 = {order} ] && echo >> {tmp_path}/asked"]
            lines += [
                f"[ -e {other} ] && [ $(cat {tmp_path}/asked 2> /dev/null | wc -l) -ge {times} ] && mv {other} {file}"
            ]
            path.write_text("\n".join(["#!/bin/sh", *lines, f'exec {os.environ[key]} "$@"', ""]))
            path.chmod(0o755)
            monkeypatch.setenv(key, str(path))

    return put


def words_of(command: str, folder: Path) -> list[str]:
    more = {
        "where": ["us", "20.500.1234/film-5"],
        "export": ["--into", f"{folder}/proxy", "--regions", f"{folder.parent}/networks.csv", "--socket", "/tmp/s"],
    }
    own = command.replace("OLD", f"{folder.parent}/old").split()
    at = 2 if own[0] == "export" else 1
    return [*own[:at], str(folder), *own[at:], *more.get(own[0], [])]


def kept_in(folder: Path) -> set[Path]:
    return {own for own in folder.rglob("*") if own.is_file()}


@pytest.mark.parametrize("command", COMMANDS)
def test_nothing_is_said_by_a_part_of_each_text(
    hsp: Hsp, folder: Path, changing: Callable[[Path, str, int], None], command: str
) -> None:
    old = Path(shutil.copytree(folder, folder.parent / "old"))
    hsp("plan", str(old))
    before = kept_in(folder)
    changing(folder / "costs.csv", *COMMANDS[command])
    ended = hsp(*words_of(command, folder), status=5)
    why = "it was changed while this command read it; run the command again"
    assert (ended.stdout, ended.stderr) == ("", f"hsp: {folder}/costs.csv: {why}\n")
    assert kept_in(folder) == before


def test_an_hour_that_is_counted_anew_meanwhile(
    hsp: Hsp, folder: Path, changing: Callable[[Path, str, int], None]
) -> None:
    changing(folder / "h01/demand.csv", "report", 1)
    ended = hsp("day", str(folder), status=5)
    assert f"{folder}/h01/demand.csv: it was changed while this command read it" in ended.stderr
    assert not (folder / "h00/plan.txt").exists()


def test_what_is_no_file_is_never_another(tmp_path: Path) -> None:
    os.mkfifo(tmp_path / "pipe")
    held = Held()
    held.add([str(tmp_path / "pipe"), str(tmp_path), str(tmp_path / "absent"), "a\0b"])
    assert held.changed() == ""
    (tmp_path / "absent").write_text("new")
    assert held.changed() == str(tmp_path / "absent")
