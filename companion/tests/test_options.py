"""Defaults and bounds of options, the sites of a new service, and the ends of a run that another try doesn't change."""

import os
import re
import shlex
import subprocess
from collections.abc import Iterator
from pathlib import Path

import click
import pytest

from hsp.base.groups import Group
from hsp.base.options import PathName
from hsp.cli import main
from hsp.fleet import answers

from conftest import TOP, Example, Hsp
from test_sites import invoke

# What the manual page says of each option that has a default or bounds: its default, its least and its greatest value.
LOG = {
    "--format": ("auto", None, None),
    "--client": ("client", None, None),
    "--handle": ("handle", None, None),
    "--time": ("time", None, None),
    "--by": ("continent.code", None, None),
}
RESERVE = {"--reserve": ("0", None, None)}
FLEET = {"--workers": (None, 1, 256), "--patience": (60, 1, None)}
OPTIONS = {
    "whatif": {
        "--from": (None, 0, None),
        "--to": (None, 0, None),
        "--points": (9, 2, 100),
        "--step": (10.0, 0.1, 1000),
    },
    "sites": {"--capacity": (0, 0, 1_000_000_000)},
    "export haproxy": {"--watch": ("127.0.0.1:8405", None, None), **RESERVE},
    "steer": {"--every": (10.0, 0.1, 86_400), "--period": (3600.0, 1, 31_622_400), **RESERVE},
    "plan": {**RESERVE, "--within": (None, 0, 1_000_000)},
    "costs": {"--by": ("continent.code", None, None), "--percentile": ("50", None, None)},
    "capacity": {"--seconds": (None, 1, 31_622_400), "--below": (None, 0, None), "--share": ("99", None, None)},
    "view": RESERVE,
    "grow": {"--percent": ((10, 20, 50), 1, 100_000)},
    "survive": RESERVE,
    "day": RESERVE,
    "demand": {**LOG, "--by": (["continent.code"], None, None), "--jobs": (None, 1, 64)},
    "forecast": {**LOG, "--by": (["continent.code"], None, None), "--jobs": (None, 1, 64)},
    "fleet demand": {**LOG, **FLEET},
    "fleet dispatch": {"--fronts": (None, 1, 64), **FLEET},
}


def commands(group: click.Group, before: str = "") -> Iterator[tuple[str, click.Command]]:
    assert isinstance(group, Group)
    for name, it in group.all_commands().items():
        if isinstance(it, click.Group):
            yield from commands(it, f"{before}{name} ")
        else:
            yield f"{before}{name}", it


def stated(command: click.Command) -> dict[str, tuple[object, object, object]]:
    """The options that have a default or bounds."""
    found: dict[str, tuple[object, object, object]] = {}
    for it in command.params:
        if isinstance(it, click.Option):
            default = None if it.default is False or it.default == () else it.default
            bounds = (getattr(it.type, "min", None), getattr(it.type, "max", None))
            if default is not None or bounds != (None, None):
                found[it.opts[0]] = (default, *bounds)
    return found


def test_options_have_their_defaults_and_bounds() -> None:
    assert {name: it for name, command in commands(main) if (it := stated(command))} == OPTIONS


# Words that can't all be followed, and the line that names them.
GROUPS = "(?P<client>\\S+) (?P<handle>\\S+)"
COUNTING = {"demand": ["access.log", "--regions", "networks.csv"], "fleet demand": ["a", "--regions", "networks.csv"]}
LINES = "it is of the lines, and none are printed"
FIELDS = ("--client", "--handle", "--path", "--time")
PLANNED = ("--once", "--every 2", "--period 60", "--metrics F", "--reserve 2")
GIVEN = ("--settings", "--demand", "--costs", "--capacity", "--values")
REFUSED = [
    ("plan", "--csv --json", "--csv and --json don't go together: each takes the place of the lines"),
    ("plan", "--no-save -o F", "-o and --no-save don't go together: no certificate is kept"),
    ("plan", "--no-save --output F", "-o and --no-save don't go together: no certificate is kept"),
    ("plan", "--csv --more", "--more does nothing with --csv: the table has shares only"),
    ("plan", "--csv --all", f"--all does nothing with --csv: {LINES}"),
    ("plan", "--json --all", "--all does nothing with --json: JSON has all of them"),
    ("whatif", "--points 9", "--points needs --server"),
    ("whatif", "--from 1", "--from needs --server"),
    ("whatif", "--to 1", "--to needs --server"),
    ("whatif", "--server a:1 --step 10", "--step does nothing with --server: it is of more room at each full server"),
    ("survive", "--no-save --into F", "--into and --no-save don't go together: no fallback plan is kept"),
    ("survive", "--csv --buy", "--buy does nothing with --csv: the table has losses only"),
    ("survive", "--csv --all", "--all does nothing with --csv: the table has all losses"),
    ("day", "--no-save -o F", "-o and --no-save don't go together: no page is kept"),
    ("day", "--csv --all", f"--all does nothing with --csv: {LINES}"),
    ("steer", "--into F --once --every 2", "--every does nothing with --once: there is one plan"),
    *(
        ("steer", f"--into F --status {words}", f"{words.split()[0]} does nothing with --status: nothing is planned")
        for words in (*PLANNED, *(f"{word} F" for word in GIVEN))
    ),
    *((name, "--handle a --path b", "--handle and --path don't go together") for name in COUNTING),
    *(
        (name, f"--format {form} {word} x", f"{word} does nothing with --format {form}")
        for name in COUNTING
        for form in ("server", "proxy")
        for word in FIELDS
    ),
    *(
        (name, f"--regex '{GROUPS}' {word} x", f"{word} does nothing with --regex")
        for name in COUNTING
        for word in FIELDS
    ),
    *((name, f"--regex '{GROUPS}' --format json", "--format does nothing with --regex") for name in COUNTING),
    *((name, "--time at", "--time does nothing: neither --from nor --to nor hours are asked for") for name in COUNTING),
]


@pytest.mark.parametrize("command, words, line", REFUSED)
def test_an_option_that_does_nothing_is_refused(
    hsp: Hsp, example: Example, monkeypatch: pytest.MonkeyPatch, command: str, words: str, line: str
) -> None:
    folder = example("bring-in")
    monkeypatch.chdir(folder)
    ended = hsp(*command.split(), *COUNTING.get(command, []), *shlex.split(words), status=2)
    assert ended.stderr.splitlines()[-1].startswith(f"Error: {line}") and not ended.stdout
    assert sorted(os.listdir(folder)) == sorted(os.listdir(TOP / "examples/bring-in")), "nothing is written"


PATHS = [(name, it) for name, command in commands(main) for it in command.params if isinstance(it.type, click.Path)]
# What else a command needs before it looks at its options.
NEEDED = {
    "demand": {"--regions": "r", "logs": "a"},
    "fleet demand": {"--regions": "r", "logs": "a"},
    "fleet dispatch": {"--fronts": "1", "folder": ".", "logs": "a"},
    "forecast": {"--regions": "r", "folder": ".", "logs": "a"},
    "export haproxy": {"--into": "p"},
    "steer": {"--into": "p"},
    "where": {"folder": ".", "region": "a", "handle": "b"},
    "sites": {"paths": "a"},
    "new": {"folder": "a"},
}


def test_each_option_of_a_file_is_a_path() -> None:
    """A file or a folder stands behind its sign, and is no longer any word."""
    signs = {"FILE", "FOLDER", "DIR", "OLD", "PROXY", "[DIR]", "LOG..", "FILE..", "[FRONT[@HOST]=]LOG.."}
    for name, command in commands(main):
        for it in command.params:
            if it.metavar in signs:
                assert isinstance(it.type, PathName), f"{name} {it.name}"
    assert all(isinstance(it.type, PathName) for _, it in PATHS) and len(PATHS) > 80


@pytest.mark.parametrize("name, option", PATHS, ids=[f"{name} {it.opts[0]}" for name, it in PATHS])
def test_an_empty_path_is_refused(hsp: Hsp, name: str, option: click.Parameter) -> None:
    """It isn't taken for an option that isn't given, and no file is written or read."""
    words: list[str] = []
    for key, value in {**NEEDED.get(name, {}), option.opts[0]: ""}.items():
        words += [key, value] if key.startswith("-") else [value]
    said = hsp(*name.split(), *words, status=2).stderr.splitlines()[-1]
    assert said.startswith("Error: Invalid value for ") and said.endswith(": '' is no path"), said
    assert option.opts[0] in said or (option.metavar or "") in said


def test_a_new_service_has_sites_that_answer_both_ways(tmp_path: Path) -> None:
    """Servers 1, 2 and so on, each for administration and resolution (3), over UDP (0) and TCP (1), at the port 2641
    (RFC 3651, section 3.2.2)."""
    invoke("new", tmp_path / "s", "--example")
    records = re.findall(r'record = "([0-9a-f]+)"', (tmp_path / "s" / "settings.toml").read_text())
    assert records
    for at, record in enumerate(records):
        path = tmp_path / f"{at}.record"
        path.write_bytes(bytes.fromhex(record))
        printed = subprocess.run([os.environ["HSPLAN"], "site", str(path)], capture_output=True, text=True, check=True)
        servers = re.findall(r"^server [0-9]+ ([0-9]+) [0-9a-f]{32} 0 2$", printed.stdout, re.M)
        assert servers == [str(it) for it in range(1, len(servers) + 1)]
        both = "00000002" + "0300" + "00000a51" + "0301" + "00000a51"
        assert record.count(both) == len(servers) and record.endswith(both)


@pytest.mark.parametrize("status, again", [(1, False), (2, False), (3, False), (4, True), (5, True), (-9, True)])
def test_only_ends_that_may_change_are_tried_again(tmp_path: Path, status: int, again: bool) -> None:
    """Refused inputs (1), wrong words (2) and no plan (3) end the same way each time; memory (4), files (5) and signals
    may end otherwise."""
    log = tmp_path / "log.csv"
    log.write_text("region,handle\neu,20.500.1/a\n")
    request = {"logs": [str(log)]}
    if again:
        with pytest.raises(answers.Again):
            answers._refused(request, status, "hsplan: log: ReadFailed", [1])
    else:
        assert answers._refused(request, status, "hsplan: settings: BadToml", [1])["status"] == status
