"""hsp doctor on files with more faults than it explains at once: how many there may be."""

import json
import re
from pathlib import Path

import pytest

from hsp.doctor import faults, guard, word_doubts
from hsp.doctor.cut_short import cut_short, likely
from hsp.doctor.findings import NOTE, WARNING, Finding

from conftest import Example
from test_sites import invoke

FILES = ("settings.toml", "demand.csv", "costs.csv", "capacity.csv")
HEADER = "region,site,cost\n"
AGAIN = "mend these, and ask again"


def at(file: Path, line: int, said: str = "demand: BadNumber row 0", severity: str = "error") -> Finding:
    return Finding(f"fault {line}", "mend it", file=str(file), line=line, said=said, severity=severity)


def rows(bad: int, good: int, times: int) -> str:
    """Costs of sites that the settings lack, with empty lines before those of each turn."""
    turn = "\n" * good + "eu,{},5\n" * bad
    names = iter(range(bad * times))
    return HEADER + "".join(turn.format(*(f"none{next(names)}" for _ in range(bad))) for _ in range(times))


@pytest.fixture
def few(monkeypatch: pytest.MonkeyPatch) -> None:
    """Turns end before the time does, on any machine."""
    monkeypatch.setattr(faults, "TURNS", 12)
    monkeypatch.setattr(guard, "SECONDS", 100.0)


@pytest.mark.parametrize("bad, good, said", [(1, 0, "2,000"), (1, 4, "400"), (3, 2, "1,200")])
def test_the_findings_of_all_rows_are_estimated_by_those_that_were_read(
    folder: Path, few: None, bad: int, good: int, said: str
) -> None:
    (folder / "costs.csv").write_text(rows(bad, good, 2000 // (bad + good)))
    shown = invoke("doctor", folder, status=1).stdout
    assert shown.splitlines()[-1] == f"the first 12 of some {said} findings: {AGAIN}"
    objects = json.loads(invoke("doctor", folder, "--json", status=1).stdout)
    assert len(objects) == 13 and {it["severity"] for it in objects[:-1]} == {"error"}
    note = f"the first 12 of some {said} findings"
    empty = {"file": "", "line": 0, "column": 0, "end": 0, "why": "", "hsplan": "", "accept": ""}
    assert objects[-1] == {"severity": NOTE, "message": note, "remedy": AGAIN, **empty}


def words_of(command: str, folder: Path, *names: str) -> list[str | Path]:
    return ["--", command, *(it for name in names for it in (f"--{name.partition('.')[0]}", folder / name))]


def test_faults_of_words_are_estimated_too(folder: Path, few: None) -> None:
    (folder / "costs.csv").write_text(rows(1, 1, 500))
    said = invoke("doctor", *words_of("plan", folder, *FILES), status=1).stdout
    assert f"the first 12 of some 500 findings: {AGAIN}\n" in said


@pytest.mark.parametrize(
    "most, octets, of",
    [(40, 40, "2 rows"), (40, 39, "2 rows"), (40, 53, "2 rows"), (39, 53, "1 row"), (39, 39, "2 rows")],
)
def test_a_log_is_looked_at_as_far_as_a_bound(
    example: Example, monkeypatch: pytest.MonkeyPatch, most: int, octets: int, of: str
) -> None:
    """Whole rows within the bound count. The last row of a short log needs no line end."""
    monkeypatch.setattr(word_doubts, "LOOKED_AT", most)
    folder = example("two-sites")
    invoke("plan", folder)
    (folder / "log.csv").write_text(("region,handle\n" + "mars,20.1/aa\n" * 3)[:octets])
    said = invoke("doctor", *words_of("dispatch", folder, *FILES, "plan.txt", "log.csv")).stdout
    found = re.findall(r"^warning: the demand has no region 'mars'\n(?: .*\n|\d.*\n)*?  why  (.*)", said, re.M)
    assert found == [f"{of[0]} of the first {of} can only be answered 'unknown'"]


def test_only_lines_behind_the_last_finding_are_estimated(tmp_path: Path) -> None:
    path = tmp_path / "costs.csv"
    path.write_text("region,site,cost\n" + "eu,paris,1\n" * 100)
    other, build = tmp_path / "settings.toml", "build: UnknownSite table costs row 3"
    # Eleven rows of a hundred were read with the others, and have two findings. All were read by themselves.
    read = [at(other, 4), at(path, 3, "costs: Fields row 1"), at(path, 101, "costs: Fields row 99")]
    assert likely([*read, at(path, 3, build), at(path, 12, build)]) == 21
    assert likely([at(path, 101)]) == 1 and likely([at(path, 51)]) == 2
    path.write_text("eu,paris,1\n" * 99 + "eu,paris,1")
    assert likely([at(path, 1), at(path, 10)]) == 20


def test_what_cannot_be_estimated_is_not(tmp_path: Path) -> None:
    path = tmp_path / "costs.csv"
    path.write_text("x\n" * 1000)
    for last in (at(tmp_path / "none", 3), at(path, 0), at(path, 3, severity=WARNING), at(path, 1001), at(tmp_path, 3)):
        assert cut_short([at(path, 2), last]).message == "the first 2 findings; there may be more"
    assert cut_short([at(path, 3)]).message == "the first 1 of some 500 findings"
    assert cut_short([at(path, 1000)]) == Finding("the first 1 finding; there may be more", AGAIN, severity=NOTE)


def test_warnings_without_an_end_are_said_in_json_too(example: Example, monkeypatch: pytest.MonkeyPatch) -> None:
    monkeypatch.setattr(guard, "SECONDS", 0.0)
    (only,) = json.loads(invoke("doctor", example("two-sites"), "--json", "--strict").stdout)
    assert (only["severity"], only["message"]) == (NOTE, "the files are too large to be looked at for warnings")


def test_large_files_are_asked_about_a_few_times(folder: Path, few: None, monkeypatch: pytest.MonkeyPatch) -> None:
    """As often as there is room for copies, but three times at least."""
    (folder / "costs.csv").write_text(rows(1, 0, 100))
    octets = sum((folder / it).stat().st_size for it in (*FILES, "sites.values"))
    for room, turns in ((1, 3), (4 * octets, 4), (5 * octets - 1, 4), (10**9, 12)):
        monkeypatch.setattr(faults, "OCTETS", room)
        assert f"\nthe first {turns} of some 100 findings: " in invoke("doctor", folder, status=1).stdout
