"""Faulty rows of tables and logs, as hsplan-stream lists them: all of them, in a few runs, each with its place."""

import os
import re
import subprocess
from pathlib import Path

import pytest

from hsp.base.programs import Programs
from hsp.doctor import examined, faults, table_faults
from hsp.doctor.question import Diagnosis, Question, draft_of

from conftest import Example, Hsp

HEAD = b"region,handle,count\n"


def of_demand(path: Path, octets: bytes) -> Question:
    path.write_bytes(octets)
    programs = Programs()
    return Question(programs, "plan", {"demand": draft_of(programs, str(path))})


def test_all_bad_counts_are_found_in_a_few_runs(
    example: Example, tmp_path: Path, monkeypatch: pytest.MonkeyPatch
) -> None:
    for name in ("HSPLAN", "HSPLAN_STREAM"):
        script = tmp_path / name
        script.write_text(f'#!/bin/sh\necho run >> {tmp_path}/runs\nexec {os.environ[name]} "$@"\n')
        script.chmod(0o755)
        monkeypatch.setenv(name, str(script))
    folder = example("two-sites")
    counts = ["many" if at % 20 == 7 else "5" for at in range(3000)]
    rows = "".join(f"eu,20.500.1/{at},{count}\n" for at, count in enumerate(counts))
    (folder / "demand.csv").write_text(HEAD.decode() + rows)
    found = examined(str(folder), Programs(), {})
    lines = [at + 2 for at, count in enumerate(counts) if count == "many"]
    assert [finding.line for finding in found.errors] == lines and len(lines) == 150
    assert [finding.said for finding in found.errors][-1] == "demand: BadNumber row 2987"
    assert not found.is_cut_short
    assert len((tmp_path / "runs").read_text().splitlines()) <= 8


def test_rows_of_one_unknown_site_are_found_at_once(example: Example, monkeypatch: pytest.MonkeyPatch) -> None:
    """In three turns: so many rows of a misspelt site, and of one that nobody knows."""
    monkeypatch.setattr(faults, "TURNS", 3)
    folder = example("two-sites")
    rows = [f"r{at},{site},5\n" for at in range(40) for site in ("pariss", "atlantis")]
    with (folder / "costs.csv").open("a") as file:
        file.writelines(rows)
    found = examined(str(folder), Programs(), {})
    lines = sorted(finding.line for finding in found.errors)
    assert lines == list(range(lines[0], lines[0] + 80)) and not found.is_cut_short
    for finding in found.errors:
        assert finding.said == f"build: UnknownSite table costs row {finding.line - 2}"


def test_rows_that_are_left_out_lack_nothing(example: Example, monkeypatch: pytest.MonkeyPatch) -> None:
    """A turn for each site suffices, however many of its servers lose their row."""
    monkeypatch.setattr(faults, "TURNS", 4)
    folder = example("two-sites")
    head, *rows = (folder / "capacity.csv").read_text().splitlines()
    cut = [row.rpartition(",")[0] for row in rows]
    (folder / "capacity.csv").write_text("\n".join([head, *cut, ""]))
    found = examined(str(folder), Programs(), {})
    assert [finding.said for finding in found.errors] == [f"capacity: Fields row {at}" for at in range(len(rows))]
    assert len(rows) == 5 and not found.is_cut_short


def test_so_many_rows_are_looked_at(tmp_path: Path, monkeypatch: pytest.MonkeyPatch) -> None:
    monkeypatch.setattr(table_faults, "MOST_FAULTY", 3)
    question = of_demand(tmp_path / "demand.csv", HEAD + b"eu,20.1,1\n" * 9)
    assert len(list(table_faults.faulty_rows(question, "demand"))) == 3


def test_a_header_is_no_row(tmp_path: Path) -> None:
    question = of_demand(tmp_path / "demand.csv", b"region,handle\neu,20.1\n")
    assert list(table_faults.faulty_rows(question, "demand")) == []
    result = Diagnosis([], 1)
    assert faults._without_faulty(question, "demand", result) is question and result.findings == []


def test_a_matrix_of_costs_is_turned_by_a_command(hsp: Hsp, folder: Path) -> None:
    rows = [line.split(",") for line in (folder / "costs.csv").read_text().splitlines()[1:]]
    sites = list(dict.fromkeys(site for _, site, _ in rows))
    costs = {(region, site): cost for region, site, cost in rows}
    regions = dict.fromkeys(region for region, _, _ in rows)
    lines = [[region, *(costs.get((region, site), "") for site in sites)] for region in regions]
    (folder / "costs.csv").write_text("".join(",".join(line) + "\n" for line in [["", *sites], *lines]))
    said = hsp("doctor", str(folder), status=1).stdout
    assert "a matrix, with a column for each site" in said and "[[site]]" not in said
    command = re.search(r"awk .*turned.csv", said)
    assert command
    subprocess.run(command[0], shell=True, check=True, cwd=folder)
    turned = (folder / "turned.csv").read_text().splitlines()
    assert turned[0] == "region,site,cost" and sorted(turned[1:]) == sorted(map(",".join, rows))


def test_no_sign_stands_for_all_servers(hsp: Hsp, folder: Path) -> None:
    (folder / "capacity.csv").write_text("site,server_id,capacity\nparis,*,1500\nreston,1,9\n")
    assert "a row for each server, as no sign stands for all" in hsp("doctor", str(folder), status=1).stdout
