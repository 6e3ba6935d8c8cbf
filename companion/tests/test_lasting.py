"""The time that a demand counts: how long it is, by which clock, and what is noted of it."""

import gzip
import shutil
import tomllib
from pathlib import Path

import pytest

from hsp.base.numbers import duration
from hsp.intake.lasting import lasting, short_line
from hsp.intake.times import Span, Time

from conftest import TOP, Hsp

BRING = TOP / "examples" / "bring-in"


def line(clock: str, zone: str = "+0000", day: int = 26) -> str:
    return f'192.0.2.7 - - [{day}/Nov/2026:{clock} {zone}] "GET /20.500.1/a HTTP/1.1" 302 -\n'


@pytest.fixture
def folder(tmp_path: Path) -> Path:
    (tmp_path / "s").mkdir()
    shutil.copy(BRING / "networks.csv", tmp_path)
    return tmp_path / "s"


def counted(hsp: Hsp, folder: Path, *words: str) -> tuple[str, str]:
    """What is printed of logs beside a folder."""
    paths = [str(folder.parent / word) if word.endswith(("log", ".gz")) else word for word in words]
    done = hsp("demand", *paths, "--regions", str(folder.parent / "networks.csv"), "--into", str(folder))
    return done.stdout, done.stderr


def titles(folder: Path) -> dict[str, object]:
    return tomllib.loads((folder / "hsp.toml").read_text())


def test_the_span_of_logs_is_printed_and_noted(folder: Path, hsp: Hsp) -> None:
    log = folder.parent / "a.log"
    log.write_text(line("09:00:10") + line("08:59:59") + "junk\n" + line("09:30:00") + line("11:14:30"))
    said, _ = counted(hsp, folder, "a.log")
    long = "2 hours and 15 minutes"
    assert said.startswith(f"time  2026-11-26 09:00 to 2026-11-26 11:15 UTC: a count is of the queries in {long}\n")
    assert titles(folder) == {"seconds": 8100, "time": long}
    said, _ = counted(hsp, folder, "a.log", "--from", "2026-11-26T09:00", "--to", "2026-11-26T10:00")
    assert titles(folder) == {"seconds": 3600, "time": "1 hour"} and " in 1 hour\n" in said
    (folder / "hsp.toml").write_text('time = "the morning"\n')
    counted(hsp, folder, "a.log", "--busiest-hour")
    assert titles(folder) == {"seconds": 3600, "time": "the morning"}
    counted(hsp, folder, "a.log")  # the words were of another time
    assert titles(folder) == {"seconds": 8100, "time": long}
    log.write_text(line("09:00:10") * 2)
    before = (folder / "hsp.toml").read_text()
    said, _ = counted(hsp, folder, "a.log")
    assert not said.startswith("time") and f"{folder}/hsp.toml has seconds = 8100 of another demand" in said
    assert (folder / "hsp.toml").read_text() == before


def test_an_hour_of_which_the_logs_have_a_part_is_named(folder: Path, hsp: Hsp) -> None:
    log = folder.parent / "a.log"
    log.write_text(line("09:20:10") + line("09:29:59"))
    said, _ = counted(hsp, folder, "a.log", "--busiest-hour")
    assert "\nonly 09:20 to 09:30 of it is in the logs: a count is of 10 minutes, and no hour\n" in said
    assert titles(folder) == {"seconds": 600, "time": "10 minutes"}
    log.write_text(line("08:59:59") + line("09:20:10") + line("09:21:00") + line("10:00:00"))
    said, _ = counted(hsp, folder, "a.log", "--busiest-hour")
    assert "only" not in said and titles(folder) == {"seconds": 3600, "time": "1 hour"}


def test_busiest_hour_and_hours_are_of_one_clock(folder: Path, hsp: Hsp) -> None:
    log = folder.parent / "a.log"
    log.write_text(line("09:20:10", "+0530") + line("09:40:10", "+0530") + line("06:15:00", "-0300", 27))
    hour, _ = counted(hsp, folder, "a.log", "--busiest-hour")
    hours, _ = counted(hsp, folder, "a.log", "--by", "hour")
    words = "busiest hour 2026-11-26 09:00 to 2026-11-26 10:00 +05:30: 2 of 3 queries\n"
    assert words in hour and words in hours
    assert f"clocks differ: -03:00 in {log} and +05:30 in {log}; the offset of each line counts\n" in hour
    assert titles(folder) == {"seconds": 3600, "time": "1 hour"}


def test_a_log_that_begins_as_another_one_is_named(folder: Path, hsp: Hsp) -> None:
    text = "".join(line(f"09:{at:02}:00") for at in range(60))
    (folder.parent / "a.log").write_text(text)
    (folder.parent / "a.log.gz").write_bytes(gzip.compress(text.encode()))
    (folder.parent / "b.log").write_text(text.replace("192.0.2.7", "192.0.2.8"))
    _, said = counted(hsp, folder, "b.log", "a.log", "a.log.gz")
    one, other = folder.parent / "a.log", folder.parent / "a.log.gz"
    assert said == f"hsp: {other} begins as {one} does: where it is the same log, its queries count twice\n"


def test_lengths_of_time_have_two_units() -> None:
    wanted = {1: "1 second", 61: "1 minute and 1 second", 7200: "2 hours", 90_061: "1 day and 1 hour", 0: "0 seconds"}
    assert {seconds: duration(seconds) for seconds in wanted} == wanted
    assert lasting({"a": [Time(10), Time(4000)]}, Span(0, 3000)) == (10, 3000, 0)
    assert lasting({"a": []}, Span()) is None and lasting({"a": [Time(10), Time(40)]}, Span(90, 99)) is None
    assert short_line([0, 59], 0, 0) == ("", 3600)
