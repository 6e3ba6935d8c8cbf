"""hsp demand --by hour and --by weekday-hour, against tables that are counted here by their definition."""

import csv
import datetime
import io
import json
import random
import shutil
from collections import Counter
from pathlib import Path

import pytest

import maxmind
from hsp.base.programs import Programs
from hsp.intake.hour_tally import HourTally
from hsp.intake.hours import CYCLES, Chosen

from conftest import Hsp
from test_demand import service
from test_demand_time import CLIENTS, Asked, asked, written
from test_sites import invoke

HEAD = "region,handle,count\n"
WEEK = ("mon", "tue", "wed", "thu", "fri", "sat", "sun")
Rows = list[tuple[str, str, int]]
Key = tuple[datetime.date, int]


def rows_in(path: Path) -> Rows:
    head, *rows = csv.reader(io.StringIO(path.read_text(), newline=""))
    assert ",".join(head) == HEAD.strip()
    return [(region, handle, int(count)) for region, handle, count in rows]


def folders(word: str) -> list[str]:
    hours = [f"h{hour:02}" for hour in range(24)]
    return hours if word == "hour" else [f"{day}-{hour}" for day in WEEK for hour in hours]


def folder_of(word: str, key: Key) -> str:
    return f"h{key[1]:02}" if word == "hour" else f"{WEEK[key[0].weekday()]}-h{key[1]:02}"


def chosen_of(rows: list[Asked], word: str) -> dict[str, list[Asked]]:
    """The queries of each hour, by the clock of the first line, on the first day of those with most of them."""
    zone = rows[0].time.tzinfo
    of_hours: dict[Key, list[Asked]] = {}
    for row in sorted(rows, key=lambda own: own.time):
        own = row.time.astimezone(zone)
        of_hours.setdefault((own.date(), own.hour), []).append(row)
    found: dict[str, list[Asked]] = {name: [] for name in folders(word)}
    for key, queries in of_hours.items():
        if len(queries) > len(found[folder_of(word, key)]):
            found[folder_of(word, key)] = queries
    return found


def pairs(rows: list[Asked]) -> Counter[tuple[str, str]]:
    return Counter((CLIENTS[row.client], row.handle) for row in rows)


def with_junk(path: Path, name: str) -> dict[str, int]:
    """Puts lines into a log that are no queries, or have no time. Returns how many of each reason."""
    begin = {
        "server": '10.1.0.1 UDP:HDL "2026-11-26 10:00:00.123+0000" {} 1 3ms {}',
        "proxy": '10.1.0.1 - - [26/Nov/2026:10:00:00 +0000] "{} /{} HTTP/1.1" 302 -',
    }[name]
    resolve, other = ("1", "2") if name == "server" else ("GET", "POST")
    lost = begin.format(resolve, "20.500.1/item-1").replace("2026-11-26 10", "26 10").replace("26/Nov/2026", "26/No")
    reasons = {
        "another operation than a resolution"
        if name == "server"
        else "another request than GET or HEAD": (begin.format(other, "20.500.1/item-1")),
        "not a handle (NoSlash)": begin.format(resolve, "favicon.ico"),
        "no region for the client's address": begin.format(resolve, "20.500.1/a").replace("10.1.0.1", "10.9.0.1"),
        "no time in the line": lost,
        "not a line of this form": "junk",
    }
    lines, draw, counts = path.read_text().splitlines(), random.Random(3), {}
    for reason, line in reasons.items():
        counts[reason] = draw.randint(1, 9)
        for _ in range(counts[reason]):
            lines.insert(draw.randint(1, len(lines)), line)
    path.write_text("\n".join(lines))
    return counts


@pytest.mark.parametrize("name", ["server", "proxy"])
@pytest.mark.parametrize("word", CYCLES)
def test_each_hour_has_its_day_with_most_queries(tmp_path: Path, name: str, word: str) -> None:
    """Lines of two days have four zones. Those that are no queries are passed over with the reason."""
    rows = asked(3000, 11)
    words = written(tmp_path, name, rows)
    junk = with_junk(tmp_path / "log", name)
    (tmp_path / "s").mkdir()
    said = invoke(*words, "--into", tmp_path / "s", "--by", word).stdout
    wanted = chosen_of(rows, word)
    assert {path.name for path in (tmp_path / "s").iterdir()} == {"demand.csv", "hsp.toml", *wanted}
    kept = [row for queries in wanted.values() for row in queries]
    order = sorted(pairs(kept).items(), key=lambda own: (-own[1], own[0]))
    for folder, queries in wanted.items():
        counts = pairs(queries)
        assert rows_in(tmp_path / "s" / folder / "demand.csv") == [(*pair, counts[pair]) for pair, _ in order]
        assert [path.name for path in (tmp_path / "s" / folder).iterdir()] == ["demand.csv"]
    busiest = max(wanted, key=lambda own: len(wanted[own]))
    assert rows_in(tmp_path / "s/demand.csv") == [
        row for row in rows_in(tmp_path / "s" / busiest / "demand.csv") if row[2]
    ]
    junk["a day with fewer queries in this hour"] = len(rows) - len(kept)
    for reason, count in junk.items():
        assert not count or f"\n  {count:,}  {reason}; first {tmp_path}/log:" in said
    assert f"1 log, {len(rows) + sum(junk.values()) - junk['a day with fewer queries in this hour']:,} lines" in said
    assert f"\n{tmp_path}/s/demand.csv has the rows of {busiest} that aren't 0\n" in said


def test_which_hours_count_is_said(tmp_path: Path) -> None:
    """By hand: 9:00 to 10:00 of +01:00 has two queries on the 26th, one of them written as 8:30 UTC, and three on the
    27th; 23:00 has one on the 25th, written as 22:10 UTC."""
    times = ("26/Nov/2026:09:10:00 +0100", "26/Nov/2026:08:30:00 +0000", "25/Nov/2026:22:10:00 +0000")
    times += tuple(f"27/Nov/2026:09:{minute}:00 +0100" for minute in (20, 30, 59))
    log = [f'10.1.0.1 - - [{time}] "GET /20.1/{at} HTTP/1.1" 302 -\n' for at, time in enumerate(times)]
    (tmp_path / "log").write_text("".join(log))
    (tmp_path / "networks.csv").write_text("network,region\n10.1.0.0/16,eu\n")
    words = ("demand", tmp_path / "log", "--regions", tmp_path / "networks.csv", "--into", tmp_path)
    lines = invoke(*words, "--by", "hour").stdout.splitlines()
    moved = "2 of 6 queries have times of UTC, moved to it"
    assert lines[:3] == [
        f"hours are those of the clock of +01:00, the zone of the first time; {moved}",
        "3 days from 2026-11-25 to 2026-11-27: each hour has the counts of the day with most queries in it",
        "busiest hour 2026-11-27 09:00 to 2026-11-27 10:00 +01:00: 3 of 6 queries",
    ]
    assert lines[-2:] == [
        f"each demand.csv of {tmp_path}/h00 to {tmp_path}/h23 has 4 rows",
        f"{tmp_path}/demand.csv has the rows of h09 that aren't 0",
    ]
    names = [f"20.1/{at}" for at in (2, 3, 4, 5)]
    tables = {hour: [row[2] for row in rows_in(tmp_path / f"h{hour:02}" / "demand.csv")] for hour in range(24)}
    assert [row[1] for row in rows_in(tmp_path / "h00/demand.csv")] == names
    assert tables == {hour: [0, 0, 0, 0] for hour in range(24)} | {9: [0, 1, 1, 1], 23: [1, 0, 0, 0]}
    assert [row[1] for row in rows_in(tmp_path / "demand.csv")] == names[1:]
    first = invoke(*words, "--by", "hour", "--to", "2026-11-26T12:00").stdout.splitlines()
    assert first[1].startswith("2 days from 2026-11-25 to 2026-11-26: ")
    assert sum(row[2] for row in rows_in(tmp_path / "h09/demand.csv")) == 2


@pytest.mark.parametrize("name", ["json of seconds", "csv", "csv of thousandths", "regex"])
def test_other_forms_have_hours_too(tmp_path: Path, name: str) -> None:
    """Times without a zone are of UTC."""
    rows = asked(600, 12)
    if "of" in name.split():
        rows = [row._replace(time=row.time.astimezone(datetime.UTC)) for row in rows]
    words = written(tmp_path, name, rows)
    (tmp_path / "s").mkdir()
    invoke(*words, "--into", tmp_path / "s", "--by", "hour")
    for folder, queries in chosen_of(rows, "hour").items():
        found = {row[:2]: row[2] for row in rows_in(tmp_path / "s" / folder / "demand.csv")}
        assert Counter(found) == pairs(queries)


def test_hours_of_many_handles_are_logs(tmp_path: Path, hsp: Hsp) -> None:
    """All hours have the same rows, more than a table has. What their hsp.toml says of an older demand is taken out."""
    folder, draw = service(tmp_path), random.Random(4)
    rows = [row._replace(handle=f"20.500.1/item-{draw.randrange(12_000)}") for row in asked(36_000, 13)]
    (folder / "h12").mkdir()
    (folder / "h12/hsp.toml").write_text('title = "Noon"\n\n[demand]\nrows = "kinds"\n')
    wanted = chosen_of(rows, "hour")
    said = invoke(*written(tmp_path, "proxy", rows), "--into", folder, "--by", "hour").stdout.splitlines()
    names = {row[:2] for row in rows_in(folder / "h00/demand.csv")}
    assert said[-3:] == [
        f"each demand.csv of {folder}/h00 to {folder}/h23 has {len(names):,} rows",
        f"{folder}/demand.csv has the rows of {max(wanted, key=lambda own: len(wanted[own]))} that aren't 0",
        "no table holds it, as it has more than 8,192 rows: it is a log, and is planned by prices",
    ]
    for name, queries in wanted.items():
        table = rows_in(folder / name / "demand.csv")
        assert {row[:2] for row in table} == names
        assert {row[:2]: row[2] for row in table if row[2]} == pairs(queries)
    assert (folder / "h12/hsp.toml").read_text().strip() == 'title = "Noon"'
    files = [word for name in ("settings", "costs", "capacity") for word in (f"--{name}", _file(folder, name))]
    plan = json.loads(hsp("plan", str(folder / "h12"), "--no-save", "--json", *files).stdout)
    assert (plan["rows_are"], plan["queries"]) == ("log", len(wanted["h12"]))


def _file(folder: Path, name: str) -> str:
    return str(next(folder.glob(f"{name}.*")))


def chosen_hours(counts: Counter[int]) -> Chosen:
    return Chosen(CYCLES["hour"], 0, [0], {hour: hour for hour in range(24)}, counts, Counter({0: counts.total()}))


def tallied(queries: list[tuple[bytes, bytes]], busiest: int, most: int) -> HourTally:
    tally = HourTally(Programs(), chosen_hours(Counter({busiest: 1})), most)
    for at in range(0, len(queries), 1000):
        for _ in tally.add(queries[at : at + 1000]):
            pass
    return tally


def sums_of(table: bytes) -> Counter[tuple[str, str]]:
    """The sums of the rows of a demand, some of which may be of one region and handle."""
    found: Counter[tuple[str, str]] = Counter()
    for region, handle, count in list(csv.reader(io.StringIO(table.decode(), newline="")))[1:]:
        found[region, handle] += int(count)
    return found


@pytest.mark.parametrize("most", [20_000, 1 << 20])
def test_more_rows_than_a_table_has_make_logs_of_the_same_rows(most: int) -> None:
    """A pair that was put into a file and came again has several rows, in each of the hours."""
    draw, regions = random.Random(7), (b"eu", b"us", b"asia", b"lab")
    tags = [b"%d %b" % (hour, region) for hour in (3, 9) for region in regions]
    queries = [(draw.choice(tags), b"20.1/%d,x" % draw.randrange(30_000)) for _ in range(90_000)]
    tally = tallied(queries, 3, most)
    own = tally.demand()
    assert own.why_log == "it has more than 8,192 rows"
    tables = {hour: b"".join(tally.table(hour)) for hour in (0, 3, 9)}
    names = [[row.rpartition(b",")[0] for row in table.splitlines()] for table in tables.values()]
    assert names[0] == names[1] == names[2] and own.rows == len(names[0]) - 1
    assert (len(names[0]) > len(set(names[0]))) == (most == 20_000)
    assert not sums_of(tables[0]).total()
    for hour in (3, 9):
        own_ones = [(tag.split()[1].decode(), it.decode()) for tag, it in queries if tag.startswith(b"%d " % hour)]
        assert +sums_of(tables[hour]) == Counter(own_ones)
    rows = [row for row in tables[3].splitlines(keepends=True) if not row.endswith(b",0\n")]
    assert b"".join(own.pieces()) == b"".join(rows)


def test_nothing_is_written_where_a_table_fails(tmp_path: Path, monkeypatch: pytest.MonkeyPatch) -> None:
    """Folders that were made go again; those that were there stay with what they have."""
    words = written(tmp_path, "proxy", asked(100, 14))
    own = tmp_path / "s"
    (own / "h03").mkdir(parents=True)
    for path in (own / "demand.csv", own / "h03/demand.csv"):
        path.write_text(HEAD)
    real = HourTally.demand

    def failing(self: HourTally) -> object:
        found = real(self)
        tables = self.table

        def table(hour: int) -> object:
            if hour == 20:
                raise OSError(28, "No space left on device", "somewhere")
            return tables(hour)

        self.table = table  # type: ignore[assignment]
        return found

    monkeypatch.setattr(HourTally, "demand", failing)
    assert "somewhere: No space left" in invoke(*words, "--into", own, "--by", "hour", status=5).stderr
    assert sorted(str(path.relative_to(own)) for path in own.rglob("*")) == ["demand.csv", "h03", "h03/demand.csv"]
    assert (own / "demand.csv").read_text() == (own / "h03/demand.csv").read_text() == HEAD


@pytest.mark.parametrize("words", [["hours"], ["country.iso_code", "hour"]])
def test_a_table_of_networks_has_no_field(tmp_path: Path, words: list[str]) -> None:
    """A word that counts for nothing may be one of hours that is misspelled."""
    (tmp_path / "s").mkdir()
    own = written(tmp_path, "proxy", asked(50, 17))
    ended = invoke(*own, "--into", tmp_path / "s", *(it for word in words for it in ("--by", word)), status=2)
    why = f"'{words[0]}' is no field of {own[own.index('--regions') + 1]}, which is a table and no MaxMind database"
    assert f"Invalid value for --by: {why}; for a table of each hour write hour or weekday-hour\n" in ended.stderr
    assert list((tmp_path / "s").iterdir()) == []
    ended = invoke("fleet", *own, "--into", tmp_path / "s", "--by", "hour", status=2)
    assert "hours are counted by hsp demand --by" in ended.stderr


def test_no_table_is_written_through_a_link(tmp_path: Path) -> None:
    """hsp day refuses such a folder, too."""
    own, other = tmp_path / "s", tmp_path / "other"
    for folder in (own, other):
        folder.mkdir()
    (own / "h03").symlink_to(other)
    ended = invoke(*written(tmp_path, "proxy", asked(50, 16)), "--into", own, "--by", "hour", status=5)
    assert ended.stderr == f"hsp: {own}/h03: it is a link, and the table of an hour goes there; take it away\n"
    assert list(other.iterdir()) == [] and [it.name for it in own.iterdir()] == ["h03"]


def test_the_field_of_a_database_stands_beside_hours(tmp_path: Path) -> None:
    """Each of them is the last one that is given."""
    known = {"country": {"iso_code": "FR"}, "continent": {"code": "EU"}}
    (tmp_path / "base.mmdb").write_bytes(maxmind.database({"10.0.0.0/8": known}))
    written(tmp_path, "proxy", asked(50, 15))
    words = ["demand", tmp_path / "log", "--regions", tmp_path / "base.mmdb", "--into", tmp_path / "s"]
    (tmp_path / "s").mkdir()
    for more, region in ((["hour"], "EU"), (["x.y", "hour", "country.iso_code"], "FR")):
        invoke(*words, *(word for own in more for word in ("--by", own)))
        assert {row[0] for row in rows_in(tmp_path / "s/h12/demand.csv")} == {region}
        shutil.rmtree(tmp_path / "s/h12")
