"""hsp demand over logs in pieces, and by several processes: it finds what was written into them, octet for octet."""

import bz2
import contextlib
import csv
import functools
import gzip
import os
import random
import signal
import subprocess
import sys
from collections import Counter
from collections.abc import Callable
from pathlib import Path
from typing import NamedTuple

import pytest

from hsp.base.programs import Missing, Programs, Refused
from hsp.base.unfit import Unfit, shown
from hsp.intake import logs, reader, side_by_side
from hsp.intake.forms import Form, within
from hsp.intake.logs import LONGEST, Piece, lines_of, nonempty, pieces_of
from hsp.intake.queries import Judge, Reading
from hsp.intake.reader import Part
from hsp.intake.regions import Networks
from hsp.intake.side_by_side import parts_of
from hsp.intake.times import Span

from conftest import WITH_SIGNALS, children, until, variables
from test_sites import invoke

NETWORKS = b"network,region\n10.1.0.0/16,eu\n10.2.0.0/16,us\n2001:db8::/32,asia\n"
CLIENTS = {"10.1.2.3": "eu", "10.2.9.9": "us", "2001:db8::7": "asia", "[2001:db8::8]": "asia"}
NO_REGION, NO_ADDRESS = "no region for the client's address", "the client isn't an IP address"
ODD, NO_SLASH, TOO_LONG = "not a line of this form", "not a handle (NoSlash)", f"longer than {LONGEST:,} octets"
NO_TIME, OTHER_TIME = "no time in the line", "another time than the wanted one"
OTHER_OPERATION, OTHER_REQUEST = "another operation than a resolution", "another request than GET or HEAD"
HANDLES = [f"20.500.1/item-{number}" for number in range(40)]


class Written(NamedTuple):
    """A line, the hour of its time where it has one, and what it gives: region and handle, or a reason."""

    line: str
    hour: int | None
    gives: tuple[str, str] | str


def server_line(draw: random.Random) -> Written:
    client, hour = draw.choice(list(CLIENTS)), draw.choice((9, 10, 10, 11))
    clock = f'"2026-11-26 {hour:02}:{draw.randrange(60):02}:07.{draw.randrange(1000):03}+0000"'
    handle = draw.choice(HANDLES)
    good = CLIENTS[client], handle
    return draw.choice(
        [
            *[Written(f"{client} UDP:HDL {clock} 1 1 {draw.randrange(900)}ms {handle}", hour, good)] * 12,
            Written(f'{client} TCP:HDL {clock} 1 1 3ms {handle} b,"c" d', hour, (good[0], f'{handle} b,"c" d')),
            Written(f"{client} UDP:HDL {clock} 1 1 3ms 20.1/é", hour, (good[0], "20.1/é")),
            Written(f"{client} UDP:HDL {clock} 2 1 3ms {handle}", hour, OTHER_OPERATION),
            Written(f"{client} UDP:HDL {clock} x 1 3ms {handle}", hour, ODD),
            Written(f"{client} UDP:HDL {clock} 1 1 3s {handle}", hour, ODD),
            Written(f"{client} UDP:HDL {clock[1:]} 1 1 3ms {handle}", None, ODD),
            Written(f"{client} UDP:HDL {clock[:-1]} 1 1 3ms {handle}", None, ODD),
            Written(f'{client} UDP:HDL "26 Nov" 1 1 3ms {handle}', None, good),
            Written(f"10.9.0.1 UDP:HDL {clock} 1 1 3ms {handle}", hour, NO_REGION),
            Written(f"10.9.0.1 UDP:HDL {clock} 1 1 3ms none", hour, NO_REGION),
            Written(f"[10.1.2.3] UDP:HDL {clock} 1 1 3ms {handle}", hour, NO_ADDRESS),
            Written(f" UDP:HDL {clock} 1 1 3ms {handle}", hour, NO_ADDRESS),
            Written(f"{client} UDP:HDL {clock} 1 1 3ms none-{draw.randrange(3)}", hour, NO_SLASH),
            Written(f"{client} UDP:HDL {clock} 1 1 3ms ", hour, "not a handle (NoSlash)"),
            Written(f"{client} UDP:HDL {clock} 1 1", hour, ODD),
        ]
    )


def proxy_line(draw: random.Random) -> Written:
    client, hour = draw.choice(list(CLIENTS)), draw.choice((9, 10, 10, 11))
    head = f"{client} - - [26/Nov/2026:{hour:02}:{draw.randrange(60):02}:07 +0000]"
    handle, end = draw.choice(HANDLES), draw.choice(('302 - "-" "curl/7.88.1"', "302 -"))
    good = CLIENTS[client], handle
    other = head.replace(client, "10.9.0.1")
    return draw.choice(
        [
            *[Written(f'{head} "GET /{handle}?a=b HTTP/1.1" 302 - "-" "curl/7.88.1"', hour, good)] * 12,
            Written(f'{head} "HEAD /api/handles/{handle} HTTP/1.1" {end}', hour, good),
            Written(f'{head} "GET /{handle} HTTP/1.1" 302 - "-" "a \\"b\\" c"', hour, good),
            Written(f'{head} "GET /{handle}\\"b HTTP/1.1" {end}', hour, (good[0], f'{handle}"b')),
            Written(f'{head} "GET /20.1/%C3%A9,x HTTP/1.1" {end}', hour, (good[0], "20.1/é,x")),
            Written(f'{head} "POST /{handle} HTTP/1.1" {end}', hour, OTHER_REQUEST),
            Written(f'{head} "-" 408 -', hour, ODD),
            Written(f'{head} "" 400 - "-" "-"', hour, ODD),
            Written(f'{head} "GET /{handle} HTTP/1.1', hour, ODD),
            Written(f'{head} "GET /{handle} HTTP/1.1\\" {end.replace(chr(34), "")}', hour, ODD),
            Written(f'{head[:-1]} "GET /{handle} HTTP/1.1" {end}', None, ODD),
            Written(f'{client}] "GET /{handle} HTTP/1.1" {end}', None, ODD),
            Written(f'{client} - - [x] "GET /{handle} HTTP/1.1" {end}', None, good),
            Written(f'{other} "GET /{handle} HTTP/1.1" {end}', hour, NO_REGION),
            Written(f'{other} "GET /none HTTP/1.1" {end}', hour, NO_REGION),
            Written(f'{head} "GET /none-{draw.randrange(3)} HTTP/1.1" {end}', hour, NO_SLASH),
            Written(f'host.example {head.partition(" ")[2]} "GET /{handle} HTTP/1.1" {end}', hour, NO_ADDRESS),
        ]
    )


LINES: dict[str, Callable[[random.Random], Written]] = {"server": server_line, "proxy": proxy_line}


def written(draw: random.Random, form: str, number: int, longest: int) -> tuple[list[Written], bytes]:
    """A log with empty lines, junk, lines that are too long and different line ends, perhaps without the last one."""
    rows = []
    for _ in range(number):
        rows.append(LINES[form](draw))
        if draw.random() < 0.05:
            junk = [Written("junk", None, ODD), Written("\x16\x03", None, ODD)]
            rows.append(draw.choice([Written("", None, ""), *junk]))
        if draw.random() < 0.01:
            rows.append(Written("y" * (LONGEST + draw.randint(1, longest)), None, TOO_LONG))
    ends = [draw.choice(("\n", "\n", "\r\n")) for _ in rows]
    if draw.random() < 0.5:
        ends[-1] = ""
    text = draw.choice(("", "\ufeff")) + "".join(row.line + end for row, end in zip(rows, ends))
    return rows, text.encode()


class Found(NamedTuple):
    """The pairs in the order in which they first come, with their counts; the rows; what was passed over."""

    counts: list[tuple[tuple[bytes, bytes], int]]
    kept: bytes
    skipped: dict[str, tuple[int, str]]
    lines: int


def wanted(paths: list[Path], rows_of: list[list[Written]], hour: int | None) -> Found:
    """What the lines were written to give. Where an hour is wanted, the time of a line comes before all else."""
    counts: Counter[tuple[bytes, bytes]] = Counter()
    kept, skipped, lines = [], dict[str, tuple[int, str]](), 0
    for path, rows in zip(paths, rows_of):
        for number, row in enumerate(rows, 1):
            gives = row.gives
            if hour is not None and row.line and gives != TOO_LONG:
                of_other = OTHER_TIME if row.hour not in (None, hour) else gives
                gives = NO_TIME if row.hour is None and isinstance(gives, tuple) else of_other
            lines += gives not in ("", TOO_LONG)
            if isinstance(gives, tuple):
                pair = gives[0].encode(), gives[1].encode()
                counts[pair] += 1
                kept.append(b"%b,%b\n" % (pair[0], quoted(pair[1])))
            elif gives:
                count, first = skipped.get(gives, (0, f"{path}:{number}: {shown(row.line)}"))
                skipped[gives] = count + 1, first
    return Found(list(counts.items()), b"".join(kept), skipped, lines)


def quoted(field: bytes) -> bytes:
    return b'"%b"' % field.replace(b'"', b'""') if b'"' in field or b"," in field else field


@functools.cache
def judge() -> Judge:
    """One for all, so that hsplan-stream is asked once for each handle."""
    return Judge(Programs())


def found(paths: list[Path], form: str, hour: int | None, jobs: int) -> Found:
    begin = 1795651200  # 26 November 2026, 00:00 UTC
    tag = within(Span(begin + 3600 * hour, begin + 3600 * hour + 3600)) if hour is not None else None
    seek = Networks("networks.csv", NETWORKS, None).seek
    reading = Reading(Form(form), seek, judge(), tag=tag, jobs=jobs)
    counts: Counter[tuple[bytes, bytes]] = Counter()
    kept = []
    for part in parts_of(list(map(str, paths)), reading, True):
        for pair, count in part.counts.items():
            counts[pair] += count
        kept += part.kept
    skipped = {why: (count, reading.skipped.first[why]) for why, count in reading.skipped.counts.items()}
    return Found(list(counts.items()), b"".join(kept), skipped, reading.lines)


def test_the_first_second_of_a_day_is_that_of_date() -> None:
    done = subprocess.run(["date", "-u", "-d", "2026-11-26", "+%s"], capture_output=True, text=True, check=True)
    assert int(done.stdout) == 1795651200


@pytest.mark.parametrize("hour", [None, 10])
@pytest.mark.parametrize("form", LINES)
@pytest.mark.parametrize("seed", range(6))
def test_pieces_of_any_length_give_what_was_written(
    tmp_path: Path, monkeypatch: pytest.MonkeyPatch, form: str, hour: int | None, seed: int
) -> None:
    """Two logs in pieces of one octet up to all, looked at by one line up to all, with judgements of any number."""
    draw = random.Random(seed)
    number = draw.choice((5, 60))
    logs_of = [written(draw, form, number, 9) for _ in range(2)]
    paths = [tmp_path / "a", tmp_path / "b"]
    for path, (_, octets) in zip(paths, logs_of):
        path.write_bytes(octets)
    own = wanted(paths, [rows for rows, _ in logs_of], hour)
    for _ in range(4):
        monkeypatch.setattr(logs, "PIECE", draw.choice((1 if number == 5 else 131, 50, 1000, 40_000, 1 << 23)))
        monkeypatch.setattr(logs, "TOGETHER", draw.choice((1, 300, 1 << 16)))
        monkeypatch.setattr(logs, "BLOCK", draw.choice((1 if logs.PIECE > 40_000 else 64, 5000, 1 << 20)))
        monkeypatch.setattr(reader, "BATCH_OCTETS", draw.choice((1, 500, 1 << 22)))
        monkeypatch.setattr(reader, "MOST_AT_ONCE", draw.choice((0, 5, 1 << 16)))
        assert found(paths, form, hour, 1) == own


def many(tmp_path: Path, form: str, number: int, seed: int) -> tuple[list[Path], list[list[Written]]]:
    """Logs of one form: two that are plain, and two that are packed."""
    draw, rows_of = random.Random(seed), []
    paths = [tmp_path / name for name in ("a", "b.gz", "c", "d.bz2")]
    for path, pack in zip(paths, (bytes, gzip.compress, bytes, bz2.compress)):
        rows, octets = written(draw, form, number, 100_000)
        rows_of.append(rows)
        path.write_bytes(pack(octets))
    return paths, rows_of


@pytest.fixture
def small(monkeypatch: pytest.MonkeyPatch) -> None:
    """Pieces are short, and any number of octets is worth a process."""
    monkeypatch.setattr(logs, "PIECE", 5000)
    monkeypatch.setattr(side_by_side, "LEAST", 1)


@pytest.mark.parametrize("form", LINES)
@pytest.mark.parametrize("jobs", [2, 5])
def test_any_number_of_processes_finds_the_same(tmp_path: Path, small: None, form: str, jobs: int) -> None:
    paths, rows_of = many(tmp_path, form, 300, jobs)
    assert len([piece for path in paths for piece in pieces_of(str(path), 5000)]) > 20
    assert found(paths, form, None, jobs) == wanted(paths, rows_of, None)
    assert found(paths, form, 10, jobs) == wanted(paths, rows_of, 10)


def test_processes_that_are_far_ahead_wait(tmp_path: Path, monkeypatch: pytest.MonkeyPatch, small: None) -> None:
    """With many parts of a piece, and few of them held."""
    monkeypatch.setattr(reader, "MOST_AT_ONCE", 3)
    monkeypatch.setattr(logs, "TOGETHER", 100)
    monkeypatch.setattr(side_by_side, "AHEAD", 1)
    paths, rows_of = many(tmp_path, "proxy", 200, 9)
    assert found(paths, "proxy", None, 3) == wanted(paths, rows_of, None)


@pytest.mark.parametrize("words", [[], ["--by", "hour"], ["--by", "weekday-hour", "--from", "2026-11-26T10:00"]])
def test_any_number_of_processes_writes_the_same(tmp_path: Path, small: None, words: list[str]) -> None:
    paths, _ = many(tmp_path, "proxy", 200, 3)
    (tmp_path / "networks.csv").write_bytes(NETWORKS)
    texts = []
    for jobs in ("1", "2", "4"):
        (tmp_path / jobs).mkdir()
        kept = [] if words else ["--log", tmp_path / jobs / "log.csv"]
        given = ["--regions", tmp_path / "networks.csv", "--into", tmp_path / jobs, "--jobs", jobs, *words, *kept]
        said = invoke("demand", *paths, *given).stdout.replace(f"{tmp_path}/{jobs}", "DIR")
        files = sorted((tmp_path / jobs).rglob("*.csv"))
        texts.append([said, *((str(it.relative_to(tmp_path / jobs)), it.read_bytes()) for it in files)])
    assert len(texts[0]) == {0: 3, 2: 26, 4: 170}[len(words)] and texts[0] == texts[1] == texts[2]


def test_a_line_that_fills_many_pieces_is_read_once(tmp_path: Path, monkeypatch: pytest.MonkeyPatch) -> None:
    """Each piece looks for the end of a line only within itself."""
    path = tmp_path / "log"
    path.write_bytes(b"a\n" + b"x" * 1_000_000 + b"\nb\nc")
    monkeypatch.setattr(logs, "BLOCK", 1000)
    read = 0
    real = logs.opened

    class File:
        """A file that notes how many octets are read of it."""

        def __init__(self, own: object) -> None:
            self.own = own

        def __getattr__(self, name: str) -> object:
            return getattr(self.own, name)

        def __enter__(self) -> "File":
            return self

        def __exit__(self, *_: object) -> None:
            self.own.close()  # type: ignore[attr-defined]

        def read1(self, size: int) -> bytes:
            nonlocal read
            octets: bytes = self.own.read1(size)  # type: ignore[attr-defined]
            read += len(octets)
            return octets

    monkeypatch.setattr(logs, "opened", lambda path, watch: File(real(path, watch)))
    passed: list[tuple[str, int, bytes]] = []
    lines, before = [], 0
    for piece in pieces_of(str(path), 1000):
        blocks = list(lines_of(piece, lambda why, number, line: passed.append((why, before + number, line[:1]))))
        lines += [(before + number, line) for number, line in nonempty(blocks)]
        before += blocks[-1].number - 1
    assert lines == [(1, b"a"), (3, b"b"), (4, b"c")] and passed == [(TOO_LONG, 2, b"x")]
    assert read < 2.1 * path.stat().st_size


def test_logs_that_are_no_plain_files_are_one_piece(tmp_path: Path) -> None:
    os.mkfifo(tmp_path / "pipe")
    (tmp_path / "packed").write_bytes(gzip.compress(bytes(range(256))))
    (tmp_path / "wide").write_bytes("a line of UTF-16".encode("utf-16"))
    (tmp_path / "plain").write_bytes(b"x" * 25)
    for name in ("pipe", "packed", "wide", "absent", "."):
        assert pieces_of(str(tmp_path / name), 10) == [Piece(str(tmp_path / name))]
    assert pieces_of("-", 10) == [Piece("-")]
    path = str(tmp_path / "plain")
    assert pieces_of(path, 10) == [Piece(path, 0, 10), Piece(path, 10, 20), Piece(path, 20, None)]


LOST = OSError(5, "Input/output error", "log")
FAULTS = [Unfit("log: odd"), Refused(3, "no plan"), Missing("a", "b"), LOST, MemoryError()]


def failing(at: int, fault: BaseException | int) -> Callable[[Piece, Reading, bool], object]:
    """Parts of pieces, of which one has a fault, or gets a signal in a process of its own."""
    own, real = os.getpid(), reader.parts

    def parts(piece: Piece, reading: Reading, keeps: bool) -> object:
        if piece.begin == at and isinstance(fault, BaseException):
            raise fault
        if piece.begin == at and os.getpid() != own:
            os.kill(os.getpid(), fault)  # type: ignore[arg-type]
        return real(piece, reading, keeps)

    return parts


def counts_until(path: Path, jobs: int) -> list[Part]:
    """The parts that come before a fault, which is raised behind them."""
    seek = Networks("networks.csv", NETWORKS, None).seek
    parts = []
    for part in parts_of([str(path)], Reading(Form("server"), seek, judge(), jobs=jobs)):
        parts.append(part)
        LAST[:] = parts
    return parts


LAST: list[Part] = []


@pytest.mark.parametrize("jobs", [1, 3])
@pytest.mark.parametrize("fault", FAULTS, ids=lambda it: type(it).__name__)
def test_a_fault_of_a_process_is_raised_at_its_place(
    tmp_path: Path, small: None, monkeypatch: pytest.MonkeyPatch, jobs: int, fault: BaseException
) -> None:
    """What comes before it is counted."""
    paths, _ = many(tmp_path, "server", 300, 4)
    monkeypatch.setattr(side_by_side, "parts", failing(15_000, fault))
    with pytest.raises(type(fault)) as caught:
        counts_until(paths[0], jobs)
    assert str(caught.value) == str(fault) and caught.value.__dict__ == fault.__dict__
    assert len([part for part in LAST if part.is_last]) == 3


@pytest.mark.parametrize("number", [signal.SIGKILL, signal.SIGTERM])
def test_a_process_that_is_killed_ends_the_command(
    tmp_path: Path, small: None, monkeypatch: pytest.MonkeyPatch, number: int
) -> None:
    paths, _ = many(tmp_path, "server", 300, 4)
    (tmp_path / "networks.csv").write_bytes(NETWORKS)
    (tmp_path / "out").write_text("as before")
    monkeypatch.setattr(side_by_side, "parts", failing(15_000, number))
    words = ["demand", *paths, "--regions", tmp_path / "networks.csv", "-o", tmp_path / "out", "--jobs", "3"]
    said = invoke(*words, status=5).stderr
    assert said == f"hsp: a process that counts was ended by signal {number:d}; --jobs 1 takes the least memory\n"
    assert (tmp_path / "out").read_text() == "as before" and not children(os.getpid())


def test_a_fault_in_the_code_is_shown_with_its_place(
    tmp_path: Path, small: None, monkeypatch: pytest.MonkeyPatch
) -> None:
    paths, _ = many(tmp_path, "server", 300, 4)
    monkeypatch.setattr(side_by_side, "parts", failing(15_000, ZeroDivisionError("by nothing")))
    with pytest.raises(RuntimeError, match=r"(?s)Traceback.*in parts.*ZeroDivisionError: by nothing"):
        counts_until(paths[0], 3)


def test_damaged_and_absent_logs_end_as_before(tmp_path: Path, small: None) -> None:
    """With the same line by any number of processes: that of the first one."""
    (tmp_path / "networks.csv").write_bytes(NETWORKS)
    paths, _ = many(tmp_path, "proxy", 300, 5)
    paths[1].write_bytes(paths[1].read_bytes()[:-900])
    words = ["demand", *paths, tmp_path / "absent", "--regions", tmp_path / "networks.csv", "-o", tmp_path / "out"]
    said = {invoke(*words, "--jobs", jobs, status=1).stderr for jobs in ("1", "3")}
    assert len(said) == 1 and f"{paths[1]}: line " in said.pop()
    paths[1].unlink()
    said = {invoke(*words, "--jobs", jobs, status=5).stderr for jobs in ("1", "3")}
    assert said == {f"hsp: {paths[1]}: No such file or directory\n"}
    assert not (tmp_path / "out").exists()


def started(tmp_path: Path) -> "subprocess.Popen[str]":
    """A run of four processes over a pipe that nobody writes, and a log."""
    os.mkfifo(tmp_path / "pipe")
    (tmp_path / "networks.csv").write_bytes(NETWORKS)
    line = server_line(random.Random(1)).line + "\n"
    (tmp_path / "log").write_text(line * (1 + (1 << 25) // len(line)))
    words = [tmp_path / "pipe", tmp_path / "log", "--regions", tmp_path / "networks.csv", "--jobs", "4"]
    command = [*WITH_SIGNALS, sys.executable, "-m", "hsp", "demand", *map(str, words), "-o", str(tmp_path / "out")]
    run = subprocess.Popen(command, env=variables(), stderr=subprocess.PIPE, text=True, start_new_session=True)
    until(lambda: len(children(run.pid)) >= 4)
    return run


def are_gone(processes: list[int]) -> bool:
    states = [Path(f"/proc/{it}/stat") for it in processes]
    return not any(it.exists() and it.read_text().rpartition(")")[2].split()[0] != "Z" for it in states)


def test_an_interrupt_ends_all_processes(tmp_path: Path) -> None:
    """As a terminal sends it, to all of them."""
    run = started(tmp_path)
    helpers = children(run.pid)
    os.killpg(run.pid, signal.SIGINT)
    assert run.communicate(timeout=60)[1] == "hsp: interrupted\n" and run.returncode == 130
    until(lambda: are_gone(helpers))
    assert sorted(path.name for path in tmp_path.iterdir()) == ["log", "networks.csv", "pipe"]


def end_of(pipe: Path) -> None:
    """Ends a pipe for whoever reads it. Nobody may read it, and then this does not wait for a reader."""
    with contextlib.suppress(OSError):
        os.close(os.open(pipe, os.O_WRONLY | os.O_NONBLOCK))


def test_no_process_outlives_a_command_that_is_killed(tmp_path: Path) -> None:
    """The one that waits for a pipe ends when that does."""
    run = started(tmp_path)
    helpers = children(run.pid)
    run.kill()
    run.wait(timeout=60)

    def ended() -> bool:
        end_of(tmp_path / "pipe")
        return are_gone(helpers)

    until(ended)


def test_standard_input_is_a_log_beside_others(tmp_path: Path) -> None:
    """By its sign and by its path, once in a process of its own."""
    draw = random.Random(6)
    rows, _ = written(draw, "server", 50, 9)
    given = "\n".join(row.line for row in rows)
    (tmp_path / "networks.csv").write_bytes(NETWORKS)
    line = '10.1.2.3 UDP:HDL "2026-11-26 09:00:00.000+0000" 1 1 3ms 20.1/a\n'
    (tmp_path / "log").write_text(line * 200_000)
    tables = []
    for path, jobs in (("-", "1"), ("-", "3"), ("/dev/stdin", "3")):
        words = ["demand", "log", path, "--regions", "networks.csv", "--format", "server", "--jobs", jobs]
        command = [sys.executable, "-m", "hsp", *words]
        done = subprocess.run(command, cwd=tmp_path, env=variables(), input=given.encode(), capture_output=True)
        assert done.returncode == 0, done.stderr
        tables.append(done.stdout)
    assert tables[0] == tables[1] == tables[2]
    counts = Counter(row.gives for row in rows if isinstance(row.gives, tuple))
    assert tables[0].count(b"\n") == 2 + len(counts) and b"eu,20.1/a,200000\n" in tables[0]
    table = list(csv.reader(tables[0].decode().splitlines()))[1:]
    own = {(region, handle): int(count) for region, handle, count in table}
    assert own == {**counts, ("eu", "20.1/a"): 200_000}


@pytest.mark.parametrize("piece", [(0, None), (0, 90_000), (150_000, None), (200_000, 250_000)])
def test_a_log_that_is_cut_while_it_is_read_is_refused(tmp_path: Path, piece: tuple[int, int | None]) -> None:
    """What was counted of it may be a part only."""
    path = tmp_path / "log"
    path.write_bytes(b"123456789\n" * 30_000)
    found = logs._blocks(logs.Piece(str(path), *piece), [1], logs.unwatched, 4096)
    next(found, b"")
    os.truncate(path, 2000)
    with pytest.raises(Missing, match="became shorter while it was read"):
        list(found)
