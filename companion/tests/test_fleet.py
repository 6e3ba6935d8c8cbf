"""hsp fleet: the octets of one run, whatever happens to workers, files, disks and schedulers."""

import bz2
import contextlib
import csv
import errno
import gzip
import lzma
import os
import random
import re
import shutil
import signal
import subprocess
import sys
import threading
import time
from collections.abc import Iterator
from pathlib import Path
from typing import NamedTuple

import pytest

from hsp.base.unfit import Unfit
from hsp.fleet import answers, local, parts, remote, tables
from hsp.fleet.split import Parted
from hsp.intake.forms import Form
from hsp.intake.times import Span

import clusters
from clusters import Cluster
from conftest import TOP, WITH_SIGNALS, Hsp, children, named, rewrite, until, variables
from test_demand import Asked, asked, regions_file, server_line, service
from test_sites import invoke

FRONTS = 8
DOCUMENT = (TOP / "docs" / "use" / "FLEET.md").read_text()


def started(*words: object, **more: object) -> "subprocess.Popen[str]":
    command = [*WITH_SIGNALS, sys.executable, "-m", "hsp", "fleet", *map(str, words)]
    environment = variables(PYTHONDONTWRITEBYTECODE="1")
    streams = {"stdin": subprocess.DEVNULL, "stdout": subprocess.PIPE, "stderr": subprocess.PIPE}
    return subprocess.Popen(command, env=environment, text=True, **{**streams, **more})  # type: ignore[call-overload, no-any-return]


def ended(run: "subprocess.Popen[str]", status: int) -> str:
    """What a run printed, with no trace of Python."""
    out, said = run.communicate(timeout=100)
    assert run.returncode == status, out + said
    assert "Traceback" not in said and "Error" not in said, said
    assert status == 0 or not out, out
    return out + said


def fleet(*words: object, status: int = 0) -> str:
    return ended(started(*words), status)


def at_work(run: "subprocess.Popen[str]") -> int:
    found: list[int] = []

    def has_begun() -> bool:
        assert run.poll() is None, "no worker has begun a part"
        found[:] = [it for it in children(run.pid) if any(named(own, "hsp.fleet.parts") for own in children(it))]
        return bool(found)

    until(has_begun, pause=0.005)
    return found[0]


def left(folder: Path) -> list[str]:
    """What a run has left behind that it hasn't published."""
    return [it.name for it in folder.iterdir() if ".fleet-" in it.name or it.name.startswith(".hsp-fleet-")]


class Million(NamedTuple):
    """A service, its plan, a log of 10^6 rows over 8 fronts, and what one hsplan answers to all and to each front."""

    folder: Path
    answers: bytes
    of_front: list[bytes]

    def written(self, into: Path, front: int) -> Path:
        """The log of a front. It is another name of the same file, which nobody may write to."""
        path = into / f"front-{front}.csv"
        os.link(self.folder / path.name, path)
        return path

    def all_written(self, into: Path) -> list[str]:
        return [f"{at}={self.written(into, at)}" for at in range(FRONTS)]

    def are_answered(self, into: Path) -> bool:
        found = [(into / f"front-{at}.csv.answers").read_bytes() for at in range(FRONTS)]
        return found == self.of_front and not left(into)


def changed(path: Path, octets: bytes) -> None:
    """Puts another file in the place of one with several names."""
    path.unlink()
    path.write_bytes(octets)


def files_of(folder: Path) -> dict[str, str]:
    names = ("settings.toml", "demand.csv", "costs.csv", "capacity.csv", "plan.txt")
    return {name.split(".")[0]: str(folder / name) for name in names}


def words_of(folder: Path) -> list[str]:
    return [word for option, path in files_of(folder).items() for word in (f"--{option}", path)]


def one_run(folder: Path, log: Path, fronts: int = FRONTS) -> "subprocess.CompletedProcess[bytes]":
    words = [os.environ["HSPLAN"], "dispatch", *words_of(folder), "--log", str(log), "--fronts", str(fronts)]
    return subprocess.run(words, capture_output=True)


@pytest.fixture(scope="module")
def million(twelve: Path, hsp: Hsp) -> Million:
    hsp("plan", str(twelve))
    with open(twelve / "demand.csv", newline="") as file:
        demand = list(csv.reader(file))[1:]
    draw = random.Random(51)
    pool = [f"{region},{handle}".encode() for region, handle, _ in demand] + [b"eu,20.500.1/nobody-plans-it"]
    weights = [int(count) for *_, count in demand] + [300]
    rows = draw.choices(pool, weights, k=1_000_000)
    fronts = draw.choices(range(FRONTS), k=len(rows))
    log = twelve / "events.csv"
    log.write_bytes(b"front,region,handle\n" + b"".join(b"%d,%b\n" % it for it in zip(fronts, rows)))
    done = one_run(twelve, log)
    assert done.returncode == 0
    answers = done.stdout.splitlines(keepends=True)
    assert len(answers) == len(rows) and len({it.split()[0] for it in answers}) == 3
    of_front: list[list[bytes]] = [[] for _ in range(FRONTS)]
    logs: list[list[bytes]] = [[b"region,handle"] for _ in range(FRONTS)]
    for front, row, answer in zip(fronts, rows, answers):
        of_front[front].append(answer)
        logs[front].append(row)
    for front, lines in enumerate(logs):
        (twelve / f"front-{front}.csv").write_bytes(b"\n".join(lines) + b"\n")
    return Million(twelve, done.stdout, [b"".join(it) for it in of_front])


@pytest.fixture(scope="module")
def worker(tmp_path_factory: pytest.TempPathFactory) -> Iterator[list[str]]:
    """The options for a cluster of one worker. It serves the tests that ask only what a run comes to, one by one."""
    with clusters.running(tmp_path_factory.mktemp("cluster"), []) as found:
        found.worker("own", os.environ["PATH"])
        yield ["--scheduler", found.address]


def test_a_worker_is_killed_while_a_million_rows_are_answered(million: Million, tmp_path: Path) -> None:
    logs = million.all_written(tmp_path)
    run = started("dispatch", million.folder, "--fronts", FRONTS, "--workers", 4, *logs)
    os.kill(at_work(run), signal.SIGKILL)
    said = ended(run, 0)
    assert said.startswith("1,000,000 rows: ") and million.are_answered(tmp_path)
    spent = million.answers.count(b"spent")
    assert f", {spent:,} spent, " in said
    assert said.endswith("\nhsp: 1 worker ended early; another one did its parts\n")


@pytest.mark.parametrize("seconds", [0.0, 0.8])
def test_a_worker_is_killed_while_it_starts(million: Million, tmp_path: Path, seconds: float) -> None:
    log = million.written(tmp_path, 2)
    run = started("dispatch", million.folder, "--fronts", FRONTS, "--workers", 2, f"2={log}")
    workers: list[int] = []
    while not workers and run.poll() is None:
        workers = [it for it in children(run.pid) if named(it, "dask_worker")]
        time.sleep(0.005)
    time.sleep(seconds)
    os.kill(workers[0], signal.SIGKILL)
    ended(run, 0)
    assert (tmp_path / "front-2.csv.answers").read_bytes() == million.of_front[2] and not left(tmp_path)


def test_a_log_of_all_fronts_is_answered_as_by_one_run(million: Million, tmp_path: Path) -> None:
    log = tmp_path / "events.csv"
    os.link(million.folder / "events.csv", log)
    fleet("dispatch", million.folder, "--fronts", FRONTS, "--workers", 2, log)
    assert (tmp_path / "events.csv.answers").read_bytes() == million.answers
    assert sorted(it.name for it in tmp_path.iterdir()) == ["events.csv", "events.csv.answers"]


def test_several_logs_of_a_front_are_one_log_also_packed(million: Million, tmp_path: Path, worker: list[str]) -> None:
    whole = million.written(tmp_path, 5).read_bytes().split(b"\n")[1:-1]
    first, second = whole[:1000], whole[1000:]
    header = b"region,handle\r\n"
    (tmp_path / "a.gz").write_bytes(gzip.compress(header + b"\r\n".join(first) + b"\r\n\r\n"))
    (tmp_path / "b.csv").write_bytes(b"region,handle\n\n" + b"\n".join(second))
    (tmp_path / "none.csv").write_bytes(b"region,handle\n")
    named = [f"5={tmp_path / it}" for it in ("a.gz", "b.csv")] + [f"6={tmp_path / 'none.csv'}"]
    fleet("dispatch", million.folder, "--fronts", FRONTS, *worker, *named)
    answers = million.of_front[5].splitlines(keepends=True)
    assert (tmp_path / "a.gz.answers").read_bytes() == b"".join(answers[:1000])
    assert (tmp_path / "b.csv.answers").read_bytes() == b"".join(answers[1000:])
    assert (tmp_path / "none.csv.answers").read_bytes() == b""


def test_a_bad_row_in_the_third_file_ends_the_run_with_its_line(million: Million, tmp_path: Path) -> None:
    logs = million.all_written(tmp_path)
    third = tmp_path / "front-2.csv"
    lines = third.read_bytes().split(b"\n")
    lines[41] = b""
    lines[77] = b"eu,no handle"
    changed(third, b"\n".join(lines))
    changed(tmp_path / "front-6.csv", b"region,handle\n,20.1/a\n")
    said = fleet("dispatch", million.folder, "--fronts", FRONTS, "--workers", 2, *logs, status=1)
    assert said == f"hsp: {third}: line 78: BadHandle\n"
    assert not list(tmp_path.glob("*.answers*")) and not left(tmp_path)


@pytest.mark.parametrize("rows", [[b'1,"eu",20.1/a', b"0,eu,20.1/a"], [b"9,eu,20.1/a", b"1,eu,20.1/a"]])
def test_rows_that_cannot_be_parted_are_answered_by_one_run(
    million: Million, tmp_path: Path, rows: list[bytes], worker: list[str]
) -> None:
    log = tmp_path / "odd.csv"
    log.write_bytes(b"front,region,handle\n" + b"\n".join(rows) + b"\n")
    wanted = one_run(million.folder, log, 2)
    fleet("dispatch", million.folder, "--fronts", 2, *worker, log)
    assert wanted.returncode == 0 and (tmp_path / "odd.csv.answers").read_bytes() == wanted.stdout


def test_a_bad_row_of_all_fronts_is_the_first_of_the_log(million: Million, tmp_path: Path, worker: list[str]) -> None:
    log = tmp_path / "bad.csv"
    log.write_bytes(b"front,region,handle\n0,eu,20.1/a\n\n1,eu,20.1/b\n1,eu,none\n0,eu,none\n")
    said = fleet("dispatch", million.folder, "--fronts", 2, *worker, log, status=1)
    assert one_run(million.folder, log, 2).stderr == b"hsplan: log: BadHandle row 2\n"
    assert said == f"hsp: {log}: line 5: BadHandle\n"


# Rows of a log of two fronts: good ones, odd ones, and such as hsplan refuses.
ROWS = b"0,eu,20.1/a|1,eu,20.1/b|0,us,20.500.1/nobody|1,asia,20.1/c,d||2,eu,20.1/a|01,eu,20.1/a".split(b"|")
ROWS += b' 0,eu,20.1/a|0|,|0,eu,none|\xff,eu,20.1/a|1,"eu",20.1/a|1,eu,"20.1/a\nb"|0,eu,20.1/\xff'.split(b"|")


def test_logs_of_any_rows_are_parted_as_one_run_reads_them(million: Million, tmp_path: Path) -> None:
    draw, seen = random.Random(94), set()
    files = files_of(million.folder)
    for number in range(60):
        kinds = draw.sample(ROWS, draw.randrange(1, 4)) + ROWS[:5]
        lines = [draw.choice(kinds) + draw.choice([b"\n"] * 9 + [b"\r\n"] * draw.randrange(2)) for _ in range(12)]
        log = tmp_path / "log.csv"
        log.write_bytes(b"front,region,handle\n" + b"".join(lines)[: -draw.randrange(1, 3)])
        wanted = one_run(million.folder, log, 2)
        parted = Parted(str(log), str(tmp_path), 2)
        if not parted.is_plain:
            seen.add("not plain")
            continue
        asked = {"fronts": 2, "by_prices": False, "files": files}
        outs = [str(tmp_path / f"{number}-{it}.out") for it in range(2)]
        parts = zip(range(2), parted.logs, outs)
        replies = [answers.answer({**asked, "front": it, "logs": [log], "staged": [out]}) for it, log, out in parts]
        rows = [parted.row(at, it["row"]) for at, it in enumerate(replies) if "row" in it]
        seen.add(wanted.returncode)
        if rows:
            assert wanted.returncode == 1 and wanted.stderr.split()[4] == b"%d" % min(rows)
            continue
        parted.merge(outs, str(tmp_path / "merged"))
        assert wanted.returncode == 0 and (tmp_path / "merged").read_bytes() == wanted.stdout
    assert seen == {"not plain", 0, 1}


def test_a_log_of_all_has_a_greatest_length(tmp_path: Path, monkeypatch: pytest.MonkeyPatch) -> None:
    monkeypatch.setattr("hsp.fleet.split.MOST_LOG_ROWS", 3)
    (tmp_path / "log").write_bytes(b"front,region,handle\n" + b"0,eu,20.1/a\n" * 4)
    with pytest.raises(Exception, match="more than 3 rows. Let each front write a file of its own"):
        Parted(str(tmp_path / "log"), str(tmp_path), 2)


class Logs(NamedTuple):
    """Access logs, the options that read them, and the demand that one hsp demand makes of them."""

    options: list[object]
    paths: list[Path]
    table: bytes


@pytest.fixture
def logs(tmp_path: Path) -> Logs:
    """Eleven logs, of which one has no line, and two are packed."""
    paths = []
    for number in range(11):
        rows = [it for it in asked(4000, 60 + number) if it.region != "lab"] if number != 4 else []
        fresh = [Asked(f"10.1.2.{number}", "eu", f"20.500.1/{number}-{at}") for at in range(2000 if rows else 0)]
        octets = "".join(f"{server_line(it)}\n" for it in rows + fresh).encode()
        name = f"{number}.log" if number % 5 else f"{number}.gz"
        paths.append(tmp_path / name)
        paths[-1].write_bytes(octets if number % 5 else gzip.compress(octets))
    options = ["--regions", regions_file(tmp_path), "--into", service(tmp_path)]
    invoke("demand", *paths, *options, "-o", tmp_path / "one.csv")
    table = (tmp_path / "one.csv").read_bytes()
    assert table.count(b"\n") > 10 * 2000
    return Logs(options, paths, table)


def test_a_worker_is_killed_while_logs_are_counted(logs: Logs, tmp_path: Path) -> None:
    run = started("demand", *logs.paths, *logs.options, "--workers", 1, "--keep", ".rows")
    os.kill(at_work(run), signal.SIGKILL)
    said = ended(run, 0)
    assert (tmp_path / "service" / "demand.csv").read_bytes() == logs.table
    assert said.startswith("11 logs, ") and not left(tmp_path)
    words = ["--regions", logs.options[1], "-o", tmp_path / "t", "--log", tmp_path / "rows"]
    invoke("demand", logs.paths[3], *words)
    assert (tmp_path / "3.log.rows").read_bytes() == (tmp_path / "rows").read_bytes()
    assert (tmp_path / "4.log.rows").read_bytes() == b"region,handle\n"


def test_what_is_counted_is_planned_and_answered(logs: Logs, tmp_path: Path, hsp: Hsp, worker: list[str]) -> None:
    folder, paths = tmp_path / "service", logs.paths[2:4]
    fleet("demand", *paths, *logs.options, *worker, "--keep", ".csv")
    rewrite(folder / "capacity.csv", "1000000000", "500000000")
    hsp("plan", str(folder))
    said = fleet("dispatch", folder, "--fronts", 1, *worker, *(f"0={it}.csv" for it in paths))
    rows = sum(it.read_bytes().count(b"\n") for it in paths)
    answers = b"".join((tmp_path / f"{it.name}.csv.answers").read_bytes() for it in paths)
    assert said.startswith(f"{rows:,} rows: {rows:,} assigned; ") and answers.count(b"assigned ") == rows


def test_few_pairs_have_the_table_of_one_run(tmp_path: Path, worker: list[str]) -> None:
    paths = []
    for number in range(3):
        lines = [server_line(it) for it in asked(500, 80 + number)] + ["nonsense"] * number
        paths.append(tmp_path / f"{number}.log")
        paths[-1].write_text("\n".join(lines))
    options = ["--regions", regions_file(tmp_path)]
    one = invoke("demand", *paths, "--regions", options[1])
    run = started("demand", *paths, *options, *worker)
    out, said = run.communicate(timeout=60)
    assert (out, said) == (one.stdout, one.stderr) and "  3  not a line of this form; first " in said


def test_a_log_of_no_form_ends_the_count_and_is_named(tmp_path: Path, worker: list[str]) -> None:
    good, bad, empty = (tmp_path / it for it in ("good.log", "bad.log", "empty.log"))
    good.write_text("".join(f"{server_line(it)}\n" for it in asked(100, 90)))
    bad.write_text("what is this\n")
    empty.write_text("")
    options = ["--regions", regions_file(tmp_path), *worker, "-o", tmp_path / "t.csv"]
    said = fleet("demand", good, bad, *options, status=1)
    assert said.startswith(f"hsp: {bad}: line 1: a log of no known form; ") and said.count("\n") == 1
    said = fleet("demand", empty, *options, status=1)
    assert said == f"hsp: no query is in {empty}: it has no line\n"
    assert not (tmp_path / "t.csv").exists() and not left(tmp_path)


@pytest.mark.parametrize("number", [signal.SIGINT, signal.SIGTERM, signal.SIGHUP])
def test_an_interrupted_run_leaves_nothing(million: Million, tmp_path: Path, number: signal.Signals) -> None:
    logs = million.all_written(tmp_path)
    before = sorted(it.name for it in tmp_path.iterdir())
    run = started("dispatch", million.folder, "--fronts", FRONTS, "--workers", 1, *logs)
    worker = at_work(run)
    os.kill(run.pid, number)
    assert ended(run, 128 + number) == "hsp: interrupted; nothing was written\n"
    assert sorted(it.name for it in tmp_path.iterdir()) == before
    assert not Path(f"/proc/{worker}").exists()


def listening(process: int) -> set[str]:
    """The addresses at which a process listens, as the kernel writes them."""
    links = []
    for it in Path(f"/proc/{process}/fd").iterdir():
        with contextlib.suppress(OSError):
            links.append(os.readlink(it))
    own = {it.removeprefix("socket:[").removesuffix("]") for it in links}
    rows = [row.split() for name in ("tcp", "tcp6") for row in Path(f"/proc/net/{name}").read_text().splitlines()[1:]]
    return {row[1].partition(":")[0] for row in rows if row[3] == "0A" and row[9] in own}


def test_a_machine_by_itself_listens_on_the_loopback_address_only(million: Million, tmp_path: Path) -> None:
    logs = million.all_written(tmp_path)
    run = started("dispatch", million.folder, "--fronts", FRONTS, "--workers", 2, *logs)
    at_work(run)
    processes = [it for it in children(run.pid) if named(it, "distributed.cli")]
    found = [listening(it) for it in processes]
    run.send_signal(signal.SIGINT)
    ended(run, 130)
    assert len(found) == 3 and all(found), found
    assert set.union(*found) == {"0100007F"}


@pytest.mark.parametrize("damage", ["gzip", "xz", "xz inside", "bzip2"])
def test_a_damaged_log_is_named_and_not_tried_again(
    million: Million, tmp_path: Path, damage: str, worker: list[str]
) -> None:
    pack = {"gzip": gzip.compress, "bzip2": bz2.compress}.get(damage, lzma.compress)
    for name, header, begin in (("front", b"region,handle\n", b""), ("all", b"front,region,handle\n", b"0,")):
        octets = pack(header + b"".join(b"%beu,20.500.1/%d\n" % (begin, it) for it in range(50_000)))
        middle = len(octets) // 2
        octets = octets[:middle] + (b"damage" + octets[middle + 6 :] if damage == "xz inside" else b"")
        (tmp_path / name).write_bytes(octets)
    wanted = rf"{tmp_path}/{{}}: line \d+: it can't be unpacked further: .+"
    for name, word in {"gzip": ("front", f"0={tmp_path}/front"), "xz": ("all", f"{tmp_path}/all")}.items():
        if name == damage:
            said = fleet("dispatch", million.folder, *worker, "--fronts", FRONTS, word[1], status=1)
            assert re.fullmatch(f"hsp: {wanted.format(word[0])}\n", said), said
    assert sorted(it.name for it in tmp_path.iterdir()) == ["all", "front"]
    (tmp_path / "parts").mkdir()
    with pytest.raises(Unfit, match=wanted.format("all")):
        Parted(f"{tmp_path}/all", f"{tmp_path}/parts", FRONTS)
    files = files_of(million.folder)
    asked = {"fronts": FRONTS, "by_prices": False, "files": files, "front": 0, "what": "answer"}
    reply = parts.replied({**asked, "logs": [f"{tmp_path}/front"], "staged": [f"{tmp_path}/out"]})
    assert reply["status"] == 1 and re.fullmatch(wanted.format("front"), reply["fault"]), reply


def test_a_damaged_log_is_named_where_hsplan_has_ended(tmp_path: Path, monkeypatch: pytest.MonkeyPatch) -> None:
    """What waits for hsplan can't be written then, which hides no fault."""
    log = tmp_path / "front"
    os.mkfifo(log)

    def damage() -> None:
        with log.open("wb", buffering=0) as pipe:
            pipe.write(b"BZh9")
            time.sleep(0.3)
            pipe.write(b"damage")

    monkeypatch.setenv("HSPLAN", "/bin/true")
    writer = threading.Thread(target=damage)
    writer.start()
    asked = {"fronts": FRONTS, "by_prices": False, "files": {}, "front": 0, "what": "answer"}
    reply = parts.replied({**asked, "logs": [str(log)], "staged": [f"{tmp_path}/out"]})
    writer.join()
    assert reply["status"] == 1, reply
    assert re.fullmatch(rf"{log}: line 1: it can't be unpacked further: .+", reply["fault"]), reply


def test_a_scheduler_that_goes_away_is_one_line(million: Million, tmp_path: Path) -> None:
    logs = million.all_written(tmp_path)
    run = started("dispatch", million.folder, "--fronts", FRONTS, "--workers", 1, *logs)
    at_work(run)
    scheduler = next(it for it in children(run.pid) if named(it, "dask_scheduler"))
    os.kill(scheduler, signal.SIGKILL)
    said = ended(run, 5)
    assert said.startswith("hsp: the scheduler of this machine has ended") and said.count("\n") == 1
    assert not list(tmp_path.glob("*.answers*"))


def test_a_refused_port_is_no_scheduler_at_once(million: Million, tmp_path: Path) -> None:
    """No wait helps where nothing listens, so it isn't waited for a minute, which is the patience that isn't given."""
    begun = time.monotonic()
    words = ("--scheduler", "tcp://127.0.0.1:9")
    said = fleet("dispatch", million.folder, "--fronts", FRONTS, *words, *million.all_written(tmp_path), status=5)
    assert said == "hsp: no scheduler answers at tcp://127.0.0.1:9: connection refused\n"
    assert time.monotonic() - begun < 30


def test_a_plan_that_is_older_than_its_files(million: Million, tmp_path: Path) -> None:
    """It is named before any worker is asked, with what to do, as by the doctor."""
    folder = tmp_path / "service"
    shutil.copytree(million.folder, folder, ignore=shutil.ignore_patterns("front-*", "*.answers"))
    log = million.written(tmp_path, 0)
    capacity = folder / "capacity.csv"
    head, first, *rest = capacity.read_text().splitlines(True)
    plan = folder / "plan.txt"
    capacity.write_text(head + first.rpartition(",")[0] + ",0\n" + "".join(rest))
    os.utime(capacity, (os.stat(plan).st_mtime + 10,) * 2)
    said = fleet("dispatch", folder, "--fronts", FRONTS, f"0={log}", status=1)
    rest = f"hsp plan {folder}; hsplan check says no "
    assert said.startswith(f"hsp: {plan}: the plan is older than capacity.csv: {rest}")
    os.utime(capacity, (os.stat(plan).st_mtime - 10,) * 2)
    said = fleet("dispatch", folder, "--fronts", FRONTS, f"0={log}", status=1)
    assert said.startswith(f"hsp: {plan}: the plan isn't one of these files: {rest}")


@pytest.fixture
def small_disk(tmp_path: Path) -> Iterator[Path]:
    """A disk of 1 MiB, where the machine allows one."""
    disk = tmp_path / "disk"
    disk.mkdir()
    if subprocess.run(["mount", "-t", "tmpfs", "-o", "size=1m", "tmpfs", str(disk)], capture_output=True).returncode:
        pytest.skip("no disk can be mounted here")
    yield disk
    subprocess.run(["umount", str(disk)], check=True)


def test_a_full_disk_is_one_line(million: Million, tmp_path: Path, small_disk: Path, worker: list[str]) -> None:
    log = million.written(tmp_path, 0)
    own = small_disk / "front-0.csv"
    own.symlink_to(log)
    said = fleet("dispatch", million.folder, "--fronts", FRONTS, *worker, f"0={own}", status=5)
    assert said.count("\n") == 1 and str(own) in said
    assert [it.name for it in small_disk.iterdir()] == ["front-0.csv"]


def keys_by_recipe(folder: Path) -> list[str]:
    """Makes an authority and a key by the commands of the document. Returns the options for Dask."""
    recipe = next(it for it in DOCUMENT.split("```sh\n") if it.startswith("openssl")).split("```")[0]
    subprocess.run(["bash", "-e", "-c", recipe], cwd=folder, check=True, capture_output=True)
    names = {"--tls-ca-file": "ca.pem", "--tls-cert": "cert.pem", "--tls-key": "key.pem"}
    return ["--protocol", "tls", *(word for option, it in names.items() for word in (option, str(folder / it)))]


@pytest.fixture
def cluster(tmp_path: Path, request: pytest.FixtureRequest) -> Iterator[Cluster]:
    keys = keys_by_recipe(tmp_path) if getattr(request, "param", "") == "tls" else []
    with clusters.running(tmp_path, keys) as found:
        yield found


def test_a_worker_whose_program_has_one_octet_more_gets_no_part(
    million: Million, cluster: Cluster, tmp_path: Path
) -> None:
    paths = {}
    for name, more in (("good", b""), ("bad", b"\n")):
        folder = tmp_path / f"bin-{name}"
        folder.mkdir()
        for it in ("HSPLAN", "HSPLAN_STREAM"):
            program = folder / it.lower().replace("_", "-")
            program.write_bytes(Path(os.environ[it]).read_bytes() + (more if it == "HSPLAN" else b""))
            program.chmod(0o755)
        paths[name] = f"{folder}:{os.environ['PATH']}"
    log = million.written(tmp_path, 3)
    options = ["--fronts", FRONTS, "--scheduler", cluster.address, "--installed", "--patience", 30]
    cluster.worker("bad", paths["bad"])
    said = fleet("dispatch", million.folder, *options, f"3={log}", status=3)
    reason = f"gets no part: {tmp_path}/bin-bad/hsplan has another SHA-256 sum\n"
    assert reason in said and said.endswith("hsp: no worker is fit\n") and said.count("\n") == 2
    cluster.worker("good", paths["good"])
    log_of = tmp_path / "dask_scheduler.log"
    until(lambda: log_of.read_text().count("Starting worker compute stream") >= 2)
    said = fleet("dispatch", million.folder, *options, f"3@127.0.0.1={log}", status=0)
    assert reason in said and (tmp_path / "front-3.csv.answers").read_bytes() == million.of_front[3]
    said = fleet("dispatch", million.folder, *options, f"3@192.0.2.1={log}", status=3)
    assert "no fit worker is at 192.0.2.1" in said
    assert not left(tmp_path)


def begun(cluster: Cluster, folder: Path) -> "subprocess.Popen[str]":
    """A run of a cluster that has begun a part of a log in a folder. It is to write a table `t`, and to keep rows."""
    cluster.worker("own", os.environ["PATH"])
    log = folder / "log"
    log.write_text("".join(f"{server_line(it)}\n" for it in asked(10_000, 92)) * 40)
    options = ["--regions", regions_file(folder), "--scheduler", cluster.address, "--keep", ".rows"]
    run = started("demand", log, *options, "-o", folder / "t")
    until(lambda: left(folder) or run.poll() is not None, pause=0.01)
    assert left(folder)
    return run


@pytest.mark.parametrize("number", [signal.SIGINT, signal.SIGKILL])
def test_a_cluster_ends_the_parts_of_a_run_that_is_gone(
    cluster: Cluster, tmp_path: Path, number: signal.Signals
) -> None:
    run = begun(cluster, tmp_path)
    os.kill(run.pid, number)
    run.communicate(timeout=60)
    assert run.returncode == (130 if number == signal.SIGINT else -signal.SIGKILL)
    until(lambda: not left(tmp_path), 20)
    assert not (tmp_path / "t").exists() and not (tmp_path / "log.rows").exists()


@pytest.mark.parametrize("cluster", ["tls"], indirect=True)
def test_a_cluster_with_keys_answers_who_has_one(million: Million, cluster: Cluster, tmp_path: Path) -> None:
    cluster.worker("own", os.environ["PATH"])
    log = million.written(tmp_path, 1)
    options = ["--fronts", FRONTS, "--scheduler", cluster.address, "--patience", 10]
    keys = ["--tls-ca", tmp_path / "ca.pem", "--tls-cert", tmp_path / "cert.pem", "--tls-key", tmp_path / "key.pem"]
    fleet("dispatch", million.folder, *options, *keys, f"1={log}")
    assert cluster.address.startswith("tls://")
    assert (tmp_path / "front-1.csv.answers").read_bytes() == million.of_front[1]
    (tmp_path / "other").mkdir()
    keys_by_recipe(tmp_path / "other")
    strange = [*keys[:2], *(it if "--" in str(it) else tmp_path / "other" / Path(it).name for it in keys[2:])]
    said = fleet("dispatch", million.folder, *options, *strange, f"1={log}", status=5)
    assert said.startswith(f"hsp: no scheduler answers at {cluster.address}: ") and said.count("\n") == 1
    absent = [*keys[:-1], tmp_path / "absent.pem"]
    said = fleet("dispatch", million.folder, *options, *absent, f"1={log}", status=5)
    assert said == f"hsp: {absent[-1]}: No such file or directory\n"


def test_a_cluster_whose_scheduler_goes_away_is_one_line(cluster: Cluster, tmp_path: Path) -> None:
    run = begun(cluster, tmp_path)
    os.kill(cluster.scheduler, signal.SIGKILL)
    said = ended(run, 5)
    assert said.startswith("hsp: the scheduler has ") and said.count("\n") == 1 and not (tmp_path / "t").exists()


def test_a_file_is_published_once_and_nothing_old_stands_for_it(tmp_path: Path) -> None:
    path = str(tmp_path / "a.answers")
    Path(path).write_text("of an earlier run")
    own = Path(remote.staged(path, "run", "attempt"))
    own.write_text("new")
    inodes = [own.stat().st_ino]
    for _ in range(2):
        remote.publish("run", [path], "attempt", inodes)
        assert Path(path).read_text() == "new" and not left(tmp_path)
    changed(Path(path), b"of another run")
    with pytest.raises(FileNotFoundError):
        remote.publish("run", [path], "attempt", [inodes[0] + 10**9])


def test_the_units_for_systemd_are_read_without_a_warning(tmp_path: Path) -> None:
    if not shutil.which("systemd-analyze"):
        pytest.skip("no systemd-analyze is here")
    files = [tmp_path / f"fleet-{it}.service" for it in ("scheduler", "worker")]
    for file, text in zip(files, DOCUMENT.split("```ini\n")[1:], strict=True):
        file.write_text(text.split("```")[0])
    ended = subprocess.run(["systemd-analyze", "verify", *files], capture_output=True, text=True)
    assert ended.returncode == 0
    assert not [it for it in ended.stderr.splitlines() if "fleet-" in it]


def test_gnu_parallel_answers_the_same(million: Million, tmp_path: Path) -> None:
    if not shutil.which("parallel"):
        pytest.skip("no GNU parallel is here")
    for at in range(FRONTS):
        million.written(tmp_path, at)
    recipe = DOCUMENT.split("```sh parallel\n")[1].split("```")[0]
    environment = {**os.environ, "DIR": str(million.folder), "PATH": f"{tmp_path}/bin:{os.environ['PATH']}"}
    (tmp_path / "bin").mkdir()
    for it in ("HSPLAN", "HSPLAN_STREAM"):
        (tmp_path / "bin" / it.lower().replace("_", "-")).symlink_to(os.environ[it])
    done = subprocess.run(["bash", "-e", "-c", recipe], cwd=tmp_path, env=environment, capture_output=True, text=True)
    assert done.returncode == 0, done.stderr
    assert million.are_answered(tmp_path)


def test_progress_is_shown_on_a_terminal(million: Million, tmp_path: Path, worker: list[str]) -> None:
    log = million.written(tmp_path, 0)
    own, its = os.openpty()
    run = started("dispatch", million.folder, "--fronts", FRONTS, *worker, f"0={log}", stderr=its)
    out, _ = run.communicate(timeout=60)
    os.close(its)
    shown = os.read(own, 1 << 16).decode()
    os.close(own)
    assert run.returncode == 0 and " rows: " in out
    assert "1 of 1 front, " in shown and " rows a second, 1 worker" in shown and shown.endswith("\r\x1b[K")


def test_a_fleet_needs_its_package(million: Million, monkeypatch: pytest.MonkeyPatch) -> None:
    monkeypatch.setitem(sys.modules, "distributed", None)
    line = invoke("fleet", "dispatch", million.folder, "--fronts", "2", "0=a", status=5).stderr
    assert line == "hsp: Python has no distributed: install it (Debian: python3-distributed)\n"


def test_a_part_passes_on_its_pairs(tmp_path: Path, monkeypatch: pytest.MonkeyPatch) -> None:
    """More of them than a table of demand has rows, up to a number and to their octets."""
    log = tmp_path / "log"
    (tmp_path / "n.csv").write_text("network,region\n192.0.2.0/24,eu\n")
    log.write_text("client,handle\n" + "".join(f"192.0.2.1,20.500.1/{at % 9000}\n" for at in range(9500)))
    form = {"form": parts.fields_of_form(Form()), "span": [Span().first, Span().last], "by": "", "elsewhere": None}
    request = {**form, "what": "count", "log": str(log), "staged": [], "files": {"networks": f"{tmp_path}/n.csv"}}
    reply = parts.replied(request)
    assert "fault" not in reply, reply
    counts = tables.counts_in(str(reply["table"]))
    assert counts == {(b"eu", b"20.500.1/%d" % at): 2 if at < 500 else 1 for at in range(9000)}
    assert list(counts)[8999] == (b"eu", b"20.500.1/8999") and reply["asked"] == 9500
    for name, most in (("MOST_PAIRS", 8999), ("MOST_HELD", 9000 * 200)):
        with monkeypatch.context() as patched:
            patched.setattr(tables, name, most)
            fault = parts.replied(request)
        assert fault["status"] == 1 and fault["fault"].startswith(f"{log}: a part passes on ")
        assert fault["fault"].endswith("; hsp demand counts any number")


def test_a_new_program_that_is_held_for_a_moment_is_tried_again(monkeypatch: pytest.MonkeyPatch) -> None:
    faults = [OSError(errno.ETXTBSY, "Text file busy")] * 3

    def run(*_: object, **__: object) -> "subprocess.CompletedProcess[bytes]":
        if faults:
            raise faults.pop()
        return subprocess.CompletedProcess([], 0)

    monkeypatch.setattr(remote.subprocess, "run", run)
    assert remote._tried(["hsplan"]) is None and not faults
    faults.append(PermissionError(errno.EACCES, "Permission denied"))
    assert remote._tried(["hsplan"]) == "doesn't run: Permission denied"


def test_a_machine_without_a_key_ends_at_once(monkeypatch: pytest.MonkeyPatch, tmp_path: Path) -> None:
    monkeypatch.setenv("TMPDIR", str(tmp_path))
    monkeypatch.setattr("tempfile.tempdir", None)
    monkeypatch.setattr(local, "KEY", "false")
    with pytest.raises(local.Gone, match="openssl made no key"):
        local.Local(1)
    assert not list(tmp_path.iterdir())
