"""hsp beside programs that print what they shouldn't, and files that change or can't be read."""

import contextlib
import errno
import os
from collections.abc import Callable
from pathlib import Path
from types import SimpleNamespace
from typing import Any

import pytest

from hsp.base import files, signals

from hsp.intake import forms, logs, regions

from hsp.base.programs import Missing, Programs
from hsp.base.unfit import Unfit
from hsp.commands import shared
from hsp.doctor import examined, examined_words, faults, guard
from hsp.doctor.question import Said, said_of
from hsp.fleet import demand, dispatch
from hsp.fleet.remote import Mark, Seal
from hsp.plans import service

from conftest import TOP, Example
from test_sites import invoke
from services import OTHER, TWO_IN_ONE, Place, host, written


@pytest.fixture
def odd(tmp_path: Path, monkeypatch: pytest.MonkeyPatch) -> Callable[[str, str], None]:
    """Puts a script before a program: it has the real one in REAL."""

    def put(name: str, script: str) -> None:
        key = name.upper().replace("-", "_")
        path = tmp_path / f"odd-{name}"
        path.write_text(f'#!/bin/sh\nREAL={os.environ[key]}\n{script}\nexec $REAL "$@"\n')
        path.chmod(0o755)
        monkeypatch.setenv(key, str(path))

    return put


def test_a_plan_that_its_own_checker_refuses(folder: Path, odd: Callable[[str, str], None]) -> None:
    odd("hsplan", '[ "$1" = check ] && { echo "no 5 Cost"; exit 3; }')
    line = "hsp: hsplan check says no 5 Cost to hsplan's own plan: please report this with your files\n"
    networks = TOP / "examples" / "bring-in" / "networks.csv"
    into = ["--into", folder / "proxy", "--socket", "/tmp/admin.sock"]
    for words in (["plan"], ["view"], ["export", "haproxy", "--regions", networks, *into]):
        said = invoke(*words, folder, status=5)
        assert said.stdout == "" and said.stderr == line
    assert not (folder / "plan.txt").exists() and not (folder / "proxy").exists()
    assert (folder / "plan.html").read_bytes() == (TOP / "examples" / "two-sites" / "plan.html").read_bytes()


def test_reports_that_differ_from_the_plan(example: Example, odd: Callable[[str, str], None]) -> None:
    odd("hsplan", '[ "$1" = report ] && { $REAL "$@" | sed "s/ 1049 / 1050 /"; exit 0; }')
    line = "hsp: the uses by place differ from hsplan's report of loads: please report this with your files\n"
    assert invoke("plan", example("two-sites"), status=5).stderr == line


def test_programs_that_print_nothing(example: Example, odd: Callable[[str, str], None]) -> None:
    odd("hsplan-stream", '[ "$1" = answer ] && exit 0')
    with pytest.raises(Missing, match="^hsplan-stream answered 0 of 2 rows: please report this with your log$"):
        Programs().answers_without_sites(b"region,handle\nany,20.1/a\nany,20.1/b\n", 2)
    odd("hsplan", '[ "$1" = plan ] && { echo what; exit 0; }')
    assert "printed no plan: is it hsplan?" in invoke("plan", example("two-sites"), status=5).stderr


def test_files_that_only_hsplan_can_not_read(example: Example, odd: Callable[[str, str], None]) -> None:
    """Nothing is wrong with any of them by itself."""
    odd("hsplan", 'echo "hsplan: read failed" >&2; exit 5')
    (only,) = examined(str(example("two-sites")), Programs(), {}).findings
    assert (only.message, only.said) == ("a file can't be read", "read failed")
    assert only.remedy == "look at the files one by one: cat FILE > /dev/null"
    assert only.why == "a file that changes, or a disk that fails"


def test_words_that_can_not_be_explained_in_time(example: Example, monkeypatch: pytest.MonkeyPatch) -> None:
    monkeypatch.chdir(example("two-sites"))
    monkeypatch.setattr(guard, "SECONDS", 0.0)
    (only,) = (found := examined_words(["plan", "--settings", "settings.toml"], Programs())).findings
    assert (found.is_cut_short, found.status, only.message, only.said) == (True, 2, "hsplan says Usage", "Usage")
    whole = examined_words(["locate", "--settings", "settings.toml", "20.1/a"], Programs())
    assert (whole.findings, whole.status, whole.is_cut_short) == ([], 0, True)


def test_what_is_no_line_of_hsplan() -> None:
    assert said_of(7, "?!") == Said(7, "?!") and said_of(1, "") == Said(1, "")
    none: Any = SimpleNamespace(files={})
    assert faults._of_log(none, Said(1, "log: Strange", "log", "Strange")) is None
    assert faults._of_table(none, Said(1, "log: Header", "log", "Header")) is None


def test_the_memory_of_a_process_that_has_ended() -> None:
    child = os.fork()
    if not child:
        os._exit(0)
    os.waitpid(child, 0)
    assert guard._octets(child) == 0 and guard._octets(os.getpid()) > 1_000_000


def test_a_file_that_may_not_be_read(folder: Path, monkeypatch: pytest.MonkeyPatch) -> None:
    monkeypatch.setattr("hsp.doctor.file_faults.os.access", lambda path, mode: False)
    monkeypatch.setattr("hsp.doctor.question.read_text", lambda path: (_ for _ in ()).throw(PermissionError(13, "no")))
    found = examined(str(folder), Programs(), {"demand": str(folder / "none.csv")})
    closed = [it for it in found.findings if it.message == "you may not read this file"]
    assert closed and closed[0].remedy == f"chmod +r {closed[0].file}, or run as its owner"


def test_folders_that_are_not_there_lock_nothing(tmp_path: Path) -> None:
    with files.locked([str(tmp_path / "none")]):
        assert files._locked == set()


def test_progress_of_plans_at_a_terminal(monkeypatch: pytest.MonkeyPatch) -> None:
    lines: list[str] = []
    monkeypatch.setattr(shared, "show_progress", lines.append)
    monkeypatch.setattr(shared.sys.stderr, "isatty", lambda: True, raising=False)
    for number in (7, 8):
        done = shared.progress(number)
        for _ in range(number):
            done()
    assert lines == [f"planning: {at} of 8" for at in range(1, 8)] + [""]


@pytest.mark.parametrize("words", ["plan --no-save", "view", "whatif", "whatif --server paris:2"])
def test_as_many_plans_are_counted_as_are_made(example: Example, monkeypatch: pytest.MonkeyPatch, words: str) -> None:
    said: list[int] = []
    command, *options = words.split()
    module = f"hsp.commands.{command}"
    monkeypatch.setattr(f"{module}.progress", lambda number: said.append(number) or (lambda: said.append(-1)))
    invoke(command, example("two-sites"), *options)
    assert said[0] > 0 == sum(said) and said.count(-1) == len(said) - 1


def test_a_run_of_one_query_has_a_table_and_one_of_none_is_refused(
    tmp_path: Path, monkeypatch: pytest.MonkeyPatch
) -> None:
    (tmp_path / "n.csv").write_text("network,region\n192.0.2.0/24,eu\n")
    head = {"skipped": {"counts": {}, "first": {}}, "asked": 1}
    whole = {**head, "table": "region,handle,count\neu,20.1/a,1\n"}
    engine = SimpleNamespace(
        ship=lambda *_: None,
        submit=lambda *_, **__: whole,
        head=lambda _: head,
        outcomes=lambda parts, *_: parts,
        publish=lambda _: None,
    )
    monkeypatch.setattr(demand, "session", lambda *_: contextlib.nullcontext(engine))
    assert invoke("fleet", "demand", "a.csv", "--regions", tmp_path / "n.csv").stdout == whole["table"]
    whole["table"] = "region,handle,count\n"
    said = invoke("fleet", "demand", "a.csv", "--regions", tmp_path / "n.csv", status=1).stderr
    assert said == "hsp: no query is in a.csv: it has no line\n"


def test_signals_of_several_steps(monkeypatch: pytest.MonkeyPatch) -> None:
    raised: list[int] = []
    monkeypatch.setattr(signals.signal, "raise_signal", raised.append)
    with signals.uncut():
        with signals.uncut():
            signals._late.append(15)
        assert raised == []
    assert (raised, signals._late, signals._depth) == ([15], [], [])


def test_costs_that_are_no_table(tmp_path: Path) -> None:
    """Nothing is written then."""
    (tmp_path / "n.csv").write_text("network,region\n192.0.2.0/24,eu\n")
    (tmp_path / "log").write_text("client,handle\n192.0.2.1,20.1/a\n")
    (tmp_path / "costs.csv").write_bytes(b"region,site,cost\n\xff,a,1\n")
    words = ["demand", tmp_path / "log", "--regions", tmp_path / "n.csv", "--into", tmp_path]
    assert invoke(*words, status=1).stderr.startswith(f"hsp: {tmp_path}/costs.csv: not a table: ")
    assert not (tmp_path / "demand.csv").exists()


def test_files_of_a_folder_that_are_absent(tmp_path: Path) -> None:
    (tmp_path / "cost.csv").touch()
    names = [str(tmp_path / it) for it in service.NAMES.values()]
    assert service._absent("DIR", names) == ["DIR: none of settings.toml, demand.csv, costs.csv, capacity.csv is here"]


class Odd:
    """A file whose reads fail."""

    def __init__(self, fault: OSError) -> None:
        self.fault = fault

    def __enter__(self) -> "Odd":
        return self

    def __exit__(self, *_: object) -> None:
        pass

    def read1(self, size: int) -> bytes:
        raise self.fault


def test_a_disk_that_fails_while_a_log_is_read(monkeypatch: pytest.MonkeyPatch) -> None:
    monkeypatch.setattr(logs, "opened", lambda path, watch: Odd(OSError(errno.EIO, "Input/output error")))
    with pytest.raises(OSError, match="Input/output error") as fault:
        list(logs.blocks("log", [3]))
    assert (fault.value.filename, fault.value.errno) == ("log", errno.EIO)
    monkeypatch.setattr(logs, "opened", lambda path, watch: Odd(OSError("Invalid data stream")))
    with pytest.raises(Unfit, match="^log: line 3: it can't be unpacked further: Invalid data stream$"):
        list(logs.blocks("log", [3]))


def test_requests_that_end_in_a_backslash() -> None:
    take = forms.Form("proxy").take(b"")
    line = b'10.0.0.1 - - [x] "GET /20.1/a\\"b HTTP/1.1" 302 -'
    assert take(line) == (b"10.0.0.1", b'20.1/a"b')
    for odd in (b'10.0.0.1 - - [x] "GET /20.1/a\\"', b'10.0.0.1 - - [x "GET /a" 1', b'10.0.0.1 - - [x] "GET /a'):
        with pytest.raises(forms.Odd):
            take(odd)


class Reader:
    """A database that is damaged, or of IPv4 only."""

    def __init__(self, fault: Exception) -> None:
        self.fault = fault

    def get(self, address: str) -> Any:
        raise self.fault


def test_a_database_that_is_damaged_inside() -> None:
    own = regions.Database.__new__(regions.Database)
    own.__dict__.update(path="db", by=["a"], elsewhere=b"far", _damaged=(IndexError,))
    own._reader = Reader(IndexError("end"))
    with pytest.raises(Unfit, match="^db: damaged: end$"):
        own.seek(b"10.0.0.1")
    own._reader = Reader(ValueError("an address of IPv6"))
    assert own.seek(b"2001:db8::1") == b"far" and own.seek(b"x") == regions.NO_ADDRESS
    own.elsewhere = None
    assert own.seek(b"2001:db8::1") == regions.NO_REGION


def test_logs_that_fleet_does_not_count() -> None:
    def log(path: str, host: str | None = None, *kept: str) -> Any:
        return SimpleNamespace(path=path, host=host, kept=list(kept))

    for own, line in (
        ([log("-")], "standard input isn't a log that workers can read"),
        ([log("/a", None, "/k"), log("/b", None, "/k")], "a log is given twice, and its queries have one file"),
        ([log("/a", "h"), log("/b", "h", "/a")], "/a: it would be read and written"),
    ):
        with pytest.raises(Unfit, match=f"^{line}$"):
            demand._checked(own, "regions", None, None)
    demand._checked([log("/a", "h", "/k"), log("/b", "i", "/k"), log("/a", "i", "/b2")], "none", None, None)


def test_a_log_of_all_that_can_not_be_parted(tmp_path: Path) -> None:
    own: Any = SimpleNamespace(logs=["log"], targets=[])
    with pytest.raises(Unfit, match="^log: by prices each line has to begin with a front below 3$"):
        dispatch._in_one(SimpleNamespace(), own, {"by_prices": True, "fronts": 3})  # type: ignore[arg-type]
    path = tmp_path / "log"
    path.write_text("front,region,handle\n1,eu,a\n0,eu,b\n1,eu,c\n")
    parted: Any = SimpleNamespace(path=str(path), row=lambda front, row: {(0, 0): 1, (1, 1): 2}[front, row])
    with pytest.raises(Unfit, match=f"^{path}: line 3: BadHandle$"):
        dispatch._fine(parted, [{"row": 0, "word": "BadHandle"}, {"row": 1, "word": "Fields"}])
    with pytest.raises(Unfit, match="^mine$"):
        dispatch._fine(parted, [{"sums": {}}, {"fault": "mine"}])
    dispatch._fine(parted, [{"sums": {}}])


def test_a_worker_whose_disk_is_full() -> None:
    import asyncio

    async def set_resources(**more: int) -> None:
        resources.update(more)

    resources: dict[str, int] = {}
    state = SimpleNamespace(nthreads=2)
    worker = SimpleNamespace(local_directory="/dev/null", state=state, set_resources=set_resources)
    mark = Mark({}, Seal({}, False))
    asyncio.run(mark.setup(worker))
    assert resources == {mark.name: 0} and "Not a directory" in worker.hsp_fleet_refused[mark.name]


def test_a_shortage_that_no_room_ends(tmp_path: Path) -> None:
    """Machines are full, so room at servers doesn't help, and nothing is bought."""
    folder = written(
        tmp_path / "s",
        settings=TWO_IN_ONE.block() + OTHER.block() + host("192.0.2.1", 3) + host("198.51.100.1", 4),
        demand="".join(f"eu,20.500.1/item-{number},1\n" for number in range(10)),
        costs="eu,north,1\neu,south,100\n",
        capacity="north,1,9\nnorth,2,9\nsouth,1,9\n",
    )
    lines = invoke("plan", folder, status=3).stdout.splitlines()
    assert lines[1].startswith("short 3 queries can't be served") and not [it for it in lines if " more:" in it]
    assert lines[-1] == "buy   at least room for 3 queries more at these servers"


def test_more_servers_than_hsplan_takes_and_many_without_capacity(tmp_path: Path) -> None:
    addresses = [[f"10.{at}.{it // 250}.{it % 250 + 1}" for it in range(600)] for at in range(2)]
    many = [Place(name, 2, own) for name, own in zip("ab", addresses)]
    folder = written(
        tmp_path / "s",
        settings="".join(it.block() for it in many),
        demand="eu,20.1/a,1\n",
        costs="eu,a,1\neu,b,2\n",
        capacity="",
    )
    first = examined(str(folder), Programs(), {}).errors[0]
    assert first.message == "all sites together have more servers than hsplan takes"
    assert first.remedy == "plan in parts; 1,024 servers are the limit"
    written(folder, settings=Place("a", 2, [f"192.0.2.{it}" for it in range(1, 12)]).block(), costs="eu,a,1\n")
    (folder / "capacity.csv").write_text("site,server_id,capacity\na,1,5\n")
    said = invoke("doctor", folder, status=1).stdout
    assert "error: server 2 of a has no capacity\n" in said
    assert said.count("  and  server ") == 8 and "  and  1 more of this kind\n" in said
