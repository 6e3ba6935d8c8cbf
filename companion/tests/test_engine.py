"""Parts of hsp fleet by themselves: what a run makes of a cluster that answers, waits, fails or goes away."""

import asyncio
import contextlib
import errno
import json
import os
import socket
import subprocess
import sys
import time
from pathlib import Path
from types import SimpleNamespace
from typing import Any

import pytest

from hsp.base.programs import Missing, Refused
from hsp.base.unfit import Unfit
from hsp.fleet import answers, engine, local, parts, progress, remote, session
from hsp.fleet.engine import NOT_YET, ByValue, Engine, Place, Unfinished
from hsp.fleet.local import Gone, Local
from hsp.fleet.split import Parted


class Future:
    """A part that ends after so many looks at it, by a reply or a fault."""

    def __init__(self, end: Any, status: str = "finished", looks: int = 0) -> None:
        self.end, self._status, self.looks = end, status, looks
        self.timeouts: list[float] = []

    @property
    def status(self) -> str:
        self.looks -= 1
        return "pending" if self.looks >= 0 else self._status

    def result(self, timeout: float) -> Any:
        self.timeouts.append(timeout)
        if isinstance(self.end, BaseException):
            raise self.end
        return self.end


class Client:
    """A client of workers by their addresses."""

    def __init__(self, **workers: dict[str, Any]) -> None:
        self.status, self.found = "running", workers
        self.cancelled: list[Any] = []
        self.submitted: list[dict[str, Any]] = []
        self.asked: list[Any] = []
        self.is_closed = False

    def scheduler_info(self) -> dict[str, Any]:
        return {"workers": self.found}

    def cancel(self, futures: list[Any], force: bool) -> None:
        assert force
        self.cancelled += futures

    def submit(self, function: Any, *arguments: Any, **more: Any) -> Future:
        self.submitted.append({"function": function, "arguments": arguments, **more})
        return Future({})

    def close(self, timeout: float) -> None:
        self.is_closed = True


def fit(host: str = "10.0.0.1", mark: int = 1, **more: Any) -> dict[str, Any]:
    return {"host": host, "resources": {"mark": mark}, **more}


def made(client: Client, patience: float = 60, **more: Any) -> Engine:
    found = Engine.__new__(Engine)
    own = {"_client": client, "_place": Place(patience=patience), "local": None, "_hosts": set(), "_futures": []}
    seal = SimpleNamespace(mark="mark")
    found.__dict__.update({**own, "remote": remote, "run": "run", "seal": seal, "_sent": {}, **more})
    return found


class KilledWorker(Exception):
    """As Dask names it."""


@pytest.mark.parametrize(
    "future, status, line",
    [
        (Future(MemoryError()), 4, "out of memory"),
        (Future(OSError("no room")), 5, "no room"),
        (Future(KilledWorker("x")), 5, "a part of the run has killed each worker that it ran on"),
        (Future(ValueError("odd")), 5, "a part of the run failed: ValueError: odd"),
    ],
)
def test_a_part_that_fails_ends_the_run(future: Future, status: int, line: str) -> None:
    with pytest.raises(Unfinished) as fault:
        made(Client())._reply(future)
    assert (fault.value.status, str(fault.value)) == (status, line)


def test_a_part_that_is_lost_or_whose_worker_has_gone() -> None:
    for status in ("cancelled", "lost"):
        with pytest.raises(Gone, match="^the scheduler has lost a part of the run$"):
            made(Client())._reply(Future({}, status))
    assert made(Client())._reply(Future(TimeoutError())) is NOT_YET
    future = Future({"rows": 1})
    assert made(Client())._reply(future) == {"rows": 1} and future.timeouts == [5]
    away = Client()
    away.status = "closed"
    for future in (Future({}, "lost"), Future(ValueError("odd"))):
        with pytest.raises(Gone, match="^the scheduler has gone away$"):
            made(away)._reply(future)


def test_replies_come_in_the_order_of_their_parts(monkeypatch: pytest.MonkeyPatch) -> None:
    shown: list[int] = []
    pauses: list[float] = []
    monkeypatch.setattr(engine.time, "sleep", pauses.append)
    futures = [Future({"n": 1}, looks=3), Future({"n": 2}), Future({"n": 3}, looks=1)]
    replies = made(Client()).outcomes(futures, lambda done: shown.append(len(done)))
    assert replies == [{"n": 1}, {"n": 2}, {"n": 3}] and shown[0] == 1 and shown[-1] == 3 and shown == sorted(shown)
    assert made(Client()).outcomes([]) == [] and pauses == [0.02] * 4


def test_the_first_fault_in_the_order_of_parts_is_reported() -> None:
    """What comes later is let go, and what comes before is waited for."""
    client = Client()
    futures = [Future({"n": 1}, looks=2), Future({"fault": "second", "status": 1}), Future({"n": 3}, looks=9)]
    with pytest.raises(Unfinished) as fault:
        made(client).outcomes(futures)
    assert (fault.value.status, str(fault.value), client.cancelled) == (1, "second", futures[2:])
    client = Client()
    futures = [Future({"fault": "first", "status": 5}, looks=2), Future({"fault": "second", "status": 1})]
    with pytest.raises(Unfinished, match="^first$"):
        made(client).outcomes(futures)
    assert client.cancelled == [futures[1]]
    every = [{"fault": "second", "status": 1}, {"n": 2}]
    assert made(Client()).outcomes([Future(it) for it in every], every=True) == every


def test_a_run_waits_for_fit_workers_only_so_long(monkeypatch: pytest.MonkeyPatch) -> None:
    now = 100.0
    monkeypatch.setattr(engine.time, "monotonic", lambda: now)
    own = made(Client(a=fit(), b=fit("10.0.0.2", 0)), 10)
    assert own._fit(98.1) == 98.1 and own._fit(98.0) == now and own._fit(0.0) == now
    own._hosts = {"10.0.0.1"}
    assert own._fit(90.0) == now
    own._hosts = {"10.0.0.2", "10.0.0.3"}
    assert own._fit(90.0) == 90.0
    with pytest.raises(Unfinished) as fault:
        own._fit(89.9)
    assert (fault.value.status, str(fault.value)) == (3, "no fit worker was there at 10.0.0.2 for 10 seconds")
    none = made(Client(b=fit("10.0.0.2", 0), c={"host": "10.0.0.1"}), 10)
    assert none._fit(90.0) == 90.0
    with pytest.raises(Unfinished, match="^no fit worker was there for 10 seconds$"):
        none._fit(89.0)


def test_the_host_of_a_log_is_one_with_a_fit_worker() -> None:
    own = made(Client(a=fit("10.0.0.1", name="one"), b=fit("127.0.0.1"), c=fit("10.0.0.3", 0)))
    assert (own.host("one"), own.host("10.0.0.1"), own.host("localhost")) == ("10.0.0.1", "10.0.0.1", "127.0.0.1")
    assert own._hosts == {"10.0.0.1", "127.0.0.1"}
    for name in ("10.0.0.3", "no.such.host.example."):
        with pytest.raises(Unfinished) as fault:
            own.host(name)
        assert (fault.value.status, str(fault.value)) == (3, f"no fit worker is at {name}")


def test_a_scheduler_that_goes_away() -> None:
    class Away(Client):
        def scheduler_info(self) -> dict[str, Any]:
            raise OSError("closed")

    with pytest.raises(Gone, match="^the scheduler has gone away$"):
        made(Away()).workers()
    tended: list[int] = []
    own = made(Client(a=fit()), local=SimpleNamespace(tend=lambda: tended.append(1)))
    assert list(own.workers()) == ["a"] and tended == [1]
    own._client.status = "connecting"
    own._alive()
    for fault, line in ((ValueError("one\ntwo"), "one"), (ValueError(), "ValueError")):
        with pytest.raises(Gone, match=f"^the scheduler has gone away: {line}$"):
            with own._asked():
                raise fault
    for own_fault in (Gone("mine"), Unfinished(3, "mine")):
        with pytest.raises(type(own_fault), match="^mine$"):
            with own._asked():
                raise own_fault


def test_whether_something_listens() -> None:
    with socket.socket() as one:
        one.bind(("127.0.0.1", 0))
        address = f"tcp://127.0.0.1:{one.getsockname()[1]}"
        assert engine.refuses(address)
        one.listen()
        assert not engine.refuses(address)
    assert not engine.refuses("tcp://127.0.0.1:x") and not engine.refuses("tcp://no.such.host.example.:1")


def test_workers_of_another_python_get_no_part(monkeypatch: pytest.MonkeyPatch) -> None:
    pauses: list[float] = []
    monkeypatch.setattr(engine.time, "sleep", pauses.append)
    own = ".".join(map(str, sys.version_info[:2]))
    versions = {
        "a": {"host": {"python": f"{own}.9.final.0"}},
        "b": {"host": {"python": "2.7.1"}},
        "c": None,
        "d": {"host": {"python": f"{own}9.1"}},
    }
    client = Client()
    client.get_versions = lambda: {"workers": versions}  # type: ignore[attr-defined]
    others = {
        name: f"its Python is {it}, not {own}" for name, it in (("b", "2.7.1"), ("c", "unknown"), ("d", f"{own}9.1"))
    }
    assert made(client)._other_pythons() == others
    tries: list[Any] = []

    def register(plugin: Any, name: str) -> None:
        tries.append(name)
        if len(tries) < 3:
            raise OSError("not yet")

    client.found = {"a": fit(), "b": fit()}
    client.register_worker_plugin = register  # type: ignore[attr-defined]
    client.run = lambda seek, workers: {it: None for it in workers}  # type: ignore[attr-defined]
    mark = SimpleNamespace(name="mark")
    assert made(client)._refusals(mark) == {**others, "a": None} and (tries, pauses) == (["mark"] * 3, [0.5] * 2)
    tries[:] = [""] * -9
    client.register_worker_plugin = lambda plugin, name: (_ for _ in ()).throw(OSError("never"))  # type: ignore[attr-defined]
    with pytest.raises(Gone, match="^the scheduler has gone away: never$"):
        made(client)._refusals(mark)


def shipped(refusals: dict[str, str | None], **more: Any) -> tuple[Engine, list[dict[str, bytes]]]:
    sent: list[dict[str, bytes]] = []
    own = made(Client(**{it: fit() for it in refusals}), 0.01, **more)
    own._refusals = lambda mark: sent.append(mark.files) or refusals  # type: ignore[method-assign, func-returns-value]
    return own, sent


def test_files_are_shipped_and_unfit_workers_are_named(capsys: pytest.CaptureFixture[str]) -> None:
    files = {"hsplan": b"a", "hsplan-stream": b"b", "plan": b"c"}
    own, sent = shipped({"w1": None, "w2": "it differs", "w0": "it is old"})
    own.ship(files)
    assert sent == [files] and capsys.readouterr().err.splitlines() == [
        "hsp: worker w0 gets no part: it is old",
        "hsp: worker w2 gets no part: it differs",
    ]
    assert own.seal.sums == {name: remote.sum_of(it) for name, it in files.items()} and not own.seal.installed
    own, sent = shipped({"w1": None})
    own.ship(files, True)
    assert sent == [{"plan": b"c"}] and own.seal.installed
    for refusals, line in (({"w": "it differs"}, "no worker is fit"), ({}, "the scheduler has no worker")):
        own, _ = shipped(refusals)  # type: ignore[arg-type]
        with pytest.raises(Unfinished) as fault:
            own.ship(files)
        assert (fault.value.status, str(fault.value)) == (3, line)


def test_parts_are_submitted_with_the_mark_of_the_run(tmp_path: Path, monkeypatch: pytest.MonkeyPatch) -> None:
    monkeypatch.chdir(tmp_path)
    own = made(Client(), seal=remote.Seal({}, False))
    first = own.submit({"what": "count"})
    own.submit({"what": "answer"}, host="h")
    own.head(first)
    one, two, three = own._client.submitted
    assert one["arguments"] == ({"what": "count", "run": "run", "at": str(tmp_path)},)
    assert three["arguments"] == (first,) and one["function"] is two["function"]
    assert [it["priority"] for it in (one, two, three)] == [0, 0, 100]
    assert [it["workers"] for it in (one, two, three)] == [None, ["h"], None]
    assert [it["key"].rpartition("-")[0] for it in (one, two, three)] == ["part-run", "part-run", "head-run"]
    assert all(it["retries"] == 2 and it["resources"] == {own.seal.mark: 1} and not it["pure"] for it in (one, two))
    assert len(own._futures) == 3 and isinstance(one["function"], ByValue)
    with pytest.raises(AssertionError):
        one["function"]()


def test_the_end_of_a_run_takes_away_what_is_not_published(tmp_path: Path) -> None:
    client = Client(a=fit("h"))
    own = made(client, seal=SimpleNamespace(mark="mark"), _futures=[1, 2])
    gone: list[str] = []
    client.unregister_worker_plugin = gone.append  # type: ignore[attr-defined]
    for name in (".log.fleet-run-1", ".log.fleet-other-1", ".logs.fleet-run-1"):
        (tmp_path / name).touch()
    own.end([([str(tmp_path / "log")], None), (["/far/log"], "h"), (["/far/log"], "nowhere")])
    assert sorted(it.name for it in tmp_path.iterdir()) == [".log.fleet-other-1", ".logs.fleet-run-1"]
    assert client.cancelled == [1, 2] and client.is_closed and gone == ["mark"]
    (swept,) = client.submitted
    assert swept["arguments"] == (["/far/log"], "run") and swept["workers"] == ["h"]
    away = Client()
    away.status = "closed"
    made(away, seal=SimpleNamespace(mark="mark"), _futures=[1]).end([])
    assert away.is_closed and not away.cancelled


class Process:
    def __init__(self, status: int | None = None) -> None:
        self.status, self.said = status, list[str]()

    def poll(self) -> int | None:
        return self.status

    def kill(self) -> None:
        self.said.append("kill")

    def wait(self) -> None:
        self.said.append("wait")


def machine(tmp_path: Path, number: int = 1, **more: Any) -> Local:
    found = Local.__new__(Local)
    own = {"number": number, "restarts": 0, "folder": str(tmp_path), "_file": str(tmp_path / "scheduler.json")}
    found.__dict__.update({**own, "_started": 0, "_scheduler": Process(), "_workers": [Process()], **more})
    return found


def test_workers_that_end_are_started_again_but_not_without_end(tmp_path: Path) -> None:
    begun: list[Process] = []
    own = machine(tmp_path, 2, _workers=[Process(1), Process()])
    own._worker = lambda: begun.append(Process(1)) or begun[-1]  # type: ignore[method-assign, assignment, func-returns-value]
    for number in range(1, 11):
        own.tend()
        assert own.restarts == len(begun) == number
    (tmp_path / "dask_worker.log").write_text("first\n\n  " + "x" * 300 + "\n \n")
    with pytest.raises(Gone) as fault:
        own.tend()
    assert str(fault.value) == "the workers of this machine end again and again: " + "x" * 200
    with pytest.raises(Gone, match="^the scheduler of this machine has ended$"):
        machine(tmp_path, _scheduler=Process(1)).tend()
    (tmp_path / "dask_scheduler.log").write_text("\n")
    with pytest.raises(Gone, match="^the scheduler of this machine has ended$"):
        machine(tmp_path, _scheduler=Process(0)).tend()


def test_the_address_of_a_scheduler_is_waited_for(tmp_path: Path) -> None:
    own = machine(tmp_path)
    begun = time.monotonic()
    with pytest.raises(Gone, match="^the scheduler of this machine didn't start within 0 seconds$"):
        own.address(0.1)
    assert time.monotonic() - begun >= 0.1
    (tmp_path / "scheduler.json").write_text("{")
    with pytest.raises(Gone):
        own.address(0.05)
    (tmp_path / "scheduler.json").write_text(json.dumps({"address": "tls://127.0.0.1:1"}))
    assert own.address(1) == "tls://127.0.0.1:1"


def test_all_processes_of_a_machine_end(tmp_path: Path) -> None:
    folder = tmp_path / "own"
    folder.mkdir()
    scheduler, workers = Process(), [Process(), Process()]
    own = machine(folder, _scheduler=scheduler, _workers=workers)
    own.close()
    assert [it.said for it in (scheduler, *workers)] == [["kill", "wait"]] * 3 and not folder.exists()
    machine(folder, _scheduler=None, _workers=[]).close()


def test_a_program_that_a_machine_lacks(monkeypatch: pytest.MonkeyPatch) -> None:
    for absent in ("setpriv", "openssl"):
        monkeypatch.setattr(local.shutil, "which", lambda name: None if name == absent else name)
        with pytest.raises(Missing, match=f"^{absent} isn't in PATH: workers of this machine need it"):
            Local(1)
    monkeypatch.setattr(engine.importlib, "import_module", lambda name: (_ for _ in ()).throw(ImportError(name)))
    with pytest.raises(Missing, match="^Python has no distributed: install it"):
        engine.needed()


def test_files_at_a_worker_are_those_of_the_client(tmp_path: Path, monkeypatch: pytest.MonkeyPatch) -> None:
    """Each differs in one way: an octet, a file that is absent, a program that fails, one that doesn't run."""
    good = b"#!/bin/sh\nexit 0\n"
    files = {"hsplan": good, "hsplan-stream": good, "plan": b"a plan"}
    sums = {name: remote.sum_of(it) for name, it in files.items()}

    def setup(files: dict[str, bytes], seal: remote.Seal) -> tuple[str | None, dict[str, int]]:
        resources: dict[str, int] = {}

        async def set_resources(**more: int) -> None:
            resources.update(more)

        state = SimpleNamespace(nthreads=3)
        worker = SimpleNamespace(local_directory=str(tmp_path), state=state, set_resources=set_resources)
        mark = remote.Mark(files, seal)
        asyncio.run(mark.setup(worker))
        reason = remote.refusal(seal.mark, worker)
        assert remote.refusal("other", worker) == "the files of the run didn't arrive"
        found = dict(resources)
        folder = tmp_path / seal.mark
        modes = {it.name: it.stat().st_mode & 0o777 for it in folder.iterdir()}
        assert modes == {name: 0o700 if name.startswith("hsplan") else 0o600 for name in files}
        asyncio.run(mark.teardown(worker))
        assert resources == {seal.mark: 0} and not folder.exists()
        return reason, found

    seal = remote.Seal(sums, False)
    assert setup(files, seal) == (None, {seal.mark: 3})
    folder = tmp_path / seal.mark
    assert setup({**files, "plan": b"b plan"}, seal) == (f"{folder}/plan has another SHA-256 sum", {seal.mark: 0})
    absent = {name: it for name, it in files.items() if name != "plan"}
    assert setup(absent, seal) == (f"{folder}/plan: No such file or directory", {seal.mark: 0})
    for text, why in (
        (b"#!/bin/sh\nexit 7\n", "ended its trial with status 7"),
        (b"no program", "doesn't run: Exec format error"),
    ):
        own = {**files, "hsplan-stream": text}
        other = remote.Seal({name: remote.sum_of(it) for name, it in own.items()}, False)
        assert setup(own, other) == (f"{tmp_path}/{other.mark}/hsplan-stream {why}", {other.mark: 0})
    installed = remote.Seal(sums, True)
    monkeypatch.setattr(remote.shutil, "which", lambda name: f"/bin/{name}" if name == "hsplan" else None)
    paths = [installed.path("x", it) for it in files]
    assert paths == ["/bin/hsplan", "hsplan-stream", f"x/{installed.mark}/plan"]
    assert seal.mark == installed.mark != remote.Seal({"plan": sums["plan"]}, False).mark


def test_a_trial_that_does_not_end(monkeypatch: pytest.MonkeyPatch) -> None:
    monkeypatch.setattr(remote.time, "sleep", lambda _: None)

    def run(*_: object, **more: object) -> None:
        assert more["timeout"] == 60
        tries.append(1)
        raise fault

    tries: list[int] = []
    monkeypatch.setattr(remote.subprocess, "run", run)
    fault: Exception = subprocess.TimeoutExpired("x", 60)
    assert remote._tried(["x"]) == "doesn't end its trial" and len(tries) == 1
    fault = OSError(errno.ETXTBSY, "Text file busy")
    tries.clear()
    assert remote._tried(["x"]) == "doesn't end its trial" and len(tries) == 40


def worker_of(state: str | None) -> Any:
    tasks = {} if state is None else {"key": SimpleNamespace(state=state)}
    return SimpleNamespace(get_current_task=lambda: "key", state=SimpleNamespace(tasks=tasks))


def child(script: str) -> "subprocess.Popen[bytes]":
    return subprocess.Popen(["sh", "-c", script], stdout=subprocess.PIPE, stderr=subprocess.PIPE)


def test_what_a_part_prints_and_how_it_ends() -> None:
    assert remote._reply(child("sleep 0.3; echo all"), worker_of("executing")) == b"all\n"
    for script, line in (
        ("kill -9 $$", "a part of the run ended by signal SIGKILL"),
        ("echo one >&2; echo two >&2; exit 3", "a part of the run ended with status 3: two"),
    ):
        with pytest.raises(ChildProcessError, match=f"^{line}$"):
            remote._reply(child(script), worker_of("executing"))
    for state in (None, "cancelled", "resumed"):
        run = child("exec sleep 60")
        with pytest.raises(InterruptedError, match="^nobody waits for this part$"):
            remote._reply(run, worker_of(state))
        assert run.returncode == -9
    assert remote.head({"table": 1, "asked": 2}) == {"asked": 2}


def test_a_part_stages_its_files_and_leaves_none_behind_a_fault(
    tmp_path: Path, monkeypatch: pytest.MonkeyPatch
) -> None:
    """No part is done where a file of the run differs."""
    seal, target = remote.Seal({"plan": remote.sum_of(b"a plan")}, False), str(tmp_path / "a.answers")
    worker = SimpleNamespace(local_directory=str(tmp_path), address="tcp://there")
    monkeypatch.setattr(remote.distributed, "get_worker", lambda: worker)
    request, plan = {"run": "run", "targets": [target]}, tmp_path / seal.mark / "plan"
    end: Any = {"sums": {"spent": 2}}

    def ran(whole: dict[str, Any], folder: str, _: Any) -> dict[str, Any]:
        assert whole["files"] == {"plan": str(plan)} and whole["run"] == "run"
        assert os.path.dirname(folder) == str(tmp_path) and os.path.isdir(folder)
        Path(*whole["staged"]).write_text("spent")
        if isinstance(end, BaseException):
            raise end
        return dict(end)

    def left() -> list[Path]:
        return list(tmp_path.glob(".a.answers.fleet-*"))

    monkeypatch.setattr(remote, "_ran", ran)
    with pytest.raises(OSError, match=f"^worker tcp://there: {plan}: No such file or directory$"):
        remote.part(seal, request)
    plan.parent.mkdir()
    plan.write_bytes(b"a plan")
    fault = {"fault": "odd", "status": 1}
    reply = remote.part(seal, request)
    (own,) = left()
    assert own == Path(remote.staged(target, "run", reply["attempt"])) and len(reply["attempt"]) == 12
    assert reply == {**end, "attempt": reply["attempt"], "inodes": [own.stat().st_ino]}
    for end in (fault, OSError("no room")):
        with pytest.raises(OSError, match="^no room$") if end is not fault else contextlib.nullcontext():
            assert remote.part(seal, request) == fault
        assert left() == [own]


@pytest.mark.parametrize(
    "fault, reply",
    [
        (Unfit("odd"), {"fault": "odd", "status": 1}),
        (Refused(3, "demand: Header"), {"fault": "demand: Header", "status": 3}),
        (Missing("a", "b"), {"fault": "a; b", "status": 5}),
        (answers.Again("later", 7), {"again": "later", "status": 7}),
        (MemoryError(), {"again": "out of memory", "status": 4}),
        (OSError(28, "No space left on device", "there"), {"again": "there: No space left on device", "status": 5}),
    ],
)
def test_a_fault_of_a_part_is_a_reply(monkeypatch: pytest.MonkeyPatch, fault: Exception, reply: dict[str, Any]) -> None:
    def failing(_: dict[str, Any]) -> dict[str, Any]:
        raise fault

    monkeypatch.setitem(parts.WORK, "count", failing)
    assert parts.replied({"what": "count"}) == reply


def test_how_far_a_run_is(monkeypatch: pytest.MonkeyPatch) -> None:
    lines: list[str] = []
    clock = iter([100.0, 100.4, 100.9, 102.0, 102.1, 104.0])
    monkeypatch.setattr(progress.time, "monotonic", lambda: next(clock))
    monkeypatch.setattr(progress, "show_progress", lines.append)
    monkeypatch.setattr(progress.sys.stderr, "isatty", lambda: True, raising=False)
    show = progress.shown(made(Client(a=fit())), "log", 3, lambda it: it["rows"])
    for number in (0, 1, 2, 2, 3):
        show([{"rows": 4000}] * number)
    assert lines == [
        "0 of 3 logs, 0 rows a second, 1 worker",
        "1 of 3 logs, 4,444 rows a second, 1 worker",
        "2 of 3 logs, 4,000 rows a second, 1 worker",
        "3 of 3 logs, 3,000 rows a second, 1 worker",
        "",
    ]


def test_where_a_run_takes_place() -> None:
    given = {"scheduler": None, "workers": 3, "tls_ca": None, "tls_cert": None, "tls_key": None, "patience": 5.0}
    assert session.place_of(given) == Place(None, 3, (None, None, None), 5.0)
    far = {**given, "workers": None, "scheduler": "tcp://h:1"}
    assert session.place_of(far).scheduler == "tcp://h:1"
    keys = {"tls_ca": "a", "tls_cert": "b", "tls_key": "c"}
    assert session.place_of({**far, "scheduler": "tls://h:1", **keys}).keys == ("a", "b", "c")
    for wrong, line in (
        ({"scheduler": "tcp://h:1"}, "--workers is for this machine"),
        ({"tls_key": "c"}, "are for a --scheduler"),
        ({"workers": None, "scheduler": "h:1"}, "a scheduler is tcp://HOST:PORT or tls://HOST:PORT, not h:1"),
        ({"workers": None, "scheduler": "tls://h:1"}, "a scheduler at tls:// needs"),
        ({"workers": None, "scheduler": "tcp://h:1", **keys}, "another one none"),
        ({"workers": None, "scheduler": "tls://h:1", "tls_ca": "a"}, "a scheduler at tls:// needs"),
    ):
        with pytest.raises(session.click.UsageError, match=line):
            session.place_of({**given, **wrong})


def test_rows_of_a_front_and_their_lines(tmp_path: Path) -> None:
    path = tmp_path / "log"

    def rows(text: bytes, front: bytes = b"") -> tuple[bytes, int]:
        path.write_bytes(text)
        found = list(answers.rows_of_front(str(path), front))
        return b"".join(it for it, _ in found), sum(count for _, count in found)

    assert rows(b"region,handle\neu,20.1/a\nus,20.1/b") == (b"eu,20.1/a\nus,20.1/b\n", 2)
    assert rows(b"region,handle\r\n\neu,a\r\n\r\n\nus,b\n", b"7,") == (b"7,eu,a\r\n7,us,b\n", 2)
    assert rows(b"region,handle\n\n\n", b"7,") == (b"", 0) and rows(b"region,handle") == (b"", 0)
    for text in (b"handle,region\neu,a\n", b"eu,a\n", b"region,handle,x\n", b""):
        with pytest.raises(Unfit, match="^.*/log: line 1: the header isn't region,handle$"):
            rows(text)
    path.write_bytes(b"region,handle\n\neu,a\r\n\r\nus,b\n")
    assert [answers.line_of_row(str(path), it) for it in (0, 1, 2)] == [3, 5, 0]
    request = {"logs": [str(path), f"{path}2"]}
    (tmp_path / "log2").write_bytes(b"region,handle\neu,c\n")
    assert [answers._place(request, [2, 1], it) for it in (1, 2, 3)] == [
        f"{path}: line 5",
        f"{path}2: line 2",
        f"{path}2: row 0",
    ]


def test_what_a_refusal_of_hsplan_comes_to(tmp_path: Path) -> None:
    path = tmp_path / "log"
    path.write_bytes(b"region,handle\neu,a\n")
    request = {"logs": [str(path)]}

    def refused(status: int, said: str) -> dict[str, Any]:
        return answers._refused(request, status, said, [1])

    fault = {"fault": f"{path}: line 2: BadHandle NoSlash", "status": 1, "row": 0, "word": "BadHandle"}
    assert refused(1, "hsplan: log: BadHandle row 0 NoSlash") == fault
    assert refused(1, "hsplan-stream: log: Header") == {"fault": f"{path}: Header", "status": 1}
    assert refused(1, "hsplan: costs: Header") == {"fault": "hsplan refuses these files: costs: Header", "status": 1}
    for status, said, line, own in (
        (-9, "", "hsplan ended with signal 9", 5),
        (4, "hsplan: OutOfMemory", "hsplan ended with status 4: OutOfMemory", 4),
        (5, "hsplan: log: ReadFailed", "hsplan ended with status 5: log: ReadFailed", 5),
    ):
        with pytest.raises(answers.Again) as again:
            refused(status, said)
        assert (str(again.value), again.value.status) == (f"{path}: {line}", own)


def test_sums_and_parts_of_answers(tmp_path: Path, monkeypatch: pytest.MonkeyPatch) -> None:
    text = (
        b"assigned paris 0 1\nspent\nunknown\nrefused Fields\nassigned reston 1 2\nspent\ndiverted a 0 1\nfull\nfull\n"
    )
    sums = dict(zip(answers.SUMS, (2, 2, 1, 2, 1, 0, 1)))
    for size in (1, 2, 7, 1 << 16):
        monkeypatch.setattr(answers, "BLOCK", size)
        (tmp_path / "whole").write_bytes(text)
        assert answers.sums_of(str(tmp_path / "whole")) == sums
    paths = [str(tmp_path / it) for it in "abc"]
    answers._cut(str(tmp_path / "whole"), paths, [2, 0, 7])
    lines = text.splitlines(keepends=True)
    assert [Path(it).read_bytes() for it in paths] == [b"".join(lines[:2]), b"", b"".join(lines[2:])]
    assert not (tmp_path / "whole").exists()


def test_rows_of_several_lines_are_refused(tmp_path: Path, monkeypatch: pytest.MonkeyPatch) -> None:
    """As many lines as were passed on have to be answered."""
    monkeypatch.setattr(answers, "_ran", lambda request, out: out.write(b"spent\n" * 3) and (0, "", [2, 2]))
    request = {"staged": [str(tmp_path / "out"), str(tmp_path / "out2")], "logs": ["a", "b"]}
    with pytest.raises(Unfit, match="^a, b: 4 lines have 3 rows: a row may have no line end in quotes$"):
        answers.answer(request)


def test_parts_of_a_log_of_all_fronts(tmp_path: Path) -> None:
    path = tmp_path / "log"
    path.write_bytes(b"front,region,handle\r\n1,eu,a\n\n0,eu,b\n1,eu,c\n1,us,d\n")
    own = Parted(str(path), str(tmp_path), 2)
    assert own.is_plain and list(own.order) == [1, 0, 1, 1]
    head = b"region,handle\n"
    assert [Path(it).read_bytes() for it in own.logs] == [head + b"eu,b\n", head + b"eu,a\neu,c\nus,d\n"]
    assert [own.row(1, it) for it in (0, 1, 2)] == [0, 2, 3] and own.row(0, 0) == 1
    outs = [str(tmp_path / "x"), str(tmp_path / "y")]
    Path(outs[0]).write_bytes(b"B\n")
    Path(outs[1]).write_bytes(b"A\nC\nD\n")
    own.merge(outs, str(tmp_path / "merged"))
    assert (tmp_path / "merged").read_bytes() == b"A\nB\nC\nD\n"
    for text in (b"region,handle\n", b"0,eu,a\n", b""):
        path.write_bytes(text)
        with pytest.raises(Unfit, match="^.*/log: line 1: the header isn't front,region,handle"):
            Parted(str(path), str(tmp_path), 2)
    for text in (b"2,eu,a", b"x,eu,a", b"0", b'0,"eu",a', b"0,eu,a\r"):
        path.write_bytes(b"front,region,handle\n" + text + b"\n")
        assert not Parted(str(path), str(tmp_path), 2).is_plain
