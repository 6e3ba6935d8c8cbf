"""What is sent to the workers by its value. It needs no other module of hsp there, so no worker holds an older one."""

import contextlib
import errno
import hashlib
import importlib
import json
import os
import shutil
import signal
import subprocess
import sys
import tempfile
import time
import uuid
from collections.abc import Mapping
from typing import Any

distributed: Any = importlib.import_module("distributed")

# The programs, and the words of a trial that each runs at a worker.
PROGRAMS = {"hsplan": "locate --option local --servers 2 10/3", "hsplan-stream": "--version"}
COMPANION = "hsp.zip"
# How a part begins in a Python of its own.
START = "import sys; sys.path.insert(0, sys.argv[1]); from hsp.fleet.parts import main; main()"
DIES_WITH_ITS_PARENT = ["setpriv", "--pdeathsig", "KILL", "--"]
OUT_OF_MEMORY = 4


def sum_of(octets: bytes) -> str:
    return hashlib.sha256(octets).hexdigest()


class Seal:
    """The names of a run's files and their SHA-256 sums. Installed programs have only their sums here."""

    def __init__(self, sums: Mapping[str, str], installed: bool) -> None:
        self.sums, self.installed = dict(sums), installed
        whole = "".join(f"{name} {expected}\n" for name, expected in sorted(sums.items()))
        self.mark = f"hsp-fleet-{sum_of(whole.encode())[:16]}"

    def path(self, local: str, name: str) -> str:
        """Where a file of the run is at a worker, whose own folder is `local`."""
        if self.installed and name in PROGRAMS:
            return shutil.which(name) or name
        return os.path.join(local, self.mark, name)

    def differs(self, local: str) -> str | None:
        """The first file that is not the client's, or none."""
        for name, wanted in self.sums.items():
            path = self.path(local, name)
            try:
                with open(path, "rb") as file:
                    if sum_of(file.read()) != wanted:
                        return f"{path} has another SHA-256 sum"
            except OSError as fault:
                return f"{path}: {fault.strerror}"
        return None

    def tried(self, local: str) -> str | None:
        """Why a program can't run at a worker, or none."""
        for name in (program for program in PROGRAMS if program in self.sums):
            reason = _tried([self.path(local, name), *PROGRAMS[name].split()])
            if reason:
                return f"{self.path(local, name)} {reason}"
        return None


def _tried(words: list[str]) -> str | None:
    for _ in range(40):
        try:
            done = subprocess.run(words, stdin=subprocess.DEVNULL, capture_output=True, timeout=60)
            return f"ended its trial with status {done.returncode}" if done.returncode else None
        except OSError as fault:
            if fault.errno != errno.ETXTBSY:  # a fork of another thread may hold the new file for a moment
                return f"doesn't run: {fault.strerror}"
            time.sleep(0.05)
        except subprocess.TimeoutExpired:
            break
    return "doesn't end its trial"


class Mark:
    """Unpacks a run's files at a worker. The worker gets the run's mark only where all of them are whole and run.

    Parts ask for the mark. So a worker that differs gets no part, nor does one that has joined and isn't checked yet.
    """

    def __init__(self, files: Mapping[str, bytes], seal: Seal) -> None:
        self.files, self.seal, self.name = dict(files), seal, seal.mark

    def _unpack(self, local: str) -> str | None:
        folder = os.path.join(local, self.seal.mark)
        os.makedirs(folder, exist_ok=True)
        for name, octets in self.files.items():
            path = os.path.join(folder, name)
            descriptor, part = tempfile.mkstemp(dir=folder)
            with open(descriptor, "wb") as file:
                file.write(octets)
                os.fchmod(descriptor, 0o700 if name in PROGRAMS else 0o600)
            os.replace(part, path)
        return self.seal.differs(local) or self.seal.tried(local)

    async def setup(self, worker: Any) -> None:
        try:
            reason = self._unpack(worker.local_directory)
        except Exception as fault:  # raised here it would be lost, and the worker would get parts
            reason = str(fault) or type(fault).__name__
        worker.__dict__.setdefault("hsp_fleet_refused", {})[self.seal.mark] = reason
        await worker.set_resources(**{self.seal.mark: 0 if reason else worker.state.nthreads})

    async def teardown(self, worker: Any) -> None:
        await worker.set_resources(**{self.seal.mark: 0})
        shutil.rmtree(os.path.join(worker.local_directory, self.seal.mark), ignore_errors=True)


def refusal(mark: str, dask_worker: Any) -> str | None:
    """Why a worker got no mark, or none."""
    reasons: dict[str, str | None] = getattr(dask_worker, "hsp_fleet_refused", {})
    return reasons.get(mark, "the files of the run didn't arrive")


def staged(path: str, run: str, attempt: str) -> str:
    """The name of a file that isn't published yet, beside its place. Each attempt has its own."""
    folder, name = os.path.split(path)
    return os.path.join(folder, f".{name}.fleet-{run}-{attempt}")


def sweep(paths: list[str], run: str) -> None:
    """Takes away what a run left beside these paths, or one attempt of it: `RUN-ATTEMPT`."""
    for path in paths:
        folder, name = os.path.split(os.path.abspath(path))
        with contextlib.suppress(OSError):
            for entry in os.listdir(folder):
                if entry.startswith(f".{name}.fleet-{run}"):
                    with contextlib.suppress(OSError):
                        os.unlink(os.path.join(folder, entry))


def publish(run: str, targets: list[str], attempt: str, inodes: list[int]) -> None:
    """Gives the files of an attempt their names. A file that has its name already, by its number, stays."""
    for path, inode in zip(targets, inodes, strict=True):
        if not os.path.exists(path) or os.stat(path).st_ino != inode:
            os.replace(staged(path, run, attempt), path)
        folder = os.open(os.path.dirname(os.path.abspath(path)), os.O_RDONLY)
        try:
            os.fsync(folder)
        finally:
            os.close(folder)


def head(reply: dict[str, Any]) -> dict[str, Any]:
    """What the client asks of a part before it takes its table."""
    return {name: value for name, value in reply.items() if name != "table"}


def _is_wanted(worker: Any, key: str) -> bool:
    """Whether the scheduler still wants a part that runs."""
    task = worker.state.tasks.get(key)
    return task is not None and task.state not in ("cancelled", "resumed")


def _reply(child: "subprocess.Popen[bytes]", worker: Any) -> bytes:
    """What a part prints. It is killed where nobody wants it any more."""
    key = worker.get_current_task()
    with child:
        try:
            while True:
                try:
                    out, said = child.communicate(timeout=0.2)
                    break
                except subprocess.TimeoutExpired:
                    if not _is_wanted(worker, key):
                        raise InterruptedError("nobody waits for this part") from None
        finally:
            child.kill()
    if child.returncode < 0:
        raise ChildProcessError(f"a part of the run ended by signal {signal.Signals(-child.returncode).name}")
    if child.returncode:
        last = said.decode("utf-8", "replace").strip().rpartition("\n")[2]
        raise ChildProcessError(f"a part of the run ended with status {child.returncode}: {last}")
    return out


def _ran(whole: dict[str, Any], folder: str, worker: Any) -> dict[str, Any]:
    """The reply of a part that runs in a Python of its own."""
    files = whole["files"]
    programs = {"HSPLAN": files["hsplan"], "HSPLAN_STREAM": files["hsplan-stream"]}
    asked = os.path.join(folder, "request.json")
    with open(asked, "w", encoding="ascii") as file:
        json.dump(whole, file)
    child = subprocess.Popen(
        [*DIES_WITH_ITS_PARENT, sys.executable, "-c", START, files[COMPANION], asked],
        stdin=subprocess.DEVNULL,
        stdout=subprocess.PIPE,
        stderr=subprocess.PIPE,
        env={**os.environ, **programs, "TMPDIR": folder},
        cwd=whole["at"] if os.path.isdir(whole["at"]) else folder,
    )
    reply: dict[str, Any] = json.loads(_reply(child, worker))
    if "again" in reply:
        raise MemoryError() if reply["status"] == OUT_OF_MEMORY else OSError(reply["again"])
    return reply


def part(seal: Seal, request: dict[str, Any]) -> dict[str, Any]:
    """What a part found, or its fault. What may go well at another time is raised."""
    worker = distributed.get_worker()
    reason = seal.differs(worker.local_directory)
    if reason:
        raise OSError(f"worker {worker.address}: {reason}")
    run, targets, attempt = request["run"], request["targets"], uuid.uuid4().hex[:12]
    names = [staged(target, run, attempt) for target in targets]
    files = {name: seal.path(worker.local_directory, name) for name in seal.sums}
    whole = {**request, "files": files, "staged": names}
    try:
        with tempfile.TemporaryDirectory(dir=worker.local_directory) as folder:
            reply = _ran(whole, folder, worker)
        if "fault" not in reply:
            return {**reply, "attempt": attempt, "inodes": [os.stat(target).st_ino for target in names]}
    except BaseException:
        sweep(targets, f"{run}-{attempt}")
        raise
    sweep(targets, f"{run}-{attempt}")
    return reply
