"""Clusters of Dask on this machine that tests start by themselves: a scheduler, and workers of it."""

import contextlib
import json
import os
import subprocess
import sys
from collections.abc import Callable, Iterator
from pathlib import Path
from typing import NamedTuple

from hsp.fleet.local import QUIET

from conftest import until


class Cluster(NamedTuple):
    """A scheduler, and what starts a worker with another PATH."""

    address: str
    scheduler: int
    worker: Callable[[str, str], None]


@contextlib.contextmanager
def running(folder: Path, keys: list[str]) -> Iterator[Cluster]:
    """A cluster that keeps all that it writes in a folder. Its keys are options for Dask."""
    begun = []

    def start(module: str, path: str, *words: str) -> None:
        command = [sys.executable, "-m", f"distributed.cli.{module}", *words, *keys]
        environment = {**os.environ, **QUIET, "PATH": path}
        with open(folder / f"{module}.log", "ab") as log:
            streams = {"stdin": subprocess.DEVNULL, "stdout": log, "stderr": log}
            begun.append(subprocess.Popen(command, env=environment, cwd=folder, **streams))  # type: ignore[call-overload]

    def worker(name: str, path: str) -> None:
        words = ("--no-nanny", "--nthreads", "1", "--no-dashboard", "--name", name)
        start("dask_worker", path, address, "--host", "127.0.0.1", *words, "--local-directory", str(folder / name))

    file = folder / "scheduler.json"
    where = ("--host", "127.0.0.1", "--port", "0", "--dashboard-address", "127.0.0.1:0")
    try:
        start("dask_scheduler", os.environ["PATH"], "--scheduler-file", str(file), "--no-show", *where)
        until(lambda: file.exists() and file.read_text().endswith("}"))
        address = str(json.loads(file.read_text())["address"])
        yield Cluster(address, begun[0].pid, worker)
    finally:
        for it in begun:
            it.kill()
        for it in begun:
            it.wait()
