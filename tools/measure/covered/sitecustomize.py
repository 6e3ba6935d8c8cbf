"""Measures which lines and branches of hsp each Python process reaches, for tools/cover_companion.py.

Python imports this module at its start, where its folder stands in PYTHONPATH. It is a plugin of pytest too, which
names the test that each process runs for.
"""

import atexit
import contextlib
import importlib
import os
import sys
import threading
import time
from typing import Any

coverage: Any = importlib.import_module("coverage")

CONFIGURATION = os.environ["COVERAGE_PROCESS_START"]
# Dask's processes are killed at the end of a run, so they keep what they have after each of these seconds.
SECONDS = 0.5
# How long a child that explains faults is waited for, before it is killed.
PATIENCE = 2.0


def keep() -> None:
    """Writes what was reached until now. A process that can't write it, as of a full disk, ends as it would."""
    with contextlib.suppress(Exception):
        MEASURE.save()


def end() -> None:
    with contextlib.suppress(Exception):
        MEASURE.stop()
    keep()


def keep_often() -> None:
    while True:
        time.sleep(SECONDS)
        keep()


def exit_at_once(status: int, leave: Any = os._exit) -> None:
    """Ends a process without what Python does at its end."""
    end()
    leave(status)


def kill_group(group: int, number: int, kill: Any = os.killpg) -> None:
    """Lets a child that is ready end by itself, so that it keeps what it reached."""
    until = time.monotonic() + PATIENCE
    with contextlib.suppress(ChildProcessError):
        while time.monotonic() < until and not os.waitid(os.P_PID, group, os.WEXITED | os.WNOHANG | os.WNOWAIT):
            time.sleep(0.005)
    kill(group, number)


def pytest_runtest_logstart(nodeid: str) -> None:
    """What this process reaches from now on is reached by a test."""
    MEASURE.switch_context(nodeid)


def pytest_runtest_logreport(report: Any) -> None:
    """Keeps how long each test takes."""
    if "PYTEST_XDIST_WORKER" not in os.environ:
        with open(f"{CONFIGURATION}.seconds", "a", encoding="utf-8") as file:
            file.write(f"{report.duration:.3f} {report.nodeid}\n")


MEASURE = coverage.Coverage(config_file=CONFIGURATION)
MEASURE._warn_no_data = MEASURE._warn_unimported_source = MEASURE._warn_preimported_source = False
MEASURE.start()
atexit.register(end)
os._exit = exit_at_once  # type: ignore[assignment]
os.killpg = kill_group
if any("dask_" in it for it in sys.orig_argv):
    threading.Thread(target=keep_often, daemon=True).start()
