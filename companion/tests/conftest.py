"""What the tests share: the real programs, and copies of the examples.

The programs are those of HSPLAN and HSPLAN_STREAM, or those that are built here.
"""

import contextlib
import os
import re
import shutil
import subprocess
import sys
import time
from collections.abc import Callable, Iterable
from pathlib import Path

import pytest
from click.testing import CliRunner, Result

TOP = Path(__file__).resolve().parents[2]
sys.path[:0] = [str(TOP / "companion"), str(TOP / "tools")]

from lib import examples, programs  # noqa: E402
from hsp.cli import main  # noqa: E402

Hsp = Callable[..., "subprocess.CompletedProcess[str]"]
# Copies an example.
Example = Callable[[str], Path]
# Before a command that gets a signal: what runs the tests, as nohup, may have signals ignored.
WITH_SIGNALS = ["env", "--default-signal=HUP,INT,TERM"]


def variables(**more: str) -> dict[str, str]:
    """Those of a process that runs hsp from here."""
    paths = [str(TOP / "companion"), os.environ.get("PYTHONPATH", "")]
    return {**os.environ, "PYTHONPATH": os.pathsep.join(filter(None, paths)), **more}


def children(process: int) -> list[int]:
    """The processes that a process has started, as the kernel lists them for each of its threads."""
    found: list[int] = []
    with contextlib.suppress(OSError):
        for thread in os.listdir(f"/proc/{process}/task"):
            found += map(int, Path(f"/proc/{process}/task/{thread}/children").read_text().split())
    return found


def until(is_so: Callable[[], object], seconds: float = 60, pause: float = 0.02) -> None:
    end = time.monotonic() + seconds
    while not is_so():
        assert time.monotonic() < end
        time.sleep(pause)


def rewrite(path: Path, pattern: str, new: str | Callable[[re.Match[str]], str]) -> None:
    """Writes a file anew, with something else wherever a pattern stands in it."""
    path.write_text(re.sub(pattern, new, path.read_text(), flags=re.M))


def named(process: int, word: str) -> bool:
    """Whether a word stands in the command of a process."""
    try:
        return word in Path(f"/proc/{process}/cmdline").read_text()
    except OSError:
        return False


@pytest.fixture(autouse=True, scope="session")
def _programs() -> None:
    """Names the real programs to the companion."""
    for name in programs.PROGRAMS:
        key = name.upper().replace("-", "_")
        path = os.environ.setdefault(key, programs.built_path(name))
        if not os.access(path, os.X_OK):
            pytest.exit(f"no program {path}: run rt ci or make prove first", 1)


@pytest.fixture(autouse=True)
def _unhurried(monkeypatch: pytest.MonkeyPatch) -> None:
    """Lets the doctor explain all that it can, however slow the machine is. Tests of its time set another one."""
    monkeypatch.setattr("hsp.doctor.guard.SECONDS", 100.0)


def _ran_apart(words: tuple[str, ...], more: dict[str, str]) -> "subprocess.CompletedProcess[str]":
    command = [sys.executable, "-m", "hsp", *words]
    streams = {"capture_output": True, "stdin": subprocess.DEVNULL}
    return subprocess.run(command, text=True, env=variables(**more), **streams)  # type: ignore[call-overload,no-any-return]


def run_here(words: Iterable[object], **more: str) -> Result:
    """Runs a command of hsp in this process. A traceback would be an exception other than an exit."""
    result = CliRunner(mix_stderr=False).invoke(main, [*map(str, words)], env=more, prog_name="hsp")
    assert result.exception is None or isinstance(result.exception, SystemExit), f"{words}: {result.exception!r}"
    return result


def _ran_here(words: tuple[str, ...], more: dict[str, str]) -> "subprocess.CompletedProcess[str]":
    result = run_here(words, **more)
    return subprocess.CompletedProcess(words, result.exit_code, result.stdout, result.stderr)


@pytest.fixture(scope="session")
def hsp() -> Hsp:
    """Runs hsp in this process, which takes less than one of its own. Only fleet, which leaves threads behind, has
    one."""

    def run(*words: str, status: int = 0, **more: str) -> "subprocess.CompletedProcess[str]":
        ended = (_ran_apart if words[:1] == ("fleet",) else _ran_here)(words, more)
        assert ended.returncode == status, ended.stdout + ended.stderr
        assert "Traceback" not in ended.stderr, ended.stderr
        return ended

    return run


@pytest.fixture(scope="session")
def hsp_apart() -> Hsp:
    def run(*words: str, status: int = 0, **more: str) -> "subprocess.CompletedProcess[str]":
        ended = _ran_apart(words, more)
        assert ended.returncode == status, ended.stdout + ended.stderr
        return ended

    return run


@pytest.fixture(scope="session")
def twelve(tmp_path_factory: pytest.TempPathFactory) -> Path:
    folder = tmp_path_factory.mktemp("twelve-sites")
    examples.write(str(folder), examples.twelve_sites())
    return folder


@pytest.fixture
def example(tmp_path: Path) -> Example:
    """Copies an example into a folder of the test's own."""

    def copied(name: str) -> Path:
        return Path(shutil.copytree(TOP / "examples" / name, tmp_path / name))

    return copied


@pytest.fixture
def folder(example: Example) -> Path:
    return example("two-sites")
