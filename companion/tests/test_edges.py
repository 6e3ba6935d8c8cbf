"""What LIMITS says of streams, of limits of a shell, and of line ends: each is tried with the programs."""

import os
import signal
import socket
import subprocess
from pathlib import Path

import pytest

from hsp.base.programs import program

from conftest import TOP

EXAMPLE = TOP / "examples" / "two-sites"
INPUTS = [f"--{it}={EXAMPLE}/{it}.{'toml' if it == 'settings' else 'csv'}" for it in ("settings", "demand", "costs")]
INPUTS.append(f"--capacity={EXAMPLE}/capacity.csv")


@pytest.fixture(scope="module")
def plan(tmp_path_factory: pytest.TempPathFactory) -> Path:
    path = tmp_path_factory.mktemp("plan") / "plan.txt"
    path.write_bytes(subprocess.run([program("hsplan"), "plan", *INPUTS], capture_output=True, check=True).stdout)
    return path


@pytest.fixture
def log(tmp_path: Path) -> Path:
    rows = [it.rpartition(",")[0] for it in (EXAMPLE / "demand.csv").read_text().splitlines()[1:]]
    path = tmp_path / "log.csv"
    path.write_text("region,handle\n" + "\n".join(rows * 600) + "\n")
    return path


def answer(log: str | Path) -> list[str]:
    inputs = [it for it in INPUTS if not it.startswith("--demand")]
    return [program("hsplan-stream"), "answer", *inputs, f"--prices={EXAMPLE}/plan.prices", f"--log={log}"]


def dispatch(plan: Path, log: str | Path) -> list[str]:
    return [program("hsplan"), "dispatch", *INPUTS, f"--plan={plan}", f"--log={log}"]


def name_of(words: list[str]) -> str:
    """The name by which a program reports its faults; the file of a built one has an underscore."""
    return Path(words[0]).name.replace("_", "-")


def test_a_pipe_that_does_not_block_gets_a_beginning(plan: Path, log: Path) -> None:
    for words in (answer(log), dispatch(plan, log)):
        whole = subprocess.run(words, capture_output=True).stdout
        reading, writing = os.pipe()
        os.set_blocking(writing, False)
        done = subprocess.run(words, stdout=writing, stderr=subprocess.PIPE, text=True)
        os.close(writing)
        with open(reading, "rb") as pipe:
            got = pipe.read()
        assert (done.returncode, done.stderr) == (5, f"{name_of(words)}: log: WriteFailed\n")
        assert whole.startswith(got) and 0 < len(got) < len(whole)


def test_a_socket_is_no_file() -> None:
    one, other = socket.socketpair()
    with one, other:
        one.sendall(b"region,handle\n")
        one.shutdown(socket.SHUT_WR)
        done = subprocess.run(answer("/dev/stdin"), stdin=other, capture_output=True, text=True)
    assert (done.returncode, done.stdout, done.stderr) == (5, "", "hsplan-stream: read failed\n")


def test_a_small_stack_suffices(plan: Path, log: Path) -> None:
    for words in (answer(log), dispatch(plan, log), [program("hsplan"), "plan", *INPUTS]):
        shell = ["bash", "-c", 'ulimit -s 128; exec "$@"', "bash", *words]
        assert subprocess.run(shell, capture_output=True).returncode == 0
        small = ["bash", "-c", 'ulimit -s 64; exec "$@"', "bash", *words]
        assert subprocess.run(small, capture_output=True).returncode in (0, -signal.SIGSEGV)
