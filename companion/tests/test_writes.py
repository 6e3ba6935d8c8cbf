"""What hsp writes: nothing is lost or mixed between runs, and nothing is left where a run is stopped."""

import contextlib
import csv
import fcntl
import os
import re
import signal
import subprocess
import sys
import time
from pathlib import Path

import pytest

from hsp.base import files, signals
from hsp.base.programs import Missing, Programs
from hsp.base.unfit import Unfit

from conftest import WITH_SIGNALS, Example, children, named, until, variables
from lib.companion import archive
from test_sites import PARIS, RESTON


def started(*words: object, **more: str) -> "subprocess.Popen[str]":
    """A run of hsp that goes on beside the test."""
    command = [*WITH_SIGNALS, sys.executable, "-m", "hsp", *map(str, words)]
    pipes = {"stdin": subprocess.DEVNULL, "stdout": subprocess.PIPE, "stderr": subprocess.PIPE}
    return subprocess.Popen(command, text=True, env=variables(**more), **pipes)  # type: ignore[call-overload,no-any-return]


def log_of(path: Path, word: str, lines: int) -> Path:
    rows = [f"192.0.2.1,20.500.1234/{word}-{number}\n" for number in range(lines)]
    path.write_text("client,handle\n" + "".join(rows))
    return path


@pytest.fixture
def regions(tmp_path: Path) -> Path:
    path = tmp_path / "networks.csv"
    path.write_text("network,region\n192.0.2.0/24,eu\n")
    return path


def test_two_runs_over_one_log_keep_the_rows_of_one(tmp_path: Path, regions: Path) -> None:
    logs = {word: log_of(tmp_path / word, word, 8000) for word in ("a", "b")}
    for _ in range(3):
        kept = tmp_path / "kept.csv"
        runs = [
            started("demand", log, "--regions", regions, "--log", kept, "-o", tmp_path / f"{word}.out")
            for word, log in logs.items()
        ]
        assert [(run.wait(), run.communicate()[1]) for run in runs] == [(0, ""), (0, "")]
        words = [re.sub("[0-9]+$", "", row[1]) for row in list(csv.reader(kept.open()))[1:]]
        assert (len(words), len(set(words))) == (8000, 1)
    assert not list(tmp_path.glob(".hsp-*"))


def test_two_runs_over_one_folder_lose_nothing(tmp_path: Path) -> None:
    """Both sites are there, however the runs come together."""
    records = {"paris": PARIS, "reston": RESTON}
    for name, octets in records.items():
        (tmp_path / name).write_bytes(octets)
    for number in range(6):
        folder = tmp_path / f"{number}"
        folder.mkdir()
        runs = [started("sites", tmp_path / name, "--into", folder) for name in records]
        assert [run.wait() for run in runs] == [0, 0]
        for run in runs:
            run.communicate()
        settings = (folder / "settings.toml").read_text()
        assert sorted(re.findall('name = "(.*)"', settings)) == ["paris", "reston"]
        assert {row[0] for row in csv.reader((folder / "capacity.csv").open())} == {"site", "paris", "reston"}
        assert sorted(os.listdir(folder)) == ["capacity.csv", "settings.toml"]


def test_a_later_run_waits_or_is_refused(tmp_path: Path, monkeypatch: pytest.MonkeyPatch) -> None:
    monkeypatch.setattr(files, "PATIENCE", 0.1)
    descriptor = os.open(tmp_path, os.O_RDONLY)
    fcntl.flock(descriptor, fcntl.LOCK_EX)
    with pytest.raises(Missing, match="another run has it locked"):
        files.replace_all({f"{tmp_path}/a": b"new"})
    assert os.listdir(tmp_path) == []
    os.close(descriptor)
    with files.locked([str(tmp_path)]):
        files.replace_all({f"{tmp_path}/a": b"new"})
        assert files._locked == {(tmp_path.stat().st_dev, tmp_path.stat().st_ino)}
    assert (os.listdir(tmp_path), files._locked) == (["a"], set())


def test_a_folder_that_cannot_be_locked_is_written(tmp_path: Path, monkeypatch: pytest.MonkeyPatch) -> None:
    def refused(*_: object) -> None:
        raise OSError(37, "No locks available")

    monkeypatch.setattr(fcntl, "flock", refused)
    files.replace_all({f"{tmp_path}/a": b"new"})
    assert (tmp_path / "a").read_bytes() == b"new"


def test_a_planted_link_is_not_followed(tmp_path: Path, monkeypatch: pytest.MonkeyPatch) -> None:
    """Neither is one by the name that a run chooses for what it writes."""
    monkeypatch.setattr(files.secrets, "token_hex", lambda _: "chosen")
    (tmp_path / "victim").write_bytes(b"mine")
    (tmp_path / ".hsp-chosen").symlink_to("victim")
    with pytest.raises(FileExistsError):
        files.replace_all({f"{tmp_path}/plan.txt": b"planned"})
    assert ((tmp_path / "victim").read_bytes(), (tmp_path / "plan.txt").exists()) == (b"mine", False)


def test_a_file_of_a_closed_owner_is_never_open_to_others(tmp_path: Path) -> None:
    """The part of a file that only its owner may read is that owner's too, while it is written."""
    own = tmp_path / "kept"
    own.write_bytes(b"old")
    own.chmod(0o600)
    with files.growing(str(own)) as file:
        file.write(b"new")
        part = next(tmp_path.glob(".hsp-*"))
        assert part.stat().st_mode & 0o777 == 0o600
    assert (own.read_bytes(), own.stat().st_mode & 0o777) == (b"new", 0o600)


def test_a_folder_in_the_place_of_a_file_is_found_before_others_have_their_names(tmp_path: Path) -> None:
    (tmp_path / "a").write_bytes(b"old")
    (tmp_path / "b").mkdir()
    with pytest.raises(IsADirectoryError, match=f"Is a directory: '{tmp_path}/b'"):
        files.replace_all({f"{tmp_path}/a": b"new", f"{tmp_path}/b": b"new"})
    assert (tmp_path / "a").read_bytes() == b"old" and sorted(os.listdir(tmp_path)) == ["a", "b"]


@pytest.mark.parametrize("way", ["same", "hard link", "link", "through a folder's link"])
def test_an_output_is_no_input_by_any_path(tmp_path: Path, way: str) -> None:
    own = tmp_path / "own"
    own.write_bytes(b"mine")
    other = tmp_path / "other"
    if way == "same":
        other = own
    elif way == "hard link":
        os.link(own, other)
    elif way == "link":
        other.symlink_to("own")
    else:
        (tmp_path / "folder").symlink_to(tmp_path)
        other = tmp_path / "folder" / "own"
    with pytest.raises(Unfit, match="read and written"):
        files.refuse_clashes([str(own)], [str(other)])
    with pytest.raises(Unfit, match="written twice"):
        files.refuse_clashes([], [str(own), str(other)])


def test_files_that_are_not_there_yet_are_compared_too(tmp_path: Path) -> None:
    (tmp_path / "folder").symlink_to(tmp_path)
    with pytest.raises(Unfit, match="written twice"):
        files.refuse_clashes([], [f"{tmp_path}/new", f"{tmp_path}/folder/../{tmp_path.name}/new"])
    files.refuse_clashes([f"{tmp_path}/a"], [f"{tmp_path}/b", f"{tmp_path}/c", "/dev/null", "/dev/null"])


STOPS = {signal.SIGTERM: 143, signal.SIGHUP: 129, signal.SIGINT: 130}


def slow_program(tmp_path: Path, name: str) -> Path:
    """A program in place of hsplan's that never ends by itself."""
    path = tmp_path / name
    path.write_text("#!/bin/sh\nexec sleep 600\n")
    path.chmod(0o755)
    return path


@pytest.mark.parametrize("number", STOPS)
@pytest.mark.parametrize("command", ["plan", "view", "whatif", "doctor", "sites", "demand"])
def test_a_stopped_command_leaves_nothing(
    example: Example, tmp_path: Path, regions: Path, command: str, number: signal.Signals
) -> None:
    folder, room = example("two-sites"), tmp_path / "room"
    room.mkdir()
    pipe = tmp_path / "pipe"
    os.mkfifo(pipe)
    (tmp_path / "site").write_bytes(PARIS)
    own = {
        "sites": ["sites", tmp_path / "site", "--into", folder],
        "demand": ["demand", pipe, "--regions", regions, "--log", folder / "kept.csv", "-o", folder / "new.csv"],
    }
    before = sorted(os.listdir(folder))
    slow = str(slow_program(tmp_path, "slow"))
    run = started(*own.get(command, [command, folder]), TMPDIR=str(room), HSPLAN=slow)
    if command == "demand":
        until(lambda: list(room.glob("hsp-*")), 20)
    else:
        until(lambda: any(named(it, "sleep") for it in children(run.pid)), 20)
    time.sleep(0.3 if command == "demand" else 0)  # it waits for the other end of the pipe
    assert run.poll() is None and list(room.glob("hsp-*/*" if command == "sites" else "hsp-*"))
    run.send_signal(number)
    _, said = run.communicate(timeout=20)
    assert (run.returncode, said) == (STOPS[number], "hsp: interrupted\n")
    assert (sorted(os.listdir(folder)), os.listdir(room)) == (before, [])


@pytest.mark.parametrize("way", ["package", "archive"])
def test_an_interrupt_while_modules_are_read_shows_no_traceback(tmp_path: Path, way: str) -> None:
    (tmp_path / "click.py").write_text("import os, signal\nos.kill(os.getpid(), signal.SIGINT)\n")
    (tmp_path / "hsp").write_bytes(archive())
    words = ["-m", "hsp"] if way == "package" else [str(tmp_path / "hsp")]
    own = variables()
    own["PYTHONPATH"] = os.pathsep.join([str(tmp_path), own["PYTHONPATH"]])
    run = subprocess.run([*WITH_SIGNALS, sys.executable, *words, "--version"], env=own, capture_output=True, text=True)
    assert (run.returncode, run.stdout, run.stderr) == (-signal.SIGINT, "", "")


def test_a_signal_within_a_step_counts_after_it() -> None:
    came: list[int] = []
    before = signal.getsignal(signal.SIGTERM)
    with signals.stopping(came.append):
        with signals.uncut():
            with signals.uncut():
                signal.raise_signal(signal.SIGTERM)
            assert came == []
        assert came == [signal.SIGTERM]
    assert signal.getsignal(signal.SIGTERM) == before


def test_no_second_signal_cuts_what_is_tidied_up() -> None:
    with pytest.raises(signals.Stopped) as stopped:
        with signals.stopping():
            try:
                signal.raise_signal(signal.SIGTERM)
            finally:
                assert [signal.getsignal(it) for it in STOPS] == [signal.SIG_IGN] * 3
    assert stopped.value.status == 143


def writing_end(pipe: Path, run: subprocess.Popen[str]) -> int:
    """A pipe that a process has opened to read it. Nobody waits for one that ended before."""
    until = time.monotonic() + 20
    while run.poll() is None and time.monotonic() < until:
        with contextlib.suppress(OSError):
            return os.open(pipe, os.O_WRONLY | os.O_NONBLOCK)
        time.sleep(0.02)
    run.kill()
    pytest.fail(f"the pipe isn't opened: {run.communicate()}")


def test_a_signal_that_the_caller_ignores_stays_ignored(tmp_path: Path, regions: Path) -> None:
    """As nohup has it."""
    pipe = tmp_path / "pipe"
    os.mkfifo(pipe)
    script = 'trap "" HUP; exec "$@"'
    words = [sys.executable, "-m", "hsp", "demand", str(pipe), "--regions", str(regions)]
    run = subprocess.Popen(
        ["sh", "-c", script, "sh", *words], env=variables(), stdout=subprocess.PIPE, stderr=subprocess.PIPE, text=True
    )
    with open(writing_end(pipe, run), "w") as file:
        run.send_signal(signal.SIGHUP)
        file.write("client,handle\n192.0.2.1,20.500.1234/a\n")
    assert (run.communicate(timeout=20)[0], run.returncode) == ("region,handle,count\neu,20.500.1234/a,1\n", 0)


def test_a_full_folder_of_temporary_files_is_named(twelve: Path, tmp_path: Path) -> None:
    """A limit on the size of files stands for the full disk."""
    words = ["bash", "-c", f"ulimit -f 1; exec {sys.executable} -m hsp plan {twelve} --no-save"]
    done = subprocess.run(words, capture_output=True, text=True, env=variables(TMPDIR=str(tmp_path)))
    remedy = "File too large; set TMPDIR to another folder for temporary files"
    assert re.fullmatch(rf"hsp: {tmp_path}/hsp-\w+: {remedy}\n", done.stderr)
    assert (done.returncode, os.listdir(tmp_path)) == (5, [])


def test_a_desk_without_a_folder_says_so(monkeypatch: pytest.MonkeyPatch) -> None:
    def none(**_: object) -> None:
        raise FileNotFoundError(2, "No usable temporary directory found")

    monkeypatch.setattr("hsp.base.programs.tempfile.TemporaryDirectory", none)
    with pytest.raises(OSError, match="set TMPDIR to another folder") as fault:
        Programs()
    assert fault.value.filename == "TMPDIR"


def test_no_link_below_a_folder_is_followed(tmp_path: Path) -> None:
    """A link that was planted after a check is refused as a folder, and replaced as a file."""
    own, victim = tmp_path / "own", tmp_path / "victim"
    for folder in (own / "a", victim):
        folder.mkdir(parents=True)
    (victim / "plan.txt").write_text("mine")
    (own / "a/plan.txt").symlink_to(victim / "plan.txt")
    files.replace_all({f"{own}/a/plan.txt": b"new", f"{own}/c/d/plan.txt": b"new"}, str(own))
    assert not (own / "a/plan.txt").is_symlink() and (own / "c/d/plan.txt").read_text() == "new"
    (own / "b").symlink_to(victim)
    for below in ("b", "b/deeper"):
        with pytest.raises(Unfit, match="no folder of its own"):
            files.replace_all({f"{own}/{below}/plan.txt": b"new", f"{own}/a/plan.txt": b"newer"}, str(own))
    files.forget(str(own), f"{own}/b", ["plan.txt"])
    assert [it.read_text() for it in (victim / "plan.txt", own / "a/plan.txt")] == ["mine", "new"]
    assert [it.name for it in victim.iterdir()] == ["plan.txt"]
