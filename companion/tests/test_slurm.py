"""The recipe for Slurm in FLEET.md, on a Slurm of this machine's own, where its packages are installed."""

import hashlib
import os
import shutil
import socket
import subprocess
import time
from collections.abc import Iterator
from pathlib import Path

import pytest

from test_fleet import DOCUMENT, FRONTS, Million, million

assert million  # a fixture, which is found by its name here too

PROGRAMS = ("sbatch", "squeue", "slurmctld", "slurmd", "munged")
# Before any fixture is made.
pytestmark = pytest.mark.skipif(
    os.geteuid() != 0 or not all(map(shutil.which, PROGRAMS)), reason="no Slurm is here, or it can't be started"
)
CONFIGURATION = """\
ClusterName=test
SlurmctldHost={host}(127.0.0.1)
SlurmctldPort={control}
SlurmdPort={node}
SlurmUser=root
AuthType=auth/munge
AuthInfo=socket={folder}/munge.socket
CredType=cred/munge
StateSaveLocation={folder}/state
SlurmdSpoolDir={folder}/spool
SlurmctldPidFile={folder}/slurmctld.pid
SlurmdPidFile={folder}/slurmd.pid
ProctrackType=proctrack/linuxproc
TaskPlugin=task/none
SwitchType=switch/none
MpiDefault=none
ReturnToService=2
SchedulerParameters=batch_sched_delay=0,sched_interval=1,sched_min_interval=10000
NodeName={host} NodeAddr=127.0.0.1 CPUs={cpus} State=UNKNOWN
PartitionName=all Nodes=ALL Default=YES MaxTime=INFINITE State=UP
"""


def free_port() -> int:
    with socket.socket() as it:
        it.bind(("127.0.0.1", 0))
        port: int = it.getsockname()[1]
        return port


def daemons(folder: Path) -> list[list[str]]:
    """The commands that start a Slurm of one machine below a folder."""
    (folder / "state").mkdir()
    (folder / "spool").mkdir()
    (folder / "munge.key").write_bytes(os.urandom(128))
    (folder / "munge.key").chmod(0o600)
    host = socket.gethostname().split(".")[0]
    text = CONFIGURATION.format(
        host=host, folder=folder, control=free_port(), node=free_port(), cpus=os.cpu_count() or 1
    )
    (folder / "slurm.conf").write_text(text)
    files = [f"--{it}-file={folder}/munge.{it}" for it in ("key", "pid", "log", "seed")]
    return [
        ["munged", "--foreground", "--force", f"--socket={folder}/munge.socket", *files],
        ["slurmctld", "-D", "-c"],
        ["slurmd", "-D", "-c"],
    ]


@pytest.fixture
def slurm(tmp_path: Path) -> Iterator[dict[str, str]]:
    """The environment in which Slurm's commands reach a Slurm of this test's own."""
    folder = tmp_path / "slurm"
    folder.mkdir()
    environment = {**os.environ, "SLURM_CONF": str(folder / "slurm.conf")}
    with open(folder / "log", "wb") as log:
        running = []
        for words in daemons(folder):
            running.append(subprocess.Popen(words, env=environment, stdout=log, stderr=log, cwd=folder))
            time.sleep(1)
        try:
            yield environment
        finally:
            for run in reversed(running):
                run.terminate()
                run.wait()


def test_slurm_answers_the_same(million: Million, slurm: dict[str, str], tmp_path: Path) -> None:
    for at in range(FRONTS):
        million.written(tmp_path, at)
    for it in ("settings.toml", "demand.csv", "costs.csv", "capacity.csv", "plan.txt"):
        shutil.copy(million.folder / it, tmp_path)
    shutil.copy(os.environ["HSPLAN"], tmp_path / "hsplan")
    names = ["hsplan", "plan.txt", "demand.csv"]
    sums = [f"{hashlib.sha256((tmp_path / it).read_bytes()).hexdigest()}  {it}\n" for it in names]
    (tmp_path / "SHA256SUMS").write_text("".join(sums))
    recipe = DOCUMENT.split("### Slurm arrays")[1].split("```sh\n")[1].split("```")[0]
    for old, new in (
        ("0-63", f"0-{FRONTS - 1}"),
        ("/shared/hour", str(tmp_path)),
        ("--fronts 64", f"--fronts {FRONTS}"),
    ):
        assert old in recipe
        recipe = recipe.replace(old, new)
    (tmp_path / "answer.sh").write_text(recipe)
    words = ["sbatch", "--wait", "--chdir", str(tmp_path), "answer.sh"]
    done = subprocess.run(words, cwd=tmp_path, env=slurm, capture_output=True, text=True, timeout=120)
    logs = "".join(it.read_text(errors="replace") for it in tmp_path.glob("slurm-*.out"))
    assert done.returncode == 0, done.stdout + done.stderr + logs + (tmp_path / "slurm" / "log").read_text()[-3000:]
    assert million.are_answered(tmp_path)
