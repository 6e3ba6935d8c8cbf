"""A scheduler and workers of this machine: processes of their own on the loopback address, that end with this one.

They listen by TLS with a key that is made for the run. So no other user of the machine can give them work.
"""

import json
import os
import shutil
import subprocess
import sys
import tempfile
import time

from hsp.base.programs import Missing
from hsp.base.signals import uncut

# Workers that end are started again, but not without end.
MOST_RESTARTS = 5
# Nobody looks at what Dask measures of itself all the time.
QUIET = {"DASK_DISTRIBUTED__WORKER__PROFILE__ENABLED": "False", "DASK_DISTRIBUTED__ADMIN__TICK__INTERVAL": "500ms"}
SETTINGS = {
    **QUIET,
    "DASK_DISTRIBUTED__SCHEDULER__ALLOWED_FAILURES": "3",
    "DASK_DISTRIBUTED__SCHEDULER__WORKER_TTL": "60s",
    "DASK_DISTRIBUTED__COMM__TIMEOUTS__CONNECT": "30s",
    "DASK_DISTRIBUTED__ADMIN__TICK__LIMIT": "30s",
    "OMP_NUM_THREADS": "1",
}
KEY = "openssl req -x509 -newkey ec -pkeyopt ec_paramgen_curve:prime256v1 -nodes -days 30 -subj /CN=hsp-fleet"

# A port is open for Dask's pages even without them: it must not be seen by other machines, or be another user's.
LOOPBACK = ["--host", "127.0.0.1", "--dashboard-address", "127.0.0.1:0", "--no-dashboard"]


class Gone(Exception):
    """The scheduler or the workers have ended, and nothing can go on."""


class Local:
    """The processes, and the folder with all that they keep."""

    def __init__(self, number: int) -> None:
        for program in ("setpriv", "openssl"):
            if not shutil.which(program):
                raise Missing(
                    f"{program} isn't in PATH: workers of this machine need it (Debian: util-linux and openssl)"
                )
        self.number, self.restarts, self._started = number, 0, 0
        self.folder = ""
        self._scheduler: subprocess.Popen[bytes] | None = None
        self._workers: list[subprocess.Popen[bytes]] = []
        try:
            with uncut():
                self.folder = tempfile.mkdtemp(prefix="hsp-fleet-")
            self.certificate, self.key = (os.path.join(self.folder, name) for name in ("certificate.pem", "key.pem"))
            self._file = os.path.join(self.folder, "scheduler.json")
            self._begin()
        except BaseException:
            self.close()
            raise

    def _begin(self) -> None:
        words = KEY.split() + ["-keyout", self.key, "-out", self.certificate]
        if subprocess.run(words, capture_output=True).returncode:
            raise Gone("openssl made no key for the workers of this machine")
        where = ["--port", "0", "--protocol", "tls"]
        self._scheduler = self._start("dask_scheduler", "--scheduler-file", self._file, "--no-show", *where)
        for _ in range(self.number):
            self._workers.append(self._worker())

    def _start(self, module: str, *words: str) -> subprocess.Popen[bytes]:
        """Starts a process that is killed when this one ends, and that a terminal's interrupt doesn't reach."""
        keys = ["--tls-ca-file", self.certificate, "--tls-cert", self.certificate, "--tls-key", self.key]
        command = ["setpriv", "--pdeathsig", "KILL", "--", sys.executable, "-m", f"distributed.cli.{module}"]
        with open(self._log(module), "ab") as log:
            return subprocess.Popen(
                [*command, *words, *keys, *LOOPBACK],
                stdin=subprocess.DEVNULL,
                stdout=log,
                stderr=log,
                env={**os.environ, **SETTINGS},
                cwd=self.folder,
                start_new_session=True,
            )

    def _log(self, module: str) -> str:
        return os.path.join(self.folder, f"{module}.log")

    def _worker(self) -> subprocess.Popen[bytes]:
        self._started += 1
        own = os.path.join(self.folder, f"worker-{self._started}")
        words = ["--scheduler-file", self._file, "--no-nanny", "--nthreads", "1", "--memory-limit", "0"]
        where = ["--protocol", "tls", "--local-directory", own, "--death-timeout", "60"]
        return self._start("dask_worker", *words, *where)

    def address(self, patience: float) -> str:
        """Where the scheduler listens, as soon as it does."""
        until = time.monotonic() + patience
        while time.monotonic() < until:
            self.tend()
            try:
                with open(self._file, encoding="utf-8") as file:
                    return str(json.load(file)["address"])
            except (OSError, ValueError):
                time.sleep(0.02)
        raise Gone(f"the scheduler of this machine didn't start within {patience:.0f} seconds")

    def tend(self) -> None:
        """Starts workers again that have ended."""
        if self._scheduler and self._scheduler.poll() is not None:
            raise Gone("the scheduler of this machine has ended" + self._last("dask_scheduler"))
        for at, worker in enumerate(self._workers):
            if worker.poll() is not None:
                self.restarts += 1
                if self.restarts > MOST_RESTARTS * self.number:
                    raise Gone("the workers of this machine end again and again" + self._last("dask_worker"))
                self._workers[at] = self._worker()

    def _last(self, module: str) -> str:
        """The last line that such a process wrote."""
        try:
            with open(self._log(module), encoding="utf-8", errors="replace") as file:
                lines = [line.strip() for line in file if line.strip()]
        except OSError:
            return ""
        return f": {lines[-1][:200]}" if lines else ""

    def close(self) -> None:
        """Ends the processes, and takes their folder away. What they run ends with them."""
        running = [*self._workers, *([self._scheduler] if self._scheduler else [])]
        for child in running:
            child.kill()
        for child in running:
            child.wait()
        time.sleep(0.05)  # the kernel ends their children after them
        shutil.rmtree(self.folder, ignore_errors=True)
