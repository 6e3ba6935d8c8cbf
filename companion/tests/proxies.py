"""A real HAProxy on loopback, with files that hsp wrote."""

import contextlib
import http.client
import socket
import subprocess
import tempfile
from collections.abc import Iterator
from dataclasses import dataclass, field
from pathlib import Path

from conftest import Hsp, until


def free_ports(number: int) -> list[int]:
    """Ports at which nobody listens now."""
    with contextlib.ExitStack() as stack:
        sockets = [stack.enter_context(socket.socket()) for _ in range(number)]
        for own in sockets:
            own.bind(("127.0.0.1", 0))
        return [own.getsockname()[1] for own in sockets]


@dataclass
class Answer:
    """What was answered: the status, the headers in small letters, and the text."""

    status: int
    headers: dict[str, str]
    text: bytes

    @property
    def location(self) -> str:
        return self.headers.get("location", "")

    @property
    def host(self) -> str:
        """The scheme, the host and the port of a redirect."""
        return "/".join(self.location.split("/")[:3])


@dataclass
class Front:
    """A HAProxy that runs, and one connection to it."""

    port: int
    watch: int
    socket: str
    config: Path
    log: Path
    process: "subprocess.Popen[bytes]" = field(init=False)
    _asked: http.client.HTTPConnection = field(init=False)

    def __post_init__(self) -> None:
        self._asked = http.client.HTTPConnection("127.0.0.1", self.port, timeout=10)
        self.start()

    def start(self) -> None:
        with open(self.log, "ab") as file:
            command = ["haproxy", "-f", str(self.config)]
            self.process = subprocess.Popen(command, stdout=file, stderr=subprocess.STDOUT, cwd="/")
        wait(self.process, self.port, self.log)
        until(lambda: self._is_spoken_to() or self.process.poll() is not None)  # it listens at the port first

    def _is_spoken_to(self) -> bool:
        """Whether the runtime socket is that of a process, and not what one left that is gone."""
        with socket.socket(socket.AF_UNIX) as own:
            return own.connect_ex(self.socket) == 0

    def kill(self) -> None:
        self.process.kill()
        self.process.wait(10)
        self._asked.close()

    def stop(self) -> None:
        self.process.terminate()
        self.process.wait(10)

    def ask(self, path: str, client: str = "", method: str = "GET", **headers: str) -> Answer:
        given = {"X-Forwarded-For": client, **headers} if client else headers
        self._asked.request(method, path, headers=given)
        response = self._asked.getresponse()
        text = response.read()
        return Answer(response.status, {key.lower(): value for key, value in response.getheaders()}, text)

    def send(self, octets: bytes) -> bytes:
        """What is answered to octets, up to the end of the connection or of its first silence."""
        with socket.create_connection(("127.0.0.1", self.port), timeout=2) as own:
            own.sendall(octets)
            return b"".join(received(own))

    def say(self, words: str) -> str:
        """What the runtime socket answers."""
        with socket.socket(socket.AF_UNIX) as own:
            own.settimeout(5)
            own.connect(self.socket)
            own.sendall(f"{words}\n".encode())
            return b"".join(received(own)).decode()

    def uptime(self) -> int:
        """For how many seconds HAProxy has run."""
        said = dict(line.partition(": ")[::2] for line in self.say("show info").splitlines())
        return int(said["Uptime_sec"])

    def logged(self, lines: int) -> Path:
        """The log, once it has so many lines. HAProxy writes one after it has answered."""
        until(lambda: self.log.read_bytes().count(b"\n") >= lines)
        return self.log

    def taken(self) -> dict[str, int]:
        """How many queries each server was given."""
        lines = [line.split() for line in self.say("show table taken").splitlines() if "key=" in line]
        counts = {line[1].removeprefix("key="): line for line in lines}
        return {
            name: next(int(word.partition("=")[2]) for word in line if word.startswith("http_req_cnt="))
            for name, line in counts.items()
        }


def received(own: socket.socket) -> Iterator[bytes]:
    """What comes, until nothing comes for a while."""
    with contextlib.suppress(TimeoutError, ConnectionResetError):
        while piece := own.recv(1 << 16):
            yield piece


@contextlib.contextmanager
def answering(hsp: Hsp, folder: Path, into: Path, *words: str) -> Iterator[Front]:
    """HAProxy over the plan of a folder, as hsp exports it."""
    port, watch = free_ports(2)
    log = into.parent / f"{into.name}.log"
    with tempfile.TemporaryDirectory(prefix="hsp-", dir="/tmp") as short, contextlib.ExitStack() as stack:
        addresses = ["--listen", f"127.0.0.1:{port}", "--watch", f"127.0.0.1:{watch}", "--socket", f"{short}/s"]
        hsp("export", "haproxy", str(folder), "--into", str(into), *addresses, *words)
        front = Front(port, watch, f"{short}/s", into / "haproxy.cfg", log)
        stack.callback(front.stop)
        yield front


def wait(process: "subprocess.Popen[bytes]", port: int, log: Path) -> None:
    def listens() -> bool:
        assert process.poll() is None, f"HAProxy doesn't listen: {log.read_text()}"
        with contextlib.suppress(OSError), socket.create_connection(("127.0.0.1", port), timeout=1):
            return True
        return False

    until(listens)
