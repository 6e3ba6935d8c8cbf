"""hsp steer at a socket where something else than HAProxy answers, and beside files that aren't as hsp wrote them."""

import contextlib
import os
import socket
import threading
import time
from collections.abc import Callable, Iterator
from pathlib import Path

import pytest

from hsp.base.programs import Missing, Programs
from hsp.base.unfit import Unfit
from hsp.plans.proxied import url_of
from hsp.proxy import runtime
from hsp.proxy.runtime import Runtime
from hsp.proxy.steer import read_anew

from conftest import Example, Hsp
from test_proxy import NETWORKS

Answering = Callable[[socket.socket, bytes], None]
INFO = b"Name: HAProxy\nPid: 7\nUptime_sec: %b\nStart_time_sec: 5\n"
TABLE = b"# table: taken\n0x1: key=paris:1 use=0 http_req_cnt=%b http_req_rate(60000)=1\n"
NINES = b"9" * 400


@pytest.fixture
def answering(tmp_path: Path) -> Iterator[Callable[[Answering], str]]:
    """A socket at which a function answers each command. Returns its path."""
    with contextlib.ExitStack() as stack:

        def listening(answer: Answering) -> str:
            own = stack.enter_context(socket.socket(socket.AF_UNIX))
            path = f"{tmp_path}/own.sock"
            own.bind(path)
            own.listen(9)
            threading.Thread(target=_serve, args=(own, answer), daemon=True).start()
            return path

        yield listening


def _serve(own: socket.socket, answer: Answering) -> None:
    with contextlib.suppress(OSError):
        while True:
            theirs, _ = own.accept()
            with theirs, contextlib.suppress(OSError):
                answer(theirs, theirs.recv(1 << 16))


def _drips(theirs: socket.socket, _: bytes) -> None:
    while True:
        theirs.sendall(b"x")
        time.sleep(0.05)


def _floods(theirs: socket.socket, _: bytes) -> None:
    while True:
        theirs.sendall(b"x" * (1 << 16))


def _counts(uptime: bytes, count: bytes) -> Answering:
    def answer(theirs: socket.socket, words: bytes) -> None:
        theirs.sendall(INFO % uptime if words == b"show info\n" else TABLE % count)

    return answer


def test_an_answer_that_never_ends_is_not_waited_for(answering: Callable[[Answering], str]) -> None:
    begun = time.monotonic()
    with pytest.raises(Missing, match="HAProxy doesn't answer there: timed out"):
        Runtime(answering(_drips)).say("show info", 0.5)
    assert time.monotonic() - begun < 30


def test_an_answer_without_end_takes_little_memory(
    answering: Callable[[Answering], str], monkeypatch: pytest.MonkeyPatch
) -> None:
    monkeypatch.setattr(runtime, "PATIENCE", 60)
    with pytest.raises(Missing, match="what answers there isn't HAProxy"):
        Runtime(answering(_floods)).say("show info", 60)


@pytest.mark.parametrize("uptime, count", [(NINES, b"1"), (b"9" * 5000, b"1"), (b"1", NINES), (b"1", b"9" * 5000)])
def test_numbers_that_no_counter_has_are_not_haproxys(
    answering: Callable[[Answering], str], uptime: bytes, count: bytes
) -> None:
    with pytest.raises(Missing, match="what answers there isn't HAProxy"):
        Runtime(answering(_counts(uptime, count))).reading()


def test_numbers_of_haproxy_are_read(answering: Callable[[Answering], str]) -> None:
    reading = Runtime(answering(_counts(b"100", b"12"))).reading()
    assert (reading.run, reading.counts) == ("7 5", {"paris:1": 12})


@pytest.fixture
def proxy(hsp: Hsp, example: Example, tmp_path: Path) -> Path:
    (tmp_path / "networks.csv").write_text(NETWORKS)
    folder = example("two-sites")
    hsp("export", "haproxy", str(folder), "--into", f"{tmp_path}/proxy", "--regions", f"{tmp_path}/networks.csv")
    return tmp_path / "proxy"


def test_counts_are_not_written_through_a_link(hsp: Hsp, proxy: Path, tmp_path: Path) -> None:
    (tmp_path / "mine.txt").write_text("mine")
    (proxy / "steer.json").symlink_to("../mine.txt")
    ended = hsp("steer", f"{tmp_path}/two-sites", "--into", str(proxy), "--once", status=1)
    assert ended.stderr == f"hsp: {proxy}/steer.json: no file of its own; hsp steer writes its counts there\n"
    (proxy / "steer.json").unlink()
    os.mkfifo(proxy / "steer.json")
    ended = hsp("steer", f"{tmp_path}/two-sites", "--into", str(proxy), "--once", status=1)
    assert "no file of its own" in ended.stderr and (tmp_path / "mine.txt").read_text() == "mine"


@pytest.mark.parametrize("kind", ["pipe", "socket", "folder"])
def test_figures_are_not_written_into_what_is_no_file(hsp: Hsp, proxy: Path, tmp_path: Path, kind: str) -> None:
    figures = tmp_path / "hsp.prom"
    own = socket.socket(socket.AF_UNIX)
    {"pipe": os.mkfifo, "socket": lambda path: own.bind(str(path)), "folder": os.mkdir}[kind](figures)
    words = ["steer", f"{tmp_path}/two-sites", "--into", str(proxy), "--once", "--metrics", str(figures)]
    why = "hsp steer writes its figures there anew, time and again"
    assert hsp(*words, status=1).stderr == f"hsp: {figures}: no regular file; {why}\n"
    own.close()


@pytest.mark.parametrize("kind", ["pipe", "folder"])
def test_a_folder_is_not_read_anew_from_what_is_no_file(proxy: Path, tmp_path: Path, kind: str) -> None:
    demand = tmp_path / "two-sites/demand.csv"
    demand.unlink()
    {"pipe": os.mkfifo, "folder": os.mkdir}[kind](demand)
    with pytest.raises(Unfit, match="demand.csv: no regular file; hsp steer reads its files anew"):
        read_anew(f"{tmp_path}/two-sites", {}, Programs())


@pytest.mark.parametrize("words", ["it's", "   ", "a b"])
def test_a_socket_that_hsp_has_not_written_so(hsp: Hsp, proxy: Path, tmp_path: Path, words: str) -> None:
    config = proxy / "haproxy.cfg"
    config.write_text(f"global\n  stats socket {words} mode 600 level admin\n")
    ended = hsp("steer", f"{tmp_path}/two-sites", "--into", str(proxy), "--once", status=1)
    why = "hsp export hasn't written it so: it has no socket of HAProxy's runtime"
    assert ended.stderr == f"hsp: {config}: {why}\n"


@pytest.mark.parametrize("host", ["[:::::]", "[192.0.2.1]", "999.1.1.1", "192.0.2", "1"])
def test_what_only_looks_as_an_address_is_none(hsp: Hsp, example: Example, tmp_path: Path, host: str) -> None:
    (tmp_path / "networks.csv").write_text(NETWORKS)
    words = ["export", "haproxy", str(example("two-sites")), "--into", f"{tmp_path}/proxy"]
    words += ["--regions", f"{tmp_path}/networks.csv"]
    ended = hsp(*words, "--listen", f"{host}:80", status=1)
    assert ended.stderr.startswith(f"hsp: '{host}:80' is no address to listen at")
    assert url_of(f"http://{host}:80") is None and url_of("http://a1:80") and url_of("http://[::1]")


def test_a_long_line_of_a_table_is_read_in_its_length() -> None:
    """Each word of it may be the beginning of a count."""
    before = time.monotonic()
    assert runtime._counts("key=a " * 300_000 + "\n0x1: key=b use=0 http_req_cnt=7 gpc0=1\n") == {"b": 7}
    assert time.monotonic() - before < 30
