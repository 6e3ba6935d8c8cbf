"""What hsp holds in memory and on disk, and how long it takes, for files that are large or forged."""

import bz2
import gzip
import json
import lzma
import os
import random
import re
import resource
import signal
import subprocess
import sys
import time
from collections import Counter
from collections.abc import Callable
from pathlib import Path

import pytest

from hsp.base import bounds

from hsp.base.bounds import LARGEST, pieces, weight, whole
from hsp.base.programs import Programs
from hsp.base.unfit import Unfit
from hsp.doctor import guard
from hsp.doctor.findings import Place, Words, found
from hsp.fleet import answers
from hsp.intake import forms
from hsp.intake.forms import Remembered
from hsp.intake.logs import MOST_OF_LINE, Skipped, numbered, opened
from hsp.intake.queries import Judge
from hsp.intake.regions import DATABASE_MARK, regions_in
from hsp.intake.sitefiles import Files
from hsp.intake.tally import Tally
from hsp.plans.service import settings_in, table

from conftest import Example, until, variables
from test_sites import PARIS, invoke, site_json

TOO_LARGE = "more than 67,108,864 octets; a file that is read whole has at most so many"


def sparse(path: Path, octets: int) -> Path:
    """A file of zeros that takes no room."""
    with path.open("wb") as file:
        file.truncate(octets)
    return path


# hsp, which at its end writes what it had in memory at most. What a parent counts of a child begins with its own.
MEASURED = """
import atexit, re, sys
from hsp.cli import main
def end() -> None:
    said = open("/proc/self/status").read()
    open(sys.argv[-1], "w").write(re.search("VmHWM:\\s*([0-9]+) kB", said)[1])
atexit.register(end)
main(sys.argv[1:-1], prog_name="hsp")
"""


def measured(room: Path, *words: object) -> tuple[int, str, int]:
    """The status of a run of hsp, what it prints of a fault, and the octets that it had in memory at most."""
    environment = variables()
    command = [sys.executable, "-c", MEASURED, *map(str, words), str(room / "octets")]
    done = subprocess.run(command, env=environment, stdin=subprocess.DEVNULL, capture_output=True, text=True)
    return done.returncode, done.stderr, 1024 * int((room / "octets").read_text())


def test_no_file_is_read_whole_beyond_the_limit(tmp_path: Path) -> None:
    large, log = sparse(tmp_path / "large", LARGEST + 1), tmp_path / "log"
    log.write_text("client,handle\n192.0.2.1,20.500.1/a\n")
    networks = tmp_path / "networks.csv"
    networks.write_text("network,region\n192.0.2.0/24,eu\n")
    site = tmp_path / "site"
    site.write_bytes(PARIS)
    empty = tmp_path / "empty"
    empty.mkdir()
    for name in ("settings.toml", "costs.csv"):
        sparse(empty / name, LARGEST + 1)
    for path in (large, Path("/dev/zero")):
        for words in (["sites", path], ["demand", log, "--regions", path], ["fleet", "demand", log, "--regions", path]):
            assert invoke(*words, status=1).stderr.endswith(f"{path}: {TOO_LARGE}\n")
    said = invoke("demand", log, "--regions", networks, "--into", empty, status=1).stderr
    assert said.endswith(f"costs.csv: {TOO_LARGE}\n")
    assert invoke("sites", site, "--into", empty, status=1).stderr.endswith(f"settings.toml: {TOO_LARGE}\n")
    assert len(whole(str(sparse(tmp_path / "most", LARGEST)))) == LARGEST


def test_a_database_may_be_larger_than_what_is_read_whole(tmp_path: Path) -> None:
    pytest.importorskip("maxminddb")
    path = sparse(tmp_path / "large.mmdb", LARGEST + 1)
    with open(path, "ab") as file:
        file.write(DATABASE_MARK)
    for other, why in ((path, "not a MaxMind database"), (sparse(tmp_path / "table", LARGEST + 1), "at most")):
        with pytest.raises(Unfit, match=why):
            regions_in(str(other), "a", None)


def test_standard_input_has_the_limit_too() -> None:
    environment = variables()
    with open("/dev/zero", "rb") as zeros:
        command = [sys.executable, "-m", "hsp", "sites", "-"]
        done = subprocess.run(command, stdin=zeros, capture_output=True, text=True, env=environment)
    assert (done.returncode, done.stderr) == (1, f"hsp: -: {TOO_LARGE}\n")


def test_a_pipe_without_an_end_is_read_to_the_limit(folder: Path) -> None:
    said = invoke("plan", folder, "--demand", "/dev/zero", status=5).stderr
    assert said.startswith("error: the file has more than 67,108,864 octets\n--> /dev/zero\n")


@pytest.mark.parametrize("command", ["demand", "sites"])
def test_memory_that_is_out_is_one_line(tmp_path: Path, monkeypatch: pytest.MonkeyPatch, command: str) -> None:
    def none(*_: object) -> None:
        raise MemoryError

    (tmp_path / "x").write_text("x")
    monkeypatch.setattr("hsp.intake.bring.regions_in" if command == "demand" else "hsp.intake.bring.octets_of", none)
    words = [command, tmp_path / "x", *(["--regions", tmp_path / "x"] if command == "demand" else [])]
    assert invoke(*words, status=4).stderr == "hsp: out of memory\n"


def test_a_long_key_takes_little_memory(tmp_path: Path) -> None:
    """A group that repeats would hold a place for each pair of digits."""
    site = site_json("paris", 7)
    site["servers"][0]["publicKey"] = {"value": "A" * 12_000_000}
    (tmp_path / "site.json").write_text(json.dumps(site))
    status, _, octets = measured(tmp_path, "sites", tmp_path / "site.json", "--into", tmp_path)
    assert (status, octets < 300_000_000) == (0, True), octets


def forged_list(values: int, zeros: int) -> bytes:
    """Octets that look like so many values of a list, each of which goes on to the end."""
    return b"".join(b"\0\0\0\1\0\0\0\7HS_SITE" + zeros.to_bytes(4, "big") for _ in range(values)) + bytes(zeros + 9000)


def test_candidates_are_not_kept(tmp_path: Path, monkeypatch: pytest.MonkeyPatch) -> None:
    monkeypatch.setenv("TMPDIR", str(tmp_path))
    monkeypatch.setattr("tempfile.tempdir", None)
    programs, put = Programs(), Programs.put
    written = []

    def counting(self: Programs, text: bytes, suffix: str = ".txt") -> str:
        written.append(len(text))
        return put(self, text, suffix)

    monkeypatch.setattr(Programs, "put", counting)
    octets = forged_list(300, 100_000)
    with pytest.raises(Unfit):
        Files(programs).read("forged", octets)
    assert sum(written) < 8 * len(octets)
    assert [it.suffix for it in tmp_path.glob("hsp-*/*")] == [".values"]


def test_long_lines_take_little_memory(tmp_path: Path) -> None:
    """Lines of 32 KB, of which a few octets of a packed log hold many."""
    networks, log = tmp_path / "networks.csv", tmp_path / "log.gz"
    networks.write_text("network,region\n192.0.2.0/24,eu\n")
    with gzip.open(log, "wb", 1) as file:
        file.write(b"client,handle\n")
        for number in range(6000):
            file.write(b"192.0.2.1,20.500.1/%d-%b\n" % (number, b"x" * 32_700))
    status, said, octets = measured(tmp_path, "demand", log, "--regions", networks)
    assert (status, octets < 250_000_000) == (1, True), octets
    assert "6,000  not a handle (TooLong)" in said


def test_queries_are_written_out_by_their_octets(monkeypatch: pytest.MonkeyPatch) -> None:
    """The sums are those of one count over everything."""
    draw, programs = random.Random(3), Programs()
    asked = [(draw.choice((b"eu", b"us")), b"20.500.1/%d" % draw.randrange(600)) for _ in range(3000)]
    monkeypatch.setattr("hsp.intake.tally.MOST_HELD", 20_000)
    monkeypatch.setattr(bounds, "MOST_AT_ONCE", 50)
    one, many = Tally(programs), Tally(programs, most=1 << 40)
    for _ in one.add(asked):
        assert weight(one._counts) <= 20_000 + 50 * 250
    monkeypatch.setattr("hsp.intake.tally.MOST_HELD", 1 << 40)
    assert len(list(many.add(asked))) == 60
    assert one._spilled and not many._spilled
    for own in (one, many):
        sums: Counter[tuple[bytes, ...]] = Counter()
        for row in b"".join(own.demand().pieces()).split(b"\n")[1:-1]:
            region, handle, count = row.split(b",")
            sums[region, handle] += int(count)
        assert sums == Counter(asked)


def test_pieces_are_small_and_lose_nothing(monkeypatch: pytest.MonkeyPatch) -> None:
    assert [len(it) for it in pieces([(b"eu", bytes(1 << 20))] * 6)] == [5, 1]  # the last one is above 4 MiB
    monkeypatch.setattr(bounds, "OCTETS_AT_ONCE", 1000)
    monkeypatch.setattr(bounds, "MOST_AT_ONCE", 7)
    queries = [(b"eu", b"x" * (number % 500)) for number in range(900)]
    found_ones = list(pieces(queries))
    assert [it for piece in found_ones for it in piece] == queries
    assert max(map(len, found_ones)) == 7
    assert all(sum(len(it) for _, it in piece[:-1]) <= 1000 for piece in found_ones)


def test_what_is_remembered_is_bounded(monkeypatch: pytest.MonkeyPatch) -> None:
    monkeypatch.setattr(forms, "MOST_REMEMBERED", 10_000)
    seen: list[bytes] = []

    def function(key: bytes) -> bytes:
        seen.append(key)
        return key

    remembered = Remembered(function)
    for number in range(200):
        assert remembered[b"%d" % number] == b"%d" % number
        assert len(remembered) <= 41
    assert remembered[b"199"] == b"199" and len(seen) == 200
    judge = Judge(Programs(), most=5000)
    for number in range(0, 200, 20):
        assert judge.faults(b"20.500.1/%d" % it for it in range(number, number + 20)) == {}
        assert len(judge._known) <= 60


def test_what_follows_a_stream_of_bzip2_is_one(tmp_path: Path) -> None:
    path, text = tmp_path / "log.bz2", b"".join(b"line %d\n" % it for it in range(100_000))
    first, more = bz2.compress(text), bz2.compress(b"more\n")
    path.write_bytes(first + bytes(9) + more + bz2.compress(b""))
    with opened(str(path)) as file:
        assert file.read() == text + b"more\n"
    damaged = b"BZx" + more[3:]
    for octets, why in (
        (first + damaged, "Invalid"),
        (first + b"junk", "Invalid"),
        (first + more[:9], "the file ends"),
    ):
        path.write_bytes(octets)
        with pytest.raises(Unfit, match=rf"log.bz2: line 100001: it can't be unpacked further: .*{why}"):
            list(numbered(str(path), Skipped()))


def test_an_xz_file_may_have_streams_and_no_great_memory(tmp_path: Path) -> None:
    path, text = tmp_path / "log.xz", b"".join(b"line %d\n" % it for it in range(100_000))
    path.write_bytes(lzma.compress(text) + bytes(40_000) + lzma.compress(b"more\n") + lzma.compress(b"") + bytes(4))
    with opened(str(path)) as file:
        assert file.read() == text + b"more\n"
    for octets, why in ((path.read_bytes()[:9000], "the file ends"), (b"\xfd7zXZ\x00" + bytes(40), "Corrupt|format")):
        path.write_bytes(octets)
        with pytest.raises(Unfit, match=rf"log.xz: line \d+: it can't be unpacked further: .*({why})"):
            list(numbered(str(path), Skipped()))
    great = [{"id": lzma.FILTER_LZMA2, "dict_size": 1 << 29}]
    path.write_bytes(lzma.compress(b"few\n", filters=great))
    with pytest.raises(Unfit, match="Memory usage limit"):
        list(numbered(str(path), Skipped()))


def test_a_line_without_an_end_is_not_held(tmp_path: Path) -> None:
    path = sparse(tmp_path / "log", 3 * MOST_OF_LINE + 5)
    with pytest.raises(Unfit, match="log: line 1: longer than 1,048,576 octets"):
        list(answers.blocks(str(path)))
    path.write_bytes(b"a\n" + b"x" * MOST_OF_LINE)
    assert b"".join(answers.blocks(str(path))) == path.read_bytes() + b"\n"


def finding(number: int) -> object:
    return found("file", Place(number), Words(f"fault {number}", "mend it"))


def test_an_explanation_without_an_end_is_ended(monkeypatch: pytest.MonkeyPatch) -> None:
    monkeypatch.setattr(guard, "SECONDS", 0.5)

    def work(show: Callable[[object], None]) -> None:
        show(finding(1))
        show(finding(2))
        time.sleep(60)

    begun = time.monotonic()
    result = guard.guarded(work)  # type: ignore[arg-type]
    assert (result.findings, result.is_ended) == ([finding(1), finding(2)], True)
    assert time.monotonic() - begun < 30


def test_an_explanation_that_takes_all_memory_is_ended(monkeypatch: pytest.MonkeyPatch) -> None:
    own = resource.getrusage(resource.RUSAGE_SELF).ru_maxrss * 1024
    monkeypatch.setattr(guard, "MEMORY", own + 100_000_000)

    def work(show: Callable[[object], None]) -> None:
        show(finding(1))
        held = []
        while True:
            held.append(b"x" * 1_000_000)
            time.sleep(0.001)

    result = guard.guarded(work)  # type: ignore[arg-type]
    assert (result.findings, result.is_ended) == ([finding(1)], True)


def test_an_explanation_says_what_it_came_to(monkeypatch: pytest.MonkeyPatch) -> None:
    result = guard.guarded(lambda show: [show(finding(1)), 7])  # type: ignore[arg-type]
    assert (result.findings, result.end, result.is_ended) == ([finding(1)], [None, 7], False)

    def failing(_: object) -> None:
        raise OSError(28, "No space left on device", "somewhere")

    with pytest.raises(OSError, match="No space left"):
        guard.guarded(failing)


@pytest.mark.parametrize("kind", ["settings.toml", "demand.csv", "hsp.toml"])
def test_the_doctor_ends_in_time(example: Example, monkeypatch: pytest.MonkeyPatch, kind: str) -> None:
    """It shows what it found until then, or hsplan's word."""
    monkeypatch.setattr(guard, "SECONDS", 1.5)
    folder = example("two-sites")
    texts = {"settings.toml": "[[site]]\n" * 3000, "demand.csv": "region,handle,count\n" + "," * 9_000_000}
    (folder / kind).write_text(texts.get(kind, "a." * 500_000 + "a = 1\n"))
    begun = time.monotonic()
    said = invoke("doctor", folder, status=1).stdout
    assert time.monotonic() - begun < 40
    if kind == "hsp.toml":
        assert said.startswith("error: hsp.toml has more than 262,144 octets\n")
        return
    assert said.startswith("error: site 1 has no name" if kind == "settings.toml" else "error: ")
    whole = "of some 3,000 findings" if kind == "settings.toml" else "findings?; there may be more"
    assert re.search(rf"\nthe first \d+ {whole}: mend these, and ask again\n", said)


def test_a_file_without_a_fault_may_be_too_large_for_warnings(
    example: Example, monkeypatch: pytest.MonkeyPatch
) -> None:
    monkeypatch.setattr(guard, "SECONDS", 0.0)
    said = invoke("doctor", example("two-sites")).stdout
    assert said.startswith("the files are too large to be looked at for warnings\nno fault")


def test_empty_lines_and_comments_are_read_over(folder: Path) -> None:
    settings, demand = folder / "settings.toml", folder / "demand.csv"
    read, rows = settings_in(str(settings)), table(str(demand))
    settings.write_text("\ufeff# above\n \t# [[site]]\n\n" + settings.read_text().replace("\n", "\r\n#\r\n\r\n"))
    demand.write_text(demand.read_text().replace("\n", "\n\r\n\n"))
    assert (settings_in(str(settings)), table(str(demand))) == (read, rows)
    settings.write_text('name = """\n# this is text\n"""\n')
    assert settings_in(str(settings)) == {"name": "# this is text\n"}
    demand.write_text('a,b\n"x\n\ny",1\n')
    assert table(str(demand)) == [["x\n\ny", "1"]]


def test_a_key_of_titles_has_few_parts(folder: Path) -> None:
    """A reader of TOML takes time that grows with the square of them."""
    (folder / "hsp.toml").write_text("a." * 100 + "a = 1\n" + 'title = "' + "." * 200 + '"\n')
    assert invoke("plan", folder).stdout.startswith("." * 200)
    (folder / "hsp.toml").write_text("a." * 101 + "a = 1\n")
    assert invoke("plan", folder, status=1).stderr == f"hsp: {folder}/hsp.toml: a key of more than 100 parts\n"


def test_an_explanation_is_quiet_and_would_end_by_itself(capfd: pytest.CaptureFixture[str]) -> None:
    result = guard.guarded(lambda _: (os.write(2, b"noise"), signal.alarm(0)))
    assert result.end == (5, 2 * guard.SECONDS) and capfd.readouterr().err == ""


def test_what_an_explanation_has_started_ends_with_it(tmp_path: Path, monkeypatch: pytest.MonkeyPatch) -> None:
    monkeypatch.setattr(guard, "SECONDS", 0.5)
    words = ["sh", "-c", f"echo $$ > {tmp_path}/own; mv {tmp_path}/own {tmp_path}/pid; exec sleep 60"]
    assert guard.guarded(lambda _: subprocess.run(words)).is_ended
    status = Path(f"/proc/{int((tmp_path / 'pid').read_text())}/status")
    until(lambda: not status.exists() or "State:\tZ" in status.read_text(), 10)
