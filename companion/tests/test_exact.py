"""Small parts at their bounds: the last value on one side, and the first on the other."""

import doctest
import os
import time
from collections import Counter
from collections.abc import Iterator
from pathlib import Path

import pytest

from hsp.base import text

from hsp.base.programs import Programs
from hsp.base.unfit import Unfit
from hsp.fleet import engine
from hsp.fleet.answers import blocks
from hsp.intake import logs, prefixes, progress, reader, tally
from hsp.intake.forms import Form
from hsp.intake.logs import LONGEST, MOST_OF_LINE, Skipped, numbered
from hsp.intake.prefixes import MOST_SHOWN, Prefixes
from hsp.intake.queries import Judge, Reading
from hsp.intake.side_by_side import parts_of
from hsp.intake.sitefiles import Files
from hsp.intake.tally import Tally

from printed import heads, kept
from test_engine import Client, Future, fit, made


@pytest.mark.parametrize("head", heads("exact"))
def test_small_parts_print_what_was_read(head: str) -> None:
    """Each head of printed/exact.txt has a session of Python."""
    session = doctest.DocTestParser().get_doctest(kept("exact")[head], {}, head, "exact.txt", 0)
    assert session.examples and not doctest.DocTestRunner().run(session).failed


def test_lines_of_a_log_at_their_greatest_length(tmp_path: Path) -> None:
    path = tmp_path / "log"
    path.write_bytes(b"a" * LONGEST + b"\n" + b"b" * (LONGEST + 1) + b"\n\nc\r\n" + b"d" * LONGEST)
    skipped = Skipped()
    assert [(at, line[:1], len(line)) for at, line in numbered(str(path), skipped)] == [
        (1, b"a", LONGEST),
        (4, b"c", 1),
        (5, b"d", LONGEST),
    ]
    assert (skipped.sum, skipped.counts) == (1, {"longer than 32,768 octets": 1})
    assert skipped.first["longer than 32,768 octets"].startswith(f"{path}:2: 'bbb")
    path.write_bytes(b"e" * (LONGEST + 1))
    assert list(numbered(str(path), skipped)) == [] and skipped.sum == 2
    path.write_bytes(b"x" * MOST_OF_LINE + b"\ny" * 2)
    assert b"".join(blocks(str(path))) == path.read_bytes() + b"\n"
    path.write_bytes(b"x" * (MOST_OF_LINE + 1))
    with pytest.raises(Unfit, match="line 1: longer than"):
        list(blocks(str(path)))


def counted(prefix: bytes, count: int) -> dict[tuple[bytes, bytes], int]:
    return {(b"eu", prefix + b"/a"): count}


def test_few_prefixes_are_held(monkeypatch: pytest.MonkeyPatch) -> None:
    monkeypatch.setattr(prefixes, "MOST_PREFIXES", 4)
    found = Prefixes()
    for at in range(5):
        found.add(counted(b"p%d" % at, 10 - at))
        assert len(found._counts) == len(found._first) == (at + 1 if at < 4 else 2)
    assert dict(found._counts) == {b"p0": 10, b"p1": 9}
    found.add({(b"eu", b"q" * 300 + b"/x"): 1})
    assert max(map(len, found._counts)) == MOST_SHOWN and len(found._first[b"q" * MOST_SHOWN]) == MOST_SHOWN


def test_pairs_are_spilled_above_so_many(monkeypatch: pytest.MonkeyPatch) -> None:
    spilled: list[int] = []
    monkeypatch.setattr(Tally, "_spill", lambda self: spilled.append(len(self._counts)) or self._counts.clear())
    own = Tally(Programs(), most=3)
    for number in range(1, 6):
        list(own.add([(b"eu", b"20.500.1/%d" % number)]))
    assert (spilled, own.asked) == ([4], 5)
    own = Tally(Programs())
    monkeypatch.setattr(tally, "MOST_HELD", own._octets + 2 * 200 + 20)
    for number in range(3):
        list(own.add([(b"eu", b"20.500.1/%d" % number)]))
    assert spilled == [4, 3] or own._octets <= 2 * 200 + 20


def test_handles_are_judged_in_batches(tmp_path: Path, monkeypatch: pytest.MonkeyPatch) -> None:
    """Lines wait for so many octets as soon as there is a new handle. A part ends with so many octets, or pairs."""
    asked: list[list[bytes]] = []
    monkeypatch.setattr(Judge, "faults", lambda self, handles: asked.append(sorted(handles)) or {})
    monkeypatch.setattr(logs, "TOGETHER", 16)  # each line is a block
    path = tmp_path / "log"
    path.write_text("client,handle\n" + "10.0.0.1,20.1/%d\n" * 10 % (0, 0, 1, 0, 0, 0, 0, 0, 2, 3))

    def ran(octets: int, of_part: int, pairs: int) -> list[int]:
        asked.clear()
        monkeypatch.setattr(reader, "BATCH_OCTETS", octets)
        monkeypatch.setattr(reader, "PIECE", of_part)
        monkeypatch.setattr(reader, "MOST_AT_ONCE", pairs)
        reading = Reading(Form("csv"), lambda _: b"eu", Judge(Programs()))
        found = list(parts_of([str(path)], reading))
        assert [part.is_last for part in found] == [False] * (len(found) - 1) + [True] and reading.lines == 10
        counts = sum((part.counts for part in found), Counter())
        assert counts == {(b"eu", b"20.1/%d" % at): number for at, number in enumerate((7, 1, 1, 1))}
        return [part.lines for part in found]

    each = [[b"20.1/%d" % at] for at in range(4)]
    assert (ran(1, 1000, 100), asked) == ([10], each)
    assert (ran(33, 1000, 100), asked) == ([10], [each[0], each[1], [b"20.1/2", b"20.1/3"]])
    assert ran(1, 51, 100) == [4, 4, 2]
    assert ran(1, 1000, 1) == [3, 6, 1]


def test_how_much_of_all_logs_was_read(tmp_path: Path, monkeypatch: pytest.MonkeyPatch) -> None:
    """Two files of 100 octets, read twice: a half of the first file is an eighth of all."""
    paths = [str(tmp_path / it) for it in "ab"]
    for it in paths:
        Path(it).write_bytes(b"x" * 100)
    os.mkfifo(tmp_path / "pipe")
    assert [progress.octets_of(it) for it in (paths, paths[:1], [str(tmp_path / "pipe")], ["none"], [])] == [
        200,
        100,
        None,
        None,
        0,
    ]
    gauge = progress.Gauge(paths, 2)
    assert [gauge.share(it) for it in (0, 50, 400, 500)] == [0.0, 0.125, 1.0, 1.0]
    assert progress.Gauge(["none"]).share(5) is None
    clock: Iterator[float] = iter([100.0, 100.5, 100.51, 101.0, 101.02, 110.0])
    monkeypatch.setattr(time, "monotonic", lambda: next(clock))
    monkeypatch.setattr(time, "time", lambda: 1_000_000.0)
    lines: list[str] = []
    monkeypatch.setattr(progress, "show_progress", lines.append)
    own = progress.Progress(progress.Gauge(["none"]))
    for count in (10, 20, 30, 40, 5000):
        own.show("log", count, 5)
    assert lines == ["log: 10 lines, 20 a second", "log: 40 lines, 39 a second", "log: 5,000 lines, 500 a second"]
    end = time.strftime("%H:%M:%S", time.localtime(1_000_000 + 30))
    clock = iter([100.0, 110.0])
    progress.Progress(progress.Gauge(paths[:1])).show("log", 100, 25)
    assert lines[-1] == f"log: 100 lines, 10 a second, 25%, until {end}"


def test_what_is_nested_too_deep_is_said(monkeypatch: pytest.MonkeyPatch) -> None:
    def deep(*_: object) -> None:
        raise RecursionError

    monkeypatch.setattr(Files, "_sites", deep)
    with pytest.raises(Unfit, match="^a.json: its JSON is nested too deep$"):
        Files(Programs()).read("a.json", b"[]")


def test_sweeps_at_hosts_are_waited_for(monkeypatch: pytest.MonkeyPatch) -> None:
    """As long as they are under way, and not without a pause."""
    pauses: list[float] = []
    monkeypatch.setattr(engine.time, "sleep", pauses.append)
    client = Client(a=fit("h"))
    waiting = Future({}, looks=3)
    client.submit = lambda *_, **__: waiting  # type: ignore[method-assign, assignment]
    made(client)._sweep_hosts([(["/far/log"], "h")])
    assert waiting.looks < 0 and pauses == [0.02] * 3


def test_a_terminal_gets_bold_dim_and_coloured_words(monkeypatch: pytest.MonkeyPatch) -> None:
    assert [text.bold("a"), text.dim("a"), text.colored("a", "red")] == ["a"] * 3
    monkeypatch.setattr(text.sys.stdout, "isatty", lambda: True, raising=False)
    monkeypatch.delenv("NO_COLOR", raising=False)
    found = [text.bold("a"), text.dim("a"), text.colored("a", "red"), text.colored("a", "yellow")]
    said: list[tuple[str, bool]] = []
    monkeypatch.setattr(text.click, "echo", lambda line, err=False, nl=True: said.append((line, nl)))
    for words in found:
        text.say(words)
    shown = ["\x1b[1ma\x1b[0m", "\x1b[2ma\x1b[0m", "\x1b[31m\x1b[1ma\x1b[0m", "\x1b[33m\x1b[1ma\x1b[0m"]
    assert [line for line, _ in said] == shown
    said.clear()
    text.say(f"{found[0]}\x1b[2J")
    text.give("a\x07\nb\n")
    text.give(b"\xffc")
    text.show_progress("50%\x07")
    monkeypatch.setenv("NO_COLOR", "1")
    text.say("\x1b[1m")
    assert said == [
        ("\x1b[1ma\x1b[0m\\x1b[2J", True),
        ("a\\x07", True),
        ("b", True),
        ("\ufffdc", True),
        ("\r50%\\x07\x1b[K", False),
        ("\\x1b[1m", True),
    ]
    assert text.is_plain() and [text.visible(it) for it in ("a\tb", "a\x07", "\ufeffé\u00a0")] == [
        "a\u2423b",
        "a\ufffd",
        "\u2423é\u2423",
    ]
