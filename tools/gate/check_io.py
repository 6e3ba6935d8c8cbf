#!/usr/bin/env python3
"""Makes each call of `open`, `read`, `write` and `close` of the built program fail in turn, over the cases in
checks/hsplan.

    tools/gate/check_io.py [--jobs N] [--each N] [CASE]..    one in N of the failing calls

Each case is run as tools/gate/check_program.py runs it, with its words as arguments and on standard input. A first run
records its calls. Then each call fails in a run of its own, in each of the ways of ERRORS: by an error, with no octet,
or with one octet, after which the answer is the ordinary one. What has to be printed say `wanted` and what it calls. A
call that a signal interrupts (EINTR) has failed, as by any other error, but for those that are made again.

Then the program runs on the streams of STREAMS, and over files that shrink while they are read.
"""

import argparse
import concurrent.futures
import errno
import os
import resource
import shutil
import subprocess
import sys
import tempfile
import threading
from collections.abc import Callable, Sequence
from pathlib import Path
from typing import Any, NamedTuple

sys.path.insert(0, str(Path(__file__).resolve().parents[1]))

from lib import cases, children, failing, growth, oracle, preload, programs
from lib.failing import Call

Pool = concurrent.futures.Executor
Kind = str | int
# A call that fails, and how.
Failure = tuple[Call, Kind]
# What was printed on both streams, where that was captured, and the status.
Streams = tuple[bytes | None, bytes | None, int]
READ_FAILED = (b"", b"hsplan: read failed\n", 5)
BUFFER = 65_536
USAGE = (b"", b"hsplan: Usage\n", 2)
ERRORS: dict[str, list[Kind]] = {
    "open": [errno.EIO, errno.EMFILE, errno.EINTR],
    "read": [errno.EIO, errno.EINTR, "none", "short"],
    "write": [errno.EIO, errno.ENOSPC, errno.EPIPE, errno.EINTR, "none", "short", f"{errno.EIO} on"],
    "close": [errno.EIO, errno.EINTR],
}


class Run(NamedTuple):
    case: cases.Case
    words: list[bytes]
    given: bytes
    folder: str

    @property
    def order(self) -> list[bytes]:
        """The words, however they are given."""
        return self.words or self.given.split()


class Tools(NamedTuple):
    """The program, the library that lets calls fail, answers that are known, and of how many calls one is tried."""

    program: str
    preloaded: str
    answers: dict[tuple[tuple[bytes, ...], bytes, str], cases.Ended]
    each: int


def is_of_log(run: Run) -> bool:
    return run.order[:1] == [b"dispatch"]


def log_of(run: Run) -> str:
    return run.order[run.order.index(b"--log") + 1].decode()


def ordinary_run(tools: Tools, run: Run) -> tuple[cases.Ended, list[Call]]:
    """What a run does where no call fails, and its calls."""
    with tempfile.TemporaryDirectory() as room:
        reported = os.path.join(room, "reported")
        order = [tools.program.encode(), *run.words]
        got = children.run(order, run.given, run.folder, LD_PRELOAD=tools.preloaded, REPORT_IO=reported)
        with open(reported) as lines:
            return got, failing.calls_of(lines)


def with_failure(tools: Tools, run: Run, call: Call, kind: Kind) -> cases.Ended:
    order = f"{call.name} {call.number} {kind}"
    return cases.run(tools.program, run.words, run.given, run.folder, LD_PRELOAD=tools.preloaded, FAIL_IO=order)


def answer_to(tools: Tools, run: Run) -> cases.Ended:
    """What the program does where no call fails. It is kept, since many words that are cut short are equal."""
    key = (tuple(run.words), run.given, run.folder)
    if key not in tools.answers:
        tools.answers[key] = cases.run(tools.program, run.words, run.given, run.folder)
    return tools.answers[key]


def cut_answer(tools: Tools, run: Run, call: Call, at: int) -> cases.Ended:
    """What the program does where standard input, or the file that the call reads, ends at this octet."""
    if call.descriptor == 0 and call.path == "-":
        return answer_to(tools, run._replace(given=run.given[:at]))
    with tempfile.TemporaryDirectory() as room:
        folder = os.path.join(room, "cut")
        shutil.copytree(run.folder, folder, copy_function=os.link)
        cut_file(os.path.join(folder, call.path), at)
        return cases.run(tools.program, run.words, run.given, folder)


def cut_file(path: str, at: int) -> None:
    """Replaces a file by its first octets, and a folder by an empty file."""
    text = b""
    if os.path.isdir(path):
        shutil.rmtree(path)
    else:
        with open(path, "rb") as file:
            text = file.read(at)
        os.remove(path)
    with open(path, "wb") as file:
        file.write(text)


def whole_lines(run: Run, call: Call) -> int:
    """The number of octets in those lines of the log that were read whole."""
    with open(os.path.join(run.folder, call.path), "rb") as file:
        return file.read(call.before).rfind(b"\n") + 1


def after_read(tools: Tools, run: Run, call: Call) -> cases.Ended:
    """What a run has to do where this read fails."""
    if call.descriptor == 0 and call.path == "-":
        return USAGE
    if not is_of_log(run) or call.path != log_of(run):
        return READ_FAILED
    printed = cut_answer(tools, run, call, whole_lines(run, call))[0] if call.before else b""
    return printed, b"hsplan: log: ReadFailed\n", 5


def after_write(run: Run, call: Call, ordinary: cases.Ended, goes_on: bool) -> cases.Ended:
    """What a run has to do where this write fails, or where this write and all later ones fail."""
    if call.descriptor == 2:
        return ordinary[0], ordinary[1][: call.before], 5
    line = b"hsplan: log: WriteFailed\n" if is_of_log(run) else b"hsplan: write failed\n"
    return ordinary[0][: call.before], b"" if goes_on else line, 5


def is_made_again(call: Call) -> bool:
    """Whether the call is made again where a signal interrupts it. A text as long as the buffer goes past the buffer,
    in a write that is made only once."""
    return call.name == "open" or call.name == "write" and call.descriptor == 1 and call.result < BUFFER


def wanted(tools: Tools, run: Run, call: Call, kind: Kind, ordinary: cases.Ended) -> cases.Ended:
    """What a run has to do where this call fails in this way."""
    if call.name == "close" or kind == "short":
        return ordinary
    if kind == errno.EINTR and is_made_again(call):
        return ordinary
    if call.name == "open":
        return READ_FAILED
    if call.name == "write":
        return after_write(run, call, ordinary, str(kind).endswith(" on"))
    return cut_answer(tools, run, call, call.before) if kind == "none" else after_read(tools, run, call)


def with_each_failure(tools: Tools, run: Run, tried: Sequence[Failure]) -> list[children.Child]:
    """What a run does where each of these calls fails, in a child each."""
    orders = [f"{call.name} {call.number} {kind}" for call, kind in tried]
    words = [tools.program.encode(), *run.words]
    return children.ended(tools.preloaded, words, run.given, run.folder, orders)


def fault_of(tools: Tools, run: Run, failure: Failure, ordinary: cases.Ended, got: children.Child) -> list[str]:
    call, kind = failure
    hoped = wanted(tools, run, call, kind, ordinary)
    way = "as arguments" if run.words else "on standard input"
    what = f"{run.case.name} {way}: {call.name} {call.number} of {call.path}: {kind}"
    return [] if got == hoped else [f"{what}: wanted {hoped}, got {got}"]


def has_stand_in(call: Call, kind: Kind, calls: list[Call]) -> bool:
    """Whether a file that ends at the call can replace the one that the call reads. It cannot for the case's own
    folder, nor for a file that is read twice."""
    opened = sum(other.name == "open" and other.path == call.path for other in calls)
    return kind != "none" or os.path.normpath(call.path) != "." and opened < 2


def check_run(pool: Pool, tools: Tools, run: Run) -> tuple[list[str], int]:
    """The faults of a case, run one way, and how many calls were made to fail."""
    ordinary, calls = ordinary_run(tools, run)
    hoped = run.case.wanted(ordinary[0])
    if ordinary != hoped:
        return [f"{run.case.name}: wanted {hoped}, got {ordinary}"], 0
    tried = [(call, kind) for call in calls for kind in ERRORS[call.name] if has_stand_in(call, kind, calls)]
    # Cases begin at different calls, so that all kinds of calls are tried.
    chosen = tried[len(run.case.name) % tools.each :: tools.each]
    parts = pool.map(lambda it: with_each_failure(tools, run, it), children.pieces(chosen))
    ended = [child for part in parts for child in part]
    faults = [] if len(ended) == len(chosen) else [f"{run.case.name}: {len(ended)} of {len(chosen)} calls failed"]
    found = pool.map(lambda it: fault_of(tools, run, it[0], ordinary, it[1]), zip(chosen, ended))
    return faults + [fault for faults in found for fault in faults], len(chosen)


def check_cases(pool: Pool, tools: Tools, names: list[str], room: str) -> tuple[list[str], int]:
    """The faults of the cases, and how many calls were made to fail."""
    data = cases.base("hsplan", room, tools.program)
    faults: list[str] = []
    count = 0
    for case in cases.cases_in("hsplan"):
        if not names or case.name in names:
            folder = cases.folder_of(case, room, data)
            found = [check_run(pool, tools, Run(case, *way, folder)) for way in case.ways()]
            faults += [fault for it in found for fault in it[0]]
            count += sum(it[1] for it in found)
    return faults, count


INPUTS = oracle.INPUTS.encode().split()
PLACE = b"locate --option local --servers 2 10/3".split()
PLAN = [b"plan"] + INPUTS
ENTRIES = [b"dispatch"] + INPUTS + b"--plan plan.txt --log log.csv".split()
EVENTS = [b"dispatch"] + INPUTS + b"--plan plan.txt --log events.csv --fronts 2".split()
ABSENT = b"site absent".split()


def ended(tools: Tools, words: list[bytes], folder: str, **more: Any) -> Streams:
    """Runs the program on given streams. Returns what it printed, where that was captured, and its status."""
    streams: dict[str, Any] = dict(stdin=subprocess.DEVNULL, stdout=subprocess.PIPE, stderr=subprocess.PIPE)
    done = subprocess.run([tools.program.encode(), *words], cwd=folder, **{**streams, **more})
    return done.stdout, done.stderr, done.returncode


def unwritten(words: list[bytes]) -> bytes:
    return b"hsplan: log: WriteFailed\n" if words[0] == b"dispatch" else b"hsplan: write failed\n"


def closed(number: int) -> Callable[[], None]:
    return lambda: os.close(number)


def on_a_full_disk(tools: Tools, words: list[bytes], folder: str) -> bool:
    with open("/dev/full", "wb") as full:
        return ended(tools, words, folder, stdout=full) == (None, unwritten(words), 5)


def on_a_closed_output(tools: Tools, words: list[bytes], folder: str) -> bool:
    return ended(tools, words, folder, preexec_fn=closed(1)) == (b"", unwritten(words), 5)


def on_a_pipe_that_nobody_reads(tools: Tools, words: list[bytes], folder: str) -> bool:
    reader, writer = os.pipe()
    os.close(reader)
    try:
        return ended(tools, words, folder, stdout=writer) == (None, unwritten(words), 5)
    finally:
        os.close(writer)


def limited() -> None:
    """Limits a file to 7 octets: a write past that fails."""
    resource.setrlimit(resource.RLIMIT_FSIZE, (7, 7))


def on_a_limited_file(tools: Tools, words: list[bytes], folder: str) -> bool:
    ordinary = ended(tools, words, folder)[0] or b""
    with tempfile.TemporaryFile() as file:
        got = ended(tools, words, folder, stdout=file, preexec_fn=limited, restore_signals=False)
        file.seek(0)
        return len(ordinary) <= 7 or (got, file.read()) == ((None, unwritten(words), 5), ordinary[:7])


def on_a_closed_input(tools: Tools, words: list[bytes], folder: str) -> bool:
    return ended(tools, words, folder, preexec_fn=closed(0)) == ended(tools, words, folder)


def with_a_closed_standard_error(tools: Tools, words: list[bytes], folder: str) -> bool:
    """A closed standard error is a failure only where something has to be printed there."""
    out, reported, status = ended(tools, words, folder)
    return ended(tools, words, folder, preexec_fn=closed(2)) == (out, b"", 5 if reported else status)


def feed(path: str, text: bytes) -> None:
    with open(path, "wb", buffering=0) as pipe:
        for at in range(0, len(text), 7):
            pipe.write(text[at : at + 7])


def through_pipes(tools: Tools, words: list[bytes], folder: str) -> bool:
    """Each file that is named is a pipe that gives a few octets at a time."""
    with tempfile.TemporaryDirectory() as room:
        feeders = []
        for name in sorted({word.decode() for word in words} & set(os.listdir(folder))):
            with open(os.path.join(folder, name), "rb") as file:
                text = file.read()
            os.mkfifo(os.path.join(room, name))
            feeders.append(threading.Thread(target=feed, args=(os.path.join(room, name), text)))
        for feeder in feeders:
            feeder.start()
        got = ended(tools, words, room)
        for feeder in feeders:
            feeder.join()
        return got == ended(tools, words, folder)


STREAMS = [
    on_a_full_disk,
    on_a_closed_output,
    on_a_pipe_that_nobody_reads,
    on_a_limited_file,
    on_a_closed_input,
    with_a_closed_standard_error,
    through_pipes,
]


def check_streams(tools: Tools, folder: str) -> tuple[list[str], int]:
    """The faults of the runs on STREAMS, and how many runs there are."""
    tried = [(stream, words) for stream in STREAMS for words in (PLACE, PLAN, ENTRIES, EVENTS)] + [
        (with_a_closed_standard_error, ABSENT)
    ]
    faults = [f"{words}: {stream.__name__}" for stream, words in tried if not stream(tools, words, folder)]
    if ended(tools, [], folder, stdin=None, preexec_fn=closed(0)) != USAGE:
        faults.append("no words: on a closed input")
    return faults, len(tried) + 1


def append(path: str, line: str, numbers: range) -> None:
    with open(path, "a") as file:
        file.write("".join(line % number for number in numbers))


def grown(tools: Tools, folder: str, room: str) -> str:
    """A folder whose inputs are too long for one read each, and a plan for them."""
    long = os.path.join(room, "long")
    shutil.copytree(folder, long)
    append(os.path.join(long, "settings.toml"), "# line %d\n", range(2000))
    append(os.path.join(long, "demand.csv"), "r2,10/%d,0\n", range(10, 2000))
    append(os.path.join(long, "costs.csv"), "r%d,E,1\n", range(3, 60))
    append(os.path.join(long, "log.csv"), "r9,10/%d\n", range(2000))
    with open(os.path.join(long, "plan.txt"), "wb") as file:
        file.write(ended(tools, PLAN, long)[0] or b"")
    return long


def shrunk(tools: Tools, run: Run, call: Call) -> list[str]:
    """The faults of a run whose file is cut, while it is read, at the octet where this read begins."""
    with tempfile.TemporaryDirectory() as room:
        folder = os.path.join(room, "shrunk")
        shutil.copytree(run.folder, folder)
        got = with_failure(tools, run._replace(folder=folder), call, "shrink")
    hoped = cut_answer(tools, run, call, call.before)
    return [] if got == hoped else [f"read {call.number} of {call.path} as it shrinks: wanted {hoped}, got {got}"]


def check_shrinking(tools: Tools, folder: str, room: str) -> tuple[list[str], int]:
    run = Run(cases.Case("shrinking files", "dispatch"), ENTRIES, b"", grown(tools, folder, room))
    reads = [call for call in ordinary_run(tools, run)[1] if call.name == "read"]
    return [fault for call in reads for fault in shrunk(tools, run, call)], len(reads)


def main() -> int:
    words = argparse.ArgumentParser(
        description="Makes each call of the built program on files and streams fail in turn."
    )
    growth.jobs_of(words)
    words.add_argument("--program", default=programs.tested("hsplan"))
    words.add_argument("--each", type=int, default=1, metavar="N", help="try one in N of the failing calls")
    words.add_argument("names", nargs="*", metavar="CASE")
    given = words.parse_args()
    if programs.is_absent(given.program):
        return 1
    with tempfile.TemporaryDirectory() as room, concurrent.futures.ThreadPoolExecutor(given.jobs) as pool:
        tools = Tools(os.path.abspath(given.program), preload.built("fail_io", room), {}, given.each)
        found = [check_cases(pool, tools, given.names, room)]
        folder = os.path.join(room, "data")
        found += [] if given.names else [check_streams(tools, folder), check_shrinking(tools, folder, room)]
    faults = [fault for it in found for fault in it[0]]
    failed, others = found[0][1], sum(it[1] for it in found[1:])
    line = f"files and streams: {failed} calls made to fail, {others} runs on other streams and files,"
    return programs.concluded(faults, line, bool(failed))


if __name__ == "__main__":
    sys.exit(main())
