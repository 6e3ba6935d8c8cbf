"""What commands print and write over services of many kinds, word for word as the transcripts of the folder `printed`
keep it. Each head has a transcript: its commands run in turn in an empty folder, after those above the first head. `! `
marks a line of standard error.

`hsp WORDS` is run here, and `show FILE..`, `page FILE`, `write SERVICE FOLDER`. Other commands are run by bash, where
`hsp`, `hsplan` and `hsplan-stream` are there too. The examples are in $EXAMPLES, and $FILES are the options of hsplan
for a folder. Behind what hsp doctor finds stands each finding's place with its end, and what hsplan says of it.
"""

import os
import re
import shlex
import subprocess
import sys
from pathlib import Path

import pytest

from lib import examples, transcripts
from hsp import __version__
from hsp.base.text import say, visible
from hsp.commands.doctor import shown_findings
from hsp.doctor import Examined

from conftest import TOP, run_here, variables
from printed import FOLDER, assert_kept, heads, kept
from services import one_machine

# Other tests have what is run for help and parts, and run sessions of Python.
TRANSCRIPTS = sorted({it.stem for it in FOLDER.glob("*.txt")} - {"help", "parts", "exact"})
# What bash has to run: words that go on, other streams, and octets that are no text.
OF_BASH = re.compile(r"[|<>;&\n]|\$['(]")
# A program that writes an octet for each escape such as \xe9 of what it reads.
OCTETS = (
    r'import re, sys; text = re.sub(rb"\\x(..)", lambda it: bytes.fromhex(it[1].decode()), sys.stdin.buffer.read()); '
    "sys.stdout.buffer.write(text)"
)
# Commands of bash.
FUNCTIONS = {
    "hsp": f'{sys.executable} -m hsp "$@"',
    "hsplan": '"$HSPLAN" "$@"',
    "hsplan-stream": '"$HSPLAN_STREAM" "$@"',
    "octets": f"{sys.executable} -c '{OCTETS}'",
    "terminal": """NO_COLOR=1 script -qec "$*" /dev/null | tr -d '\\r'""",
}
FILES = "--settings settings.toml --demand demand.csv --costs costs.csv --capacity capacity.csv"


def ran(words: list[str]) -> str:
    done = run_here(words)
    return streams(done.stdout, done.stderr, done.exit_code)


def streams(out: str, err: str, status: int) -> str:
    """Both streams, and the status where it isn't 0."""
    marked = "".join(f"! {line}\n" for line in ended(err).split("\n")[:-1])
    return ended(out) + marked + (f"status {status}\n" if status else "")


def page(path: str) -> str:
    """A page without its styles, its script and the version, with a line for each element."""
    text = re.sub(r"(?s)<(style|script)[^>]*>.*?</\1>", r"<\1/>", Path(path).read_text())
    text = re.sub(r"'sha256-[^']*'", "'sha256'", text.replace(f"hsp {__version__}", "hsp"))
    return re.sub(r"(?<=>)\s*(?=<[a-z])", "\n", text)


def shown(paths: list[str], text_of: str) -> str:
    texts = [page(path) if text_of == "page" else Path(path).read_text() for path in paths]
    return "".join(f"-- {path}\n{text}" for path, text in zip(paths, texts))


def written(service: str, folder: str) -> str:
    """Writes a service that has no folder under examples/."""
    if service == "one-machine":
        one_machine(Path(folder))
    else:
        assert service == "twelve-sites"
        examples.write(os.path.abspath(folder), examples.twelve_sites())
    return ""


def by_bash(command: str) -> str:
    functions = {f"BASH_FUNC_{name}%%": f"() {{ {body}; }}" for name, body in FUNCTIONS.items()}
    environment = variables(SHELL="/bin/bash", LC_ALL="C", **functions)
    done = subprocess.run(["bash", "-ec", command], env=environment, capture_output=True)
    return streams(done.stdout.decode(), done.stderr.decode(), done.returncode)


def printed(command: str) -> str:
    """What a command of a transcript prints."""
    name = command.partition(" ")[0]
    if name not in ("hsp", "show", "page", "write") or OF_BASH.search(command):
        return by_bash(command)
    words = shlex.split(os.path.expandvars(command))[1:]
    if name == "hsp":
        return ran(words)
    return written(*words) if name == "write" else shown(words, name)


def transcript(text: str) -> str:
    steps = transcripts.steps_of(text.splitlines())
    text = "".join("\n".join(step.lines) + "\n" + ended(printed(step.command())) for step in steps)
    return text.replace(os.getcwd(), "HERE")


def ended(text: str) -> str:
    return text if text.endswith("\n") or not text else f"{text}\n"


def with_ends(found: Examined, summary: str) -> None:
    """Prints what hsp doctor prints, with a line for each finding."""
    shown_findings(found, summary)
    for it in found.findings:
        say(f"at {visible(it.file)}:{it.line}:{it.column}-{it.end} {visible(it.said)}".rstrip())


@pytest.fixture(autouse=True)
def _alone(tmp_path: Path, monkeypatch: pytest.MonkeyPatch) -> None:
    """A folder of the test's own, at 27 November 2026, 09:00 UTC."""
    (tmp_path / "here").mkdir()
    monkeypatch.chdir(tmp_path / "here")
    monkeypatch.setattr("hsp.commands.doctor.shown_findings", with_ends)
    monkeypatch.setattr("hsp.proxy.command.LONGEST_SOCKET", 1000)  # the test's own folder may have a long path
    own = {"EXAMPLES": str(TOP / "examples"), "FILES": FILES, "SOURCE_DATE_EPOCH": "1795770000", "COLUMNS": "100"}
    for name, value in own.items():
        monkeypatch.setenv(name, value)


@pytest.mark.parametrize("name, head", [(name, head) for name in TRANSCRIPTS for head in heads(name)])
def test_what_is_printed_is_what_was_read(name: str, head: str) -> None:
    before = kept(name)[""]
    assert transcript(before) == before, f"{name}.txt: what stands above the first head"
    assert_kept(name, head, transcript(kept(name)[head]))
