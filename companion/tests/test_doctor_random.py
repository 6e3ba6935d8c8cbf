"""Folders and words that are broken at random: the doctor explains each fault of hsplan, and finds none where hsplan has
none."""

import json
import os
import random
import shutil
import subprocess
from collections.abc import Callable
from concurrent.futures import ThreadPoolExecutor
from pathlib import Path

import pytest

from hsp.base.programs import Programs
from hsp.doctor import Examined, examined, examined_words
from hsp.doctor.commands import line_of
from hsp.doctor.printing import json_of, lines

from conftest import TOP, Example
from test_broken import FILES, break_folder
from test_printed import FILES as OPTIONS

FOLDERS = 250
SIGNS = "0123456789,;.\"'[]=#/- \t\r\nabcXYZ\x00\x7fé\ufeff\u200b€"
EXAMPLES = ("two-sites", "base")


def torn(octets: bytes, draw: random.Random) -> bytes:
    """Octets with some changed, lost, doubled or moved, wherever they stand."""
    found = bytearray(octets)
    for _ in range(draw.randint(1, 4)):
        at = draw.randrange(len(found) + 1)
        to = min(len(found), at + draw.randint(0, 12))
        way = draw.randrange(5)
        if way == 0:
            del found[at:to]
        elif way == 1:
            found[at:at] = found[at:to]
        elif way == 2:
            found[at:at] = draw.choice(SIGNS).encode()
        elif way == 3 and at < len(found):
            found[at] = draw.randrange(256)
        else:
            other = draw.randrange(len(found) + 1)
            found[other:other] = found[at:to]
    return bytes(found)


def tear_folder(folder: Path, draw: random.Random) -> None:
    """A copy of an example with torn files, of which some are those of another kind."""
    shutil.copytree(TOP / "examples" / draw.choice(EXAMPLES), folder)
    for name in draw.sample(FILES, draw.randint(1, 3)):
        other = draw.choice(FILES) if draw.random() < 0.04 else name
        path = folder / name
        path.write_bytes(torn((folder / other).read_bytes(), draw))


def first_of(folder: Path) -> tuple[int, str]:
    """hsplan's status for a folder, and its line."""
    options = [word for name in FILES for word in ("--" + name.split(".")[0], str(folder / name))]
    words = [os.environ["HSPLAN"], "plan", *options]
    done = subprocess.run(words, stdout=subprocess.DEVNULL, stderr=subprocess.PIPE, text=True)
    return done.returncode, done.stderr.strip().removeprefix("hsplan: ")


def check(folder: Path, found: Examined) -> None:
    status, line = first_of(folder)
    of_hsplan = [it for it in found.errors if it.said]
    if status in (0, 3):
        assert not of_hsplan, f"{folder}: {of_hsplan}"
        return
    assert found.status == status, f"{folder}: {found.status} {status}"
    assert line in {it.said for it in of_hsplan}, f"{folder}: {line}: {[it.said for it in of_hsplan]}"
    for it in of_hsplan:
        assert it.remedy and "FAULTS" not in it.remedy, f"{folder}: {it}"
        assert it.line or it.said == "read failed", f"{folder}: {it}"


def run(folder: Path) -> Examined:
    found = examined(str(folder), Programs(), {})
    shown = list(lines(found.findings))
    assert not found.findings or any(it.startswith("  do   ") for it in shown)
    assert len(json.loads(json_of(found.findings))) == len(found.findings)
    return found


@pytest.mark.parametrize("seed, spoil", [(51, break_folder), (52, tear_folder)])
def test_folders_that_are_broken_at_random(
    tmp_path: Path, seed: int, spoil: Callable[[Path, random.Random], None]
) -> None:
    draw = random.Random(seed)
    folders = [tmp_path / str(number) for number in range(FOLDERS)]
    for folder in folders:
        spoil(folder, draw)
    with ThreadPoolExecutor(2) as pool:
        found = list(pool.map(run, folders))
    for folder, it in zip(folders, found):
        check(folder, it)
    assert {it.status for it in found} == {0, 1, 5} if spoil is break_folder else {0, 1}


COMMANDS = [
    f"check {OPTIONS} --plan plan.txt",
    f"dispatch {OPTIONS} --plan plan.txt --log log.csv",
    f"dispatch {OPTIONS} --plan plan.txt --log log.csv --fronts 2",
    f"report {OPTIONS} --plan plan.txt --kind load",
    "places --settings settings.toml --log log.csv",
    "locate --settings settings.toml 20.500.1234/film-5",
    "site paris.site",
    "faults --demand demand.csv",
]


def spoilt(words: list[str], draw: random.Random) -> list[str]:
    """Words of which some are lost, doubled, misspelt or added."""
    found = list(words)
    for _ in range(draw.randint(0, 3)):
        at = draw.randrange(len(found))
        way = draw.randrange(6)
        if way == 0 and len(found) > 1:
            del found[at]
        elif way == 1:
            found.insert(at, draw.choice(found))
        elif way == 2:
            found[at] = found[at][:-1] + draw.choice(("", "s", "x", "="))
        elif way == 3:
            found.insert(at, draw.choice(("--", "-", "--help", "-v", "=", "", "x", "--kind", "\u00e9", ".", "--log")))
        elif way == 4:
            found[at] = found[at].replace("--", "-")
        else:
            found[at] = found[at].upper()
    return found


def test_words_that_are_spoilt_at_random(example: Example, monkeypatch: pytest.MonkeyPatch) -> None:
    """The doctor's status is hsplan's, and no fault of words is explained by a sentence that fits any."""
    monkeypatch.chdir(example("two-sites"))
    with open("plan.txt", "wb") as plan:
        subprocess.run([os.environ["HSPLAN"], "plan", *OPTIONS.split()], stdout=plan, check=True)
    draw = random.Random(53)
    for _ in range(150):
        words = spoilt(draw.choice(COMMANDS).split(), draw)
        line = line_of(words)
        path = os.environ[line.program.upper().replace("-", "_")]
        own = [it.text for it in line.words]
        ended = subprocess.run([path, *own], stdin=subprocess.DEVNULL, capture_output=True, text=True)
        found = examined_words(words, Programs())
        assert found.status == (ended.returncode if ended.returncode != 3 else bool(found.errors)), words
        said = {it.said for it in found.errors}
        first = ended.stderr.strip().partition(": ")[2] if ended.returncode else ""
        assert not first or ended.returncode == 3 or first in said, (words, first, said)
        for it in found.errors:
            assert "these words are no command" not in it.message and "FAULTS" not in it.remedy, (words, it)
