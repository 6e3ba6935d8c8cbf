"""Folders that are broken at random: hsp ends with a status and a line, and never with a traceback."""

import random
import shutil
import subprocess
import sys
from pathlib import Path

from conftest import TOP, run_here, variables

FOLDERS = 150
FILES = ("settings.toml", "demand.csv", "costs.csv", "capacity.csv")
ODD = ("", "\x00", "-1", "é", "\ufeff", '"', "\r\n", "99999999999999", "[[", "=", "/", "\t", "<script>", "\udcff")


def broken(text: str, draw: random.Random) -> str:
    """The text with some lines lost, doubled, swapped or spoilt."""
    lines = text.splitlines(keepends=True)
    for _ in range(draw.randint(1, 3)):
        at = draw.randrange(len(lines))
        way = draw.randrange(5)
        if way == 0 and len(lines) > 1:
            del lines[at]
        elif way == 1:
            lines.insert(at, lines[draw.randrange(len(lines))])
        elif way == 2:
            cut = draw.randrange(len(lines[at]) + 1)
            lines[at] = lines[at][:cut] + draw.choice(ODD) + lines[at][cut:]
        elif way == 3:
            lines[at] = lines[at].replace(",", draw.choice((";", ",,", " ,")), 1)
        else:
            lines = lines[: at + 1]
    return "".join(lines)


def break_folder(folder: Path, draw: random.Random) -> None:
    shutil.copytree(TOP / "examples" / "two-sites", folder)
    for name in draw.sample(FILES, draw.randint(1, 2)):
        path = folder / name
        if draw.random() < 0.05:
            path.unlink()
            continue
        text = broken(path.read_text(encoding="utf-8"), draw)
        path.write_bytes(text.encode("utf-8", "surrogateescape"))
    if draw.random() < 0.2:
        (folder / "hsp.toml").write_text(draw.choice(('title = "a', "cost = 3", "[title]\n", 'title = "b"')))


def apart(command: str, folder: Path) -> tuple[int, str]:
    words = [sys.executable, "-m", "hsp", command, str(folder)]
    done = subprocess.run(words, capture_output=True, text=True, env=variables(), errors="replace")
    return done.returncode, done.stderr


def here(command: str, folder: Path) -> tuple[int, str]:
    done = run_here([command, folder])
    return done.exit_code, done.stderr


def test_broken_folders_end_well(tmp_path: Path) -> None:
    """One in ten has a process of its own."""
    draw = random.Random(50)
    folders = [tmp_path / f"{number}" for number in range(FOLDERS)]
    for folder in folders:
        break_folder(folder, draw)
    found = [
        (here if number % 10 else apart)("plan" if number % 4 else "view", it) for number, it in enumerate(folders)
    ]
    for folder, (status, line) in zip(folders, found):
        assert "Traceback" not in line, f"{folder}: {line}"
        assert status in (0, 1, 3, 5), f"{folder}: {status} {line}"
        assert status in (0, 3) or line.startswith(("hsp: ", "error: ")), f"{folder}: {line}"
    assert {status for status, _ in found} >= {0, 1}
