#!/usr/bin/env python3
"""Installs the program built here into an empty folder, by `make install` with DESTDIR and PREFIX, and runs it there.
`make uninstall` has to leave no file, and no folder but those that were there before.

The program has to be built already, by `rt ci` or `make prove`, and no source may be newer.
"""

import os
import subprocess
import sys
import tempfile
from pathlib import Path

sys.path.insert(0, str(Path(__file__).resolve().parents[1]))

from lib import companion, pages, programs


def make(target: str, room: str, *more: str) -> subprocess.CompletedProcess[str]:
    return subprocess.run(
        ["make", *more, target, f"DESTDIR={room}", "PREFIX=/usr"],
        cwd=programs.TOP,
        stdout=subprocess.PIPE,
        stderr=subprocess.STDOUT,
        text=True,
    )


def octets_of(path: str) -> bytes | None:
    if not os.path.isfile(path):
        return None
    with open(path, "rb") as file:
        return file.read()


def files_below(folder: str) -> list[str]:
    return [os.path.join(path, it) for path, _, names in os.walk(folder) for it in names]


def folders_below(folder: str) -> list[str]:
    return [os.path.join(path, it) for path, names, _ in os.walk(folder) for it in names]


def wrong_answer(program: str, room: str) -> list[str]:
    """A fault where the program does not answer from an empty folder with an empty environment."""
    words = ["locate", "--option", "local", "--servers", "2", "10/3"]
    nothing: dict[str, str] = {}
    said = subprocess.run(
        [program, *words], cwd=room, env=nothing, stdout=subprocess.PIPE, stderr=subprocess.STDOUT, text=True
    ).stdout
    return [] if said == "1\n" else [f"the installed program printed {said!r}"]


def wanted_files() -> dict[str, bytes]:
    built = {f"bin/{it}": programs.octets_of(programs.built_path(it)) for it in programs.PROGRAMS}
    files = {target: pages.installed(it, programs.FILES) for it, target in programs.FILES.items()}
    return {**built, "bin/hsp": companion.archive(), **files}


def faults_in(room: str) -> list[str]:
    own = os.path.join(room, "usr", "share", "man")
    os.makedirs(own)
    installed = make("install", room)
    if installed.returncode:
        return [f"make install: {installed.stdout}"]
    below = os.path.join(room, "usr")
    other = [it for it, octets in wanted_files().items() if octets_of(os.path.join(below, it)) != octets]
    found = [f"{it} is not installed, or another one" for it in other]
    found += wrong_answer(os.path.join(below, "bin", "hsplan"), room)
    found += pages.dead_links(below, pages.below(below))[0]
    removed = make("uninstall", room)
    return (
        found
        + [f"make uninstall left {it}" for it in files_below(room)]
        + [f"make uninstall left the folder {it}" for it in folders_below(room) if not own.startswith(it)]
        + ([] if os.path.isdir(own) else [f"make uninstall took {own}, which it hadn't made"])
        + ([] if removed.returncode == 0 else [removed.stdout])
    )


def main() -> int:
    absent = [it for it in programs.PROGRAMS if not programs.built(it)]
    faults = [f"{it} is not built, or a source is newer: run rt ci first" for it in absent]
    if not absent:
        with tempfile.TemporaryDirectory() as room:
            faults = faults_in(room)
    tried = "not tried" if absent else f"{len(wanted_files())} files installed and removed"
    return programs.concluded(faults, f"install: {tried},")


if __name__ == "__main__":
    sys.exit(main())
