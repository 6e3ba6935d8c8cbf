#!/usr/bin/env python3
"""Installs hsplan, hsplan-stream and hsp with their manual pages, completions and guide, or removes them.

    tools/install.py --prefix /usr/local [--destdir D] [--uninstall]

It installs the program built here where that is newer than its sources, and otherwise the released one. The released
program is compared with release/SHA256SUMS first. What is installed runs once before the script ends. Where its folder
isn't in PATH, a line says so. Folders that it makes have the mode 0755 and files 0644 or 0755, whatever the umask is.
A folder that was there keeps its mode.
"""
from __future__ import annotations

import argparse
import os
import subprocess
import sys

from lib import companion, pages, programs


# What an installed program is asked, and what it has to answer.
ASKED = {
    "hsplan": (["locate", "--option", "local", "--servers", "2", "10/3"], "1\n"),
    "hsplan-stream": (["--version"], "hsplan-stream {}\n"),
}


# The folders that installations made, by their paths from the prefix. They go with what is installed.
FOLDERS = "share/doc/hsplan/folders"
# Those of an installation that kept no such list.
OWN_FOLDERS = ("share/doc/hsplan/use", "share/doc/hsplan/pictures", "share/doc/hsplan")


def folders_of(root: str) -> list[str]:
    """The folders that installations made here."""
    try:
        with open(os.path.join(root, FOLDERS), encoding="utf-8") as file:
            return [os.path.normpath(os.path.join(root, it)) for it in file.read().splitlines()]
    except FileNotFoundError:
        return [os.path.join(root, it) for it in OWN_FOLDERS]


def absent_of(root: str) -> list[str]:
    """The folders that an installation has to make."""
    targets = [os.path.join("bin", "hsp"), FOLDERS, *programs.FILES.values()]
    found: set[str] = set()
    for it in targets:
        folder = os.path.dirname(os.path.join(root, it))
        while not os.path.lexists(folder):
            found.add(folder)
            folder = os.path.dirname(folder)
    return sorted(found)


def keep_folders(root: str, made: list[str]) -> None:
    """Lists the folders that were made, with those of earlier installations."""
    known = folders_of(root) if os.path.exists(os.path.join(root, FOLDERS)) else []
    lines = [f"{os.path.relpath(it, root)}\n" for it in dict.fromkeys([*known, *made])]
    put("".join(lines).encode(), os.path.join(root, FOLDERS), 0o644)


def put(octets: bytes, target: str, mode: int) -> None:
    """Writes a file, whole or not at all, since another process may run the older one meanwhile."""
    os.makedirs(os.path.dirname(target), exist_ok=True)
    new = f"{target}.new"
    with open(new, "wb") as file:
        file.write(octets)
    os.chmod(new, mode)
    os.replace(new, target)


def answers(path: str) -> bool:
    """Whether an installed program answers from another folder."""
    words, wanted = ASKED[os.path.basename(path)]
    ended = subprocess.run([os.path.realpath(path), *words], cwd="/", stdout=subprocess.PIPE, text=True)
    return ended.stdout in (wanted.format(programs.version()), wanted.format(programs.released()))


def install(root: str) -> int:
    keep_folders(root, absent_of(root))
    for name in programs.PROGRAMS:
        program = programs.chosen(name)
        target = os.path.join(root, "bin", name)
        put(programs.octets_of(program.path), target, 0o755)
        if not answers(target):
            print(f"{target} is installed, and does not run", file=sys.stderr)
            return 1
        print(f"{target} is installed, and runs: {program.kind}")
    target = os.path.join(root, "bin", "hsp")
    put(companion.archive(), target, 0o755)
    print(companion_line(target))
    for source, target in programs.FILES.items():
        put(pages.installed(source, programs.FILES), os.path.join(root, target), 0o644)
    return 0


def companion_line(path: str) -> str:
    """Whether the companion runs. It needs packages that this machine may lack."""
    ended = subprocess.run([path, "--version"], cwd="/", capture_output=True, text=True)
    if ended.stdout == f"hsp {programs.version()}\n":
        return f"{path} is installed, and runs"
    return f"{path} is installed, and needs Python 3.11 with click and Jinja2 (Debian: python3-click python3-jinja2)"


def path_line(folder: str) -> str:
    """What is missing for the programs to be found by their names, if anything is."""
    if os.path.realpath(folder) in {os.path.realpath(it) for it in os.environ.get("PATH", "").split(os.pathsep) if it}:
        return ""
    return f'not in PATH yet; in this shell: export PATH="{folder}:$PATH"'


def uninstall(root: str) -> int:
    folders = folders_of(root)
    programs_there = [os.path.join("bin", it) for it in (*programs.PROGRAMS, "hsp")]
    for target in [*programs_there, *programs.FILES.values(), FOLDERS]:
        path = os.path.join(root, target)
        if os.path.lexists(path):
            os.remove(path)
    for path in sorted(folders, key=len, reverse=True):
        if os.path.isdir(path) and not os.listdir(path):
            os.rmdir(path)
    return 0


def main() -> int:
    arguments = argparse.ArgumentParser(description="Installs hsplan, or removes it.")
    arguments.add_argument("--prefix", default="/usr/local")
    arguments.add_argument("--destdir", default="")
    arguments.add_argument("--uninstall", action="store_true")
    chosen = arguments.parse_args()
    root = os.path.abspath(chosen.destdir + os.path.abspath(os.path.expanduser(chosen.prefix)))
    os.umask(0o022)  # what is made below the prefix is for all, whatever the umask is
    try:
        if chosen.uninstall:
            return uninstall(root)
        status = install(root)
        missing = "" if chosen.destdir else path_line(os.path.join(root, "bin"))
        if missing:
            print(missing)
        return status
    except programs.Missing as fault:
        print(fault, file=sys.stderr)
    except OSError as error:
        print(f"{error.filename}: {error.strerror}", file=sys.stderr)
    return 1


if __name__ == "__main__":
    programs.ended(main)
