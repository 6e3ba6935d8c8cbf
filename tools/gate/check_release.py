#!/usr/bin/env python3
"""Compares the folder `release` with this tree and with what the gate proved and built, and tries it without the kit.

    tools/gate/check_release.py              does all
    tools/gate/check_release.py --unbuilt    compares no program with one that is built here, and needs no kit

A release is written once for each version. Where VERSION is ahead of it, it is NOT COMPARED with this tree. With
another kit than that of release/MADE, two builds may differ. Then the programs are NOT COMPARED, and the cases of
checks/hsplan are run with the released program. At last somebody without `rt` tries a copy of the tree.
"""

import argparse
import os
import shutil
import stat
import subprocess
import sys
import tempfile
import time
from typing import Any, Callable, Optional
from pathlib import Path

sys.path.insert(0, str(Path(__file__).resolve().parents[1]))

from lib import cases, deb, pages, programs


LIMIT = 10
PATH = "/usr/bin:/bin"
README = "README.md has more"
PLAN = "plan --settings {0}/settings.toml --demand {0}/{1} --costs {0}/costs.csv --capacity {0}/capacity.csv"
LEFT_OUT = shutil.ignore_patterns("out", ".git", "__pycache__", "must-fail", "mutants")


def wrong_names() -> list[str]:
    """The fault where MADE does not state the sources of this tree."""
    fine = programs.made().get("sources") == programs.digest()
    return [] if fine else ["release/MADE is of other sources: run make release, or give VERSION a new number"]


def wrong_programs() -> list[str]:
    """The released programs that differ from the built ones, where the kit is the same. Where it is another one, the
    faults of the program's cases."""
    made, kit = programs.made().get("kit", ""), programs.kit()
    faults = []
    for name in programs.PROGRAMS:
        path = programs.released_program(name)
        if made != kit:
            print(f"{name}: NOT COMPARED: it was made with {made}, and this machine has {kit}")
            print("the cases of checks/hsplan are run with the released one")
            with tempfile.TemporaryDirectory() as room:
                faults += cases.all_faults(path, room) if name == "hsplan" else []
        elif not programs.built(name):
            faults.append(f"{name} is not built here, or older than a source: run rt ci")
        elif programs.sum_of(path) != programs.sum_of(programs.built_path(name)):
            faults.append(f"the released {name} is not the one that was proved and built here: run make release")
        else:
            print(f"{name}: octet for octet the one that was proved and built here")
    return faults


class Visitor:
    """Someone who cloned the repository: a copy of it, a home and a PATH without `rt`. Where this script runs as
    root, it is another user."""

    def __init__(self, room: str) -> None:
        self.top, self.home = os.path.join(room, "hsplan"), os.path.join(room, "home")
        shutil.copytree(programs.TOP, self.top, ignore=LEFT_OUT)
        os.mkdir(self.home)
        self.user: Optional[str] = "nobody" if os.geteuid() == 0 else None
        if self.user:
            os.chmod(room, 0o755)
            for at, folders, names in os.walk(room):
                for it in [at] + [os.path.join(at, name) for name in names]:
                    shutil.chown(it, self.user)

    def run(self, words: str, within: str = "", before: str = "") -> tuple[str, int]:
        """Runs a line of the shell in the top of the copy, or in a folder of the home. Returns what it prints, and
        its status."""
        line = f"{before} {words}".strip()
        environment = {"PATH": PATH, "HOME": self.home, "LC_ALL": "C.UTF-8"}
        more: dict[str, Any] = {"user": self.user, "group": "nogroup", "extra_groups": []} if self.user else {}
        ended = subprocess.run(
            ["sh", "-c", line],
            cwd=os.path.join(self.home, within) if within else self.top,
            env=environment,
            stdin=subprocess.DEVNULL,
            stdout=subprocess.PIPE,
            stderr=subprocess.STDOUT,
            text=True,
            **more,
        )
        return ended.stdout, ended.returncode


def expected(visitor: Visitor, words: str, status: int, parts: list[str], **how: str) -> list[str]:
    """The fault of a command that has another status, lacks a wanted text, or prints a traceback."""
    printed, got = visitor.run(words, **how)
    fine = got == status and all(it in printed for it in parts) and "Traceback" not in printed and "***" not in printed
    return [] if fine else [f"{words}: wanted status {status} and {parts}, got {got}:\n{printed}"]


def visit(visitor: Visitor) -> list[str]:
    """The faults that someone meets who plans with the released program."""
    example, released = "examples/two-sites", f"the released program, version {programs.released()}"
    installed = f"{visitor.home}/.local/bin/hsplan"
    short = PLAN.format(example, "premiere.csv")
    begun = time.monotonic()
    faults = expected(visitor, "make demo", 0, [released, "\nyes\n", "bound 523976 - 216760 = 307216"])
    faults += expected(visitor, "make install PREFIX=$HOME/.local", 0, [released])
    plan = f"{installed} {PLAN.format(visitor.top + '/' + example, 'demand.csv')}"
    faults += expected(visitor, plan, 0, ["cost 307216"], within=".local")
    gone = time.monotonic() - begun
    faults += [f"demo, installation and a plan took {gone:.1f} seconds"] if gone > LIMIT else []
    faults += expected(visitor, f"make try ARGS='{short}'", 0, ["SHORTAGE", "\nstatus 3\n"])
    faults += expected(visitor, f"tools/try.py {short}", 3, ["SHORTAGE"])
    faults += expected(visitor, "make try ARGS='locate --option handle --servers 3 20.500.1234/film-5'", 0, ["1\n"])
    faults += expected(visitor, "make uninstall PREFIX=$HOME/.local && ! test -e $HOME/.local", 0, [])
    print(f"demo, installation and a plan without the kit: {gone:.1f} seconds")
    return faults + wrong_modes(visitor) + wrong_packages(visitor)


def wrong_packages(visitor: Visitor) -> list[str]:
    """The faults of the archive and the package of Debian that are made without the kit."""
    begun = time.monotonic()
    faults = expected(visitor, "make archive", 0, ["out/hsplan-", "the released program"])
    if deb.has_packer():
        faults += expected(visitor, "make deb", 0, ["out/hsplan_", "_amd64.deb"])
    else:
        print("NOT TRIED: the package of Debian: this machine has no dpkg-deb")
    print(f"an archive and a package without the kit: {time.monotonic() - begun:.1f} seconds")
    folder = os.path.join(visitor.home, programs.stem())
    faults += expected(visitor, f"tar -xf out/{programs.stem()}.tar.xz -C $HOME", 0, [])
    for name in programs.PROGRAMS:
        if programs.sum_of(os.path.join(folder, "bin", name)) != programs.sum_of(programs.released_program(name)):
            faults.append(f"the archive has another {name} than the release")
    return faults + pages.dead_links(folder, pages.below(folder))[0]


def wrong_modes(visitor: Visitor) -> list[str]:
    """The faults of an installation by someone whose umask keeps others out. All can read and run what it makes, and a
    folder that was there keeps its mode."""
    own = [f"{visitor.home}/.local", f"{visitor.home}/.local/share"]
    faults = expected(visitor, "umask 077; mkdir -p $HOME/.local/share && make install PREFIX=$HOME/.local", 0, [])
    for at, _, names in os.walk(own[0]):
        wanted = {at: 0o700 if at in own else 0o755}
        wanted |= {os.path.join(at, it): 0o755 if os.path.basename(at) == "bin" else 0o644 for it in names}
        modes = {it: stat.S_IMODE(os.stat(it).st_mode) for it in wanted}
        faults += [f"{it}: mode {modes[it]:04o}, wanted {mode:04o}" for it, mode in wanted.items() if modes[it] != mode]
    return faults + expected(visitor, "make uninstall PREFIX=$HOME/.local && rmdir $HOME/.local/share", 0, [])


def nothing_fits(visitor: Visitor, before: str, why: str) -> list[str]:
    """The faults of scripts that do not print the reason in one line where no program can be run."""
    faults = []
    for words in (
        "tools/demo.py",
        "tools/try.py locate --option local --servers 2 10/3",
        "tools/install.py --prefix $HOME/.local",
    ):
        printed, status = visitor.run(words, before=before)
        if status == 0 or why not in printed or README not in printed or printed.count("\n") != 1:
            faults.append(f"{before} {words}: wanted one line with {why!r}, got status {status}:\n{printed}")
    return faults


def strangers(visitor: Visitor) -> list[str]:
    """The faults on another machine, without the kit, with a forged release, and without a release."""
    program = os.path.join(visitor.top, "release", "hsplan")
    faults = nothing_fits(visitor, "setarch i686", "needs Linux on x86_64")
    faults += expected(visitor, "tools/prove.py", 1, ["no rt in PATH", README])
    faults += expected(visitor, "make -n test", 0, ["tools/check.py --unproved"])
    with open(program, "r+b") as file:
        file.seek(1000)
        file.write(b"forged")
    faults += nothing_fits(visitor, "", "does not have the sum")
    os.remove(program)
    return faults + nothing_fits(visitor, "", "there is no release of version")


def tried(check: Callable[[Visitor], list[str]]) -> list[str]:
    with tempfile.TemporaryDirectory() as room:
        return check(Visitor(room))


def compared(is_unbuilt: bool) -> list[str]:
    """The faults of the release as files."""
    try:
        for name in programs.PROGRAMS:
            programs.released_program(name)
    except programs.Missing as missing:
        return [str(missing)]
    if programs.released() != programs.version():
        print(f"release/ is of version {programs.released()}, and this tree is {programs.version()}: NOT COMPARED")
        return []
    if is_unbuilt:
        print("the released programs: NOT COMPARED with any that are built here")
    return wrong_names() + ([] if is_unbuilt else wrong_programs())


def main() -> int:
    arguments = argparse.ArgumentParser(description="Compares the release with this tree, and tries it.")
    arguments.add_argument("--unbuilt", action="store_true", help="compare no program with one that is built here")
    is_unbuilt = arguments.parse_args().unbuilt
    if not is_unbuilt and not programs.kit():
        print(programs.NEED_KIT)
        return 1
    faults = compared(is_unbuilt)
    if shutil.which("rt", path=PATH):
        faults.append(f"{PATH} has an rt: the release was not tried without the kit")
    elif not faults:
        faults += tried(visit) + tried(strangers)
    line = f"release: version {programs.released()}, {len(programs.PROGRAMS)} programs,"
    return programs.concluded(faults, line)


if __name__ == "__main__":
    sys.exit(main())
