#!/usr/bin/env python3
"""Makes the package of Debian twice, has lintian judge it, and installs, uses, removes and purges it in a fresh Debian.

The fresh Debian is made by debootstrap in a temporary folder. That takes root, the network and a minute. What can't be
tried here is named in capitals. The programs have to be built already, by `rt ci` or `make prove`.
"""

import filecmp
import os
import shutil
import subprocess
import sys
import tempfile
import time
from collections.abc import Callable
from pathlib import Path

sys.path.insert(0, str(Path(__file__).resolve().parents[1]))

from lib import deb, examples, pages, programs

# The oldest Debian whose Python hsp takes, the seconds until it is made, and those in which all of this ends.
SUITE, MAKING, SECONDS = "bookworm", 150, 230
# No process and no mount of a command outlives it.
APART = ["unshare", "--mount", "--pid", "--fork", "--kill-child"]
PATH = "/usr/sbin:/usr/bin:/sbin:/bin"
USER = "visitor"
INPUTS = "--settings settings.toml --demand demand.csv --costs costs.csv --capacity capacity.csv"
INSTALL = "apt-get install --yes --quiet --no-install-recommends -o Dpkg::Use-Pty=0"


class NotTried(Exception):
    """What stands in the way of a try; the text says it in one line."""


class Fresh:
    """A fresh Debian in a folder, with a user, where commands run in a shell."""

    def __init__(self, room: str, begun: float) -> None:
        self.root, self.begun, self.limit = os.path.join(room, "root"), begun, MAKING

    def ran(self, words: list[str]) -> tuple[str, int]:
        """What a command of this machine prints, and its status."""
        try:
            done = subprocess.run(
                [*APART, *words],
                env={"PATH": PATH, "HOME": "/root", "LC_ALL": "C.UTF-8", "DEBIAN_FRONTEND": "noninteractive"},
                stdin=subprocess.DEVNULL,
                stdout=subprocess.PIPE,
                stderr=subprocess.STDOUT,
                text=True,
                timeout=self.begun + self.limit - time.monotonic(),
            )
        except subprocess.TimeoutExpired:
            return f"it didn't end before {self.limit} seconds of this check were over", -1
        return done.stdout, done.returncode

    def run(self, line: str, user: str = "root") -> tuple[str, int]:
        return self.ran(["chroot", f"--userspec={user}:{user}", self.root, "sh", "-c", line])

    def make(self, depends: str) -> list[str]:
        """Makes it, with the packages that the package depends on. The fault where there are no such packages."""
        if os.geteuid():
            raise NotTried("only root can make a fresh Debian")
        if not shutil.which("debootstrap", path=PATH):
            raise NotTried("debootstrap is not installed here")
        said, status = self.ran(["debootstrap", "--variant=minbase", SUITE, self.root])
        if status:
            raise NotTried(f"debootstrap made no {SUITE}: {last_of(said)}")
        shutil.copyfile("/etc/resolv.conf", os.path.join(self.root, "etc", "resolv.conf"))
        said, status = self.run(f"useradd --create-home {USER} && apt-get update --quiet --error-on=any")
        if status:
            raise NotTried(f"apt-get got no list of packages: {last_of(said)}")
        said, status = self.run(f"apt-get satisfy --yes --quiet --no-install-recommends '{depends}'")
        if status < 0 or "Failed to fetch" in said:
            raise NotTried(f"apt-get got no packages: {last_of(said)}")
        self.limit = SECONDS
        return [f"apt-get found not all of {depends}:\n{said}"] if status else []

    def files(self) -> set[str]:
        return {
            os.path.relpath(os.path.join(at, it), self.root)
            for at, folders, names in os.walk(self.root)
            for it in [*folders, *names]
        }


def last_of(text: str) -> str:
    return ([it.strip() for it in text.splitlines() if it.strip()] or ["it printed nothing"])[-1]


def made_twice(room: str) -> tuple[str, list[str]]:
    """The package, and a fault where another making of it differs."""
    made = {it: programs.tested(it) for it in programs.PROGRAMS}
    first, second = (os.path.join(room, it) for it in ("first.deb", "second.deb"))
    deb.write(made, first)
    time.sleep(1.1)
    umask, os.environ["TZ"] = os.umask(0o077), "Pacific/Auckland"
    deb.write(made, second)
    os.umask(umask)
    fine = filecmp.cmp(first, second, shallow=False)
    return first, [] if fine else ["the package is made anew with other octets"]


def judged(path: str) -> list[str]:
    if not shutil.which("lintian"):
        print("NOT TRIED: lintian is not installed here")
        return []
    words = ["lintian", "--allow-root", "--no-cfg", "--tag-display-limit", "0", "--fail-on", "error", path]
    done = subprocess.run(words, stdout=subprocess.PIPE, stderr=subprocess.STDOUT, text=True)
    print(done.stdout, end="")
    return [f"lintian: status {done.returncode}"] if done.returncode else []


def dead_links(path: str, room: str) -> list[str]:
    subprocess.run(["dpkg-deb", "--extract", path, room], check=True)
    return pages.dead_links(room, pages.below(room))[0]


def expected(fresh: Fresh, line: str, is_right: Callable[[str], bool], user: str = "root") -> list[str]:
    """The fault of a command that fails there, or prints something else."""
    said, status = fresh.run(line, user)
    return [] if status == 0 and is_right(said) else [f"{line}: status {status}, printed:\n{said}"]


def used(fresh: Fresh) -> list[str]:
    """The faults of the installed programs, as an ordinary user calls them."""
    cost = examples.TWO_COST
    before = f"cd /home/{USER} && cp -r /{deb.DOCUMENTS}/examples/two-sites . && cd two-sites && "
    plan = f"hsplan plan {INPUTS} > kept.txt && head -n 3 kept.txt && hsplan check {INPUTS} --plan kept.txt"
    wanted = f"HSPLAN 1\nPLAN\ncost {cost}\nyes\n"
    faults = expected(fresh, before + plan, lambda it: it == wanted, USER)
    plan = f"env -i /usr/bin/hsp plan /home/{USER}/two-sites"
    faults += expected(fresh, plan, lambda it: f"\ncost  {cost:,}, " in it and "\ncheck yes: " in it, USER)
    version = f"hsplan-stream {programs.version()}\n"
    faults += expected(fresh, "hsplan-stream --version", lambda it: it == version, USER)
    return faults + expected(fresh, f"rm -r /home/{USER}/two-sites && hsp --version", lambda _: True)


def changed(before: set[str], after: set[str], how: str) -> list[str]:
    """The fault where files are there afterwards that weren't before, and where some are gone."""
    found = {"left": sorted(after - before), "took": sorted(before - after)}
    return [f"{how} {verb} {len(files)} files: {' '.join(files[:10])}" for verb, files in found.items() if files]


def installed(fresh: Fresh, path: str) -> list[str]:
    """The faults of the package as it is installed, used and removed, and installed and purged."""
    shutil.copyfile(path, os.path.join(fresh.root, "hsplan.deb"))
    before, faults = fresh.files(), []
    for how in ("remove", "purge"):
        faults += expected(fresh, f"{INSTALL} /hsplan.deb", lambda _: True)
        faults += expected(fresh, "dpkg --verify hsplan", lambda it: not it)
        faults += expected(fresh, f"ls /{deb.MODULES}/hsp/__pycache__", lambda it: "cli.cpython" in it)
        faults += used(fresh)
        faults += expected(fresh, f"apt-get {how} --yes --quiet hsplan", lambda _: True)
        faults += changed(before, fresh.files(), f"apt-get {how}")
    return faults


def tried(room: str, begun: float) -> tuple[list[str], str]:
    """The faults of the package, and what was done with it."""
    path, faults = made_twice(room)
    faults += judged(path) + dead_links(path, os.path.join(room, "extracted"))
    fresh = Fresh(room, begun)
    try:
        if unmet := fresh.make(deb.field("Depends")):
            return faults + unmet, "made twice"
        return faults + installed(fresh, path), f"installed and removed in a fresh {SUITE}"
    except NotTried as why:
        print(f"NOT TRIED: the package in a fresh Debian: {why}")
        return faults, "made twice"


def main() -> int:
    begun = time.monotonic()
    if programs.is_absent(*map(programs.tested, programs.PROGRAMS)):
        return 1
    if not deb.has_packer():
        print("NOT TRIED: the package of Debian: this machine has no dpkg-deb")
        return 0
    with tempfile.TemporaryDirectory() as room:
        os.chmod(room, 0o755)
        try:
            faults, done = tried(room, begun)
        except programs.Missing as missing:
            faults, done = [str(missing)], "not made"
    return programs.concluded(faults, f"package: {done},")


if __name__ == "__main__":
    programs.ended(main)
