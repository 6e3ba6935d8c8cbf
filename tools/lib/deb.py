"""The Debian package: programs, hsp, its units of systemd, manual pages, completions, guide and examples in Debian's
folders.

tools/debian has what Debian wants beside them. The modules of hsp are private to it, below /usr/share/hsplan. The
pages of the guide are not compressed, since the manual pages name them, and they link to one another.

The same files give the same octets by the same dpkg-deb: each file has the time of the version in CHANGELOG.md, the
owner root and a mode that stands here, whatever day it is and whatever umask is set.
"""
from __future__ import annotations

import calendar
import fnmatch
import gzip
import hashlib
import os
import re
import shutil
import subprocess
import tempfile
import textwrap
import time
from collections.abc import Iterator
from typing import NamedTuple

from lib import companion, pages, programs

TEXTS = os.path.join(programs.TOP, "tools", "debian")
MODULES = "usr/share/hsplan"
DOCUMENTS = "usr/share/doc/hsplan"
EXAMPLES = os.path.join(programs.TOP, "examples")
# No unit is enabled by the package: each needs a user and folders that its operator makes.
SERVICES = ("hsp-haproxy.service", "hsp-steer.service")
UNITS = {f"companion/units/{it}": f"usr/lib/systemd/system/{it}" for it in SERVICES}
# Where Debian has files that an installation below a prefix puts elsewhere.
ELSEWHERE = {"share/zsh/site-functions/": "share/zsh/vendor-completions/"}
START = f"""#!/usr/bin/python3
import sys

sys.path.insert(0, "/{MODULES}")
"""
COLUMNS, DAY = 79, 86_400


class File(NamedTuple):
    octets: bytes
    mode: int = 0o644


def has_packer() -> bool:
    """Whether this machine has the program that writes packages."""
    return shutil.which("dpkg-deb") is not None


def versions() -> list[tuple[str, str, str]]:
    """The versions of CHANGELOG.md that have a date, the newest first: each with its date and its text."""
    return re.findall(
        r"^## ([\d.]+)\n\n(\d{4}-\d\d-\d\d)\n\n(.*?)(?=^## |\Z)", programs.text_of("CHANGELOG.md"), re.M | re.S
    )


def times() -> dict[str, int]:
    """The time of each version in seconds since 1970: the first second of its day in UTC. Debian wants a later time of
    a later version, so of several versions of a day each comes a second after the one before."""
    found: dict[str, int] = {}
    for version, date, _ in reversed(versions()):
        day = calendar.timegm(time.strptime(date, "%Y-%m-%d"))
        found[version] = day + sum(it // DAY == day // DAY for it in found.values())
    return found


def epoch() -> int:
    """The time of every file in the package, which is that of this version."""
    found = times().get(programs.version())
    if found is None:
        raise programs.Missing(f"CHANGELOG.md has no date of version {programs.version()}, and a package needs one")
    return found


def field(name: str) -> str:
    lines = programs.octets_of(TEXTS, "control").decode().splitlines()
    return next(it.partition(": ")[2] for it in lines if it.startswith(f"{name}: "))


def changelog() -> bytes:
    """CHANGELOG.md in the form that Debian wants."""
    wrapper = textwrap.TextWrapper(
        COLUMNS, initial_indent="  * ", subsequent_indent="    ", break_long_words=False, break_on_hyphens=False
    )
    parts = []
    for version, _, text in versions():
        plain = re.sub(r"\[([^]]*)\]\([^)]*\)", r"\1", text)
        body = "\n".join(wrapper.fill(" ".join(it.split())) for it in re.split(r"^- ", plain, flags=re.M)[1:])
        when = time.strftime("%a, %d %b %Y %H:%M:%S +0000", time.gmtime(times()[version]))
        parts.append(f"hsplan ({version}) unstable; urgency=medium\n\n{body}\n\n -- {field('Maintainer')}  {when}\n")
    return "\n".join(parts).encode()


def zipped(octets: bytes) -> bytes:
    return gzip.compress(octets, 9, mtime=0)


def is_kept(path: str, rules: list[str]) -> bool:
    """Whether a file of examples is kept with the sources, by the lines of examples/.gitignore: the last one counts
    that names it."""
    kept = not path.startswith(".")
    for rule in rules:
        pattern = rule.removeprefix("!")
        named = path if pattern.startswith("/") else os.path.basename(path)
        if fnmatch.fnmatchcase(named, pattern.removeprefix("/")):
            kept = rule.startswith("!")
    return kept


def examples() -> Iterator[str]:
    """The files of the examples that are kept, by their paths in the folder of examples."""
    lines = programs.octets_of(EXAMPLES, ".gitignore").decode().splitlines()
    rules = [it for it in lines if it and not it.startswith("#")]
    for at, folders, names in os.walk(EXAMPLES):
        folders[:] = sorted(it for it in folders if it != "out")
        paths = (os.path.relpath(os.path.join(at, it), EXAMPLES) for it in sorted(names))
        yield from (it for it in paths if is_kept(it, rules))


def place(target: str) -> str:
    """Where Debian has a file whose path below a prefix is this."""
    for here, there in ELSEWHERE.items():
        target = target.replace(here, there)
    return f"usr/{target}"


def places() -> dict[str, str]:
    """Where the package has the files of this tree, by their paths from the top."""
    found = {source: place(target) for source, target in programs.FILES.items()}
    return found | UNITS | {f"examples/{it}": f"{DOCUMENTS}/examples/{it}" for it in examples()}


def held(made: dict[str, str]) -> dict[str, File]:
    """The files of the package by their paths. The programs are those that `made` names by their paths."""
    found = {f"usr/bin/{name}": File(programs.octets_of(path), 0o755) for name, path in made.items()}
    found["usr/bin/hsp"] = File((START + companion.MAIN.removeprefix("import sys\n")).encode(), 0o755)
    found |= {f"{MODULES}/{name}": File(octets) for name, octets in companion.modules().items()}
    paths = places()
    for source, path in paths.items():
        octets, is_manual = pages.installed(source, paths), path.startswith("usr/share/man/")
        found[f"{path}.gz" if is_manual else path] = File(zipped(octets) if is_manual else octets)
    found[f"{DOCUMENTS}/changelog.gz"] = File(zipped(changelog()))
    found[f"{DOCUMENTS}/copyright"] = File(programs.octets_of(TEXTS, "copyright"))
    found["usr/share/lintian/overrides/hsplan"] = File(programs.octets_of(TEXTS, "lintian-overrides"))
    found["usr/share/python3/runtime.d/hsplan.rtupdate"] = File(programs.octets_of(TEXTS, "rtupdate"), 0o755)
    return found


def folders_of(paths: Iterator[str] | list[str]) -> list[str]:
    """The folders that these files lie in, all the way up."""
    found = set()
    for path in paths:
        while path := os.path.dirname(path):
            found.add(path)
    return sorted(found)


def control(files: dict[str, File]) -> dict[str, File]:
    """The files that control the installation. The size counts whole kilobytes of a file, and one of a folder."""
    size = sum((len(it.octets) + 1023) // 1024 for it in files.values()) + len(folders_of(list(files)))
    text = programs.octets_of(TEXTS, "control").decode().format(version=programs.version(), kilobytes=size)
    sums = "".join(f"{hashlib.md5(it.octets).hexdigest()}  {path}\n" for path, it in sorted(files.items()))
    scripts = {f"DEBIAN/{it}": File(programs.octets_of(TEXTS, it), 0o755) for it in ("postinst", "prerm")}
    return {"DEBIAN/control": File(text.encode()), "DEBIAN/md5sums": File(sums.encode()), **scripts}


def put(room: str, files: dict[str, File], when: int) -> None:
    """Writes files and their folders into an empty folder, with the modes and the time that they are to have."""
    for path, (octets, mode) in files.items():
        target = os.path.join(room, path)
        os.makedirs(os.path.dirname(target), exist_ok=True)
        with open(target, "wb") as file:
            file.write(octets)
        os.chmod(target, mode)
        os.utime(target, (when, when))
    for path in ["", *folders_of(list(files))]:
        os.chmod(os.path.join(room, path), 0o755)
        os.utime(os.path.join(room, path), (when, when))


def write(made: dict[str, str], target: str) -> None:
    """Writes the package of this tree, with the programs that `made` names by their paths."""
    if not has_packer():
        raise programs.Missing("a package is written by dpkg-deb, and none is in PATH (Debian: dpkg)")
    files, when = held(made), epoch()
    with tempfile.TemporaryDirectory() as room:
        put(room, {**files, **control(files)}, when)
        subprocess.run(
            ["dpkg-deb", "--root-owner-group", "-Zxz", "-z9", "--threads-max=1", "--build", room, target],
            env={**os.environ, "SOURCE_DATE_EPOCH": str(when), "LC_ALL": "C.UTF-8"},
            stdout=subprocess.DEVNULL,
            check=True,
        )
