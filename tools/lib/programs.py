"""The programs of this repository: what they are made of, where a built one stands, and what a release holds.

A script that runs a program asks `chosen` for it. `chosen` gives the built one where it is newer than its sources,
and otherwise the released one. Where neither can run here, `Missing` says why in one line.
"""
from __future__ import annotations

import hashlib
import os
import platform
import shutil
import subprocess
import sys
from typing import Callable, Dict, Iterator, List, NamedTuple, NoReturn, Optional, Tuple

TOP = os.path.dirname(os.path.dirname(os.path.dirname(os.path.abspath(__file__))))
PROGRAMS = ("hsplan", "hsplan-stream")
RELEASE = os.path.join(TOP, "release")
# Where the archive and the package of Debian are made.
OUT = os.path.join(TOP, "out")
# What is installed beside the programs, each file with its path below PREFIX (pages: see tools/lib/pages.py).
_NAMES = ("hsplan", "hsplan-stream", "hsp")
_PAGES = "use/GUIDE use/FORMATS use/LOGS use/COMMANDS use/FAULTS use/LIMITS use/FLEET use/FORCE use/PROXY use/DAY"
_GUIDE = [f"{it}.md" for it in f"{_PAGES} maintain/BENCH".split()]
_GUIDE += [f"pictures/{it}" for it in ("flow.svg", "loads.svg", "page.png", "record.svg")]
FILES = {
    **{f"docs/use/{it}.1": f"share/man/man1/{it}.1" for it in _NAMES},
    **{f"completions/{it}.bash": f"share/bash-completion/completions/{it}" for it in _NAMES},
    **{f"completions/_{it}": f"share/zsh/site-functions/_{it}" for it in _NAMES},
    **{f"completions/{it}.fish": f"share/fish/vendor_completions.d/{it}.fish" for it in _NAMES},
    "README.md": "share/doc/hsplan/README.md",
    **{f"docs/{it}": f"share/doc/hsplan/{it}" for it in _GUIDE},
}
LEAST_GLIBC = (2, 34)
NEED_KIT = 'no rt in PATH: a proof takes the Rattle kit; README.md has more under "The kit"'


class Missing(Exception):
    """No program can be run here; the text says in one line what is missing."""


class Program(NamedTuple):
    """A program that can be run: its path, what it is, and whether it was made of other sources than these."""

    path: str
    kind: str
    is_other: bool


def text_of(*path: str) -> str:
    with open(os.path.join(TOP, *path), encoding="utf-8") as file:
        return file.read()


def octets_of(*path: str) -> bytes:
    with open(os.path.join(TOP, *path), "rb") as file:
        return file.read()


def version() -> str:
    return text_of("VERSION").strip()


def dependencies() -> Dict[str, List[str]]:
    """The crates of crates.txt, each with those of this repository that it stands on."""
    lines = [it.split("#")[0].split(":") for it in text_of("crates.txt").splitlines()]
    listed = {it[0].split()[0]: it[1].split() for it in lines if len(it) == 2}
    return {name: [it for it in below if it in listed] for name, below in listed.items()}


def storeys() -> List[Tuple[str, List[str]]]:
    """The storeys of crates.txt, the lowest first: what its comments say, and the crates below each."""
    found: List[Tuple[str, List[str]]] = []
    for line in text_of("crates.txt").splitlines()[1:]:
        if line.startswith("# "):
            found.append((line[2:], []))
        elif ":" in line:
            found[-1][1].append(line.split(":")[0])
    return found


def crate_of(program: str) -> str:
    return program.replace("-", "_")


def crates_of(programs: Tuple[str, ...] = PROGRAMS) -> List[str]:
    """The crates that the programs are made of, sorted."""
    below, found, waiting = dependencies(), set(), [crate_of(it) for it in programs]
    while waiting:
        name = waiting.pop()
        if name not in found:
            found.add(name)
            waiting += below[name]
    return sorted(found)


def lines_of(crates: List[str]) -> List[str]:
    return [it for it in text_of("crates.txt").splitlines() if it.split("#")[0].split(":")[0].strip() in crates]


def sources(crates: List[str]) -> Iterator[str]:
    """The files that these crates are proved and built from, as sorted paths from the top."""
    for crate in crates:
        for part in ("src", "specs", "proofs"):
            for at, folders, names in os.walk(os.path.join(TOP, "crates", crate, part)):
                folders.sort()
                yield from (os.path.relpath(os.path.join(at, it), TOP) for it in sorted(names))


def digest() -> str:
    """The SHA-256 sum over the sources of the programs: paths and octets, their lines of crates.txt, and HANDLES."""
    crates, whole = crates_of(), hashlib.sha256()
    whole.update(("\n".join(sorted(lines_of(crates))) + "\n" + text_of("HANDLES")).encode())
    for path in sources(crates):
        whole.update(f"{path} {sum_of(path)}\n".encode())
    return whole.hexdigest()


def built_path(name: str) -> str:
    crate = crate_of(name)
    return os.path.join(TOP, "crates", crate, "out", crate)


def variable(name: str) -> str:
    """The variable of the environment that names a program's file."""
    return name.upper().replace("-", "_")


def tested(name: str) -> str:
    """The program that a check tries: that of HSPLAN or HSPLAN_STREAM, as `make check` sets them to the released
    programs, or otherwise the one built here."""
    return os.environ.get(variable(name)) or built_path(name)


def is_absent(*paths: str) -> bool:
    """Whether one of the programs that a script runs can't be run. Then a line names it."""
    absent = [it for it in paths if not os.access(it, os.X_OK)]
    if absent:
        print(f"no program {absent[0]}: run rt ci or make prove first, or name one by HSPLAN and HSPLAN_STREAM")
    return bool(absent)


def concluded(faults: List[str], line: str, is_fine: bool = True) -> int:
    """Prints the faults of a check, and behind them a line with their number. Returns the status of the check."""
    print("\n".join([*faults, f"{line} {len(faults)} faults"]))
    return 1 if faults or not is_fine else 0


def variables() -> Dict[str, str]:
    """The variables by which hsp finds the programs that a check tries."""
    return {variable(it): tested(it) for it in PROGRAMS}


def built(name: str) -> Optional[str]:
    """The built program, or None where it cannot be run or a source of it is newer."""
    path = built_path(name)
    if not os.access(path, os.X_OK):
        return None
    made = os.stat(path).st_mtime
    newer = (it for it in sources(crates_of((name,))) if os.stat(os.path.join(TOP, it)).st_mtime > made)
    return path if next(newer, None) is None else None


def released() -> str:
    """The version of the release, which is written once for each version; that of VERSION where there is none."""
    return made().get("version") or version()


def stem() -> str:
    """The name of the only folder in the archive, which is also the name of the archive without the ending."""
    return f"hsplan-{version()}-x86_64-linux"


def archive() -> str:
    return os.path.join(OUT, stem() + ".tar.xz")


def package() -> str:
    return os.path.join(OUT, f"hsplan_{version()}_amd64.deb")


def made() -> Dict[str, str]:
    """What release/MADE says: version, kit and sources, or nothing where there is no release."""
    try:
        lines = text_of("release", "MADE").splitlines()
    except FileNotFoundError:
        return {}
    return {word: rest for word, _, rest in (it.partition(" ") for it in lines)}


def sum_of(path: str) -> str:
    return hashlib.sha256(octets_of(path)).hexdigest()


def kit() -> str:
    """The line by which the kit of this machine names itself; empty where there is none."""
    if not shutil.which("rt"):
        return ""
    return subprocess.run(["rt", "version"], stdout=subprocess.PIPE, text=True, check=True).stdout.strip()


def unfit() -> Optional[str]:
    """Why the released programs cannot run on this machine, or None where they can."""
    system, machine = platform.system(), platform.machine()
    if (system, machine) != ("Linux", "x86_64"):
        return f"the released program needs Linux on x86_64, and this is {system} on {machine}"
    library, number = platform.libc_ver()
    parts = tuple(int(it) for it in number.split(".")[:2] if it.isdigit())
    if library != "glibc" or parts < LEAST_GLIBC:
        here = f"{library or 'another C library'} {number}".rstrip()
        return f"the released program needs glibc 2.34 or later, and this is {here}"
    return None


def released_program(name: str) -> str:
    """The path of a released program, once its sum was compared."""
    path = os.path.join(RELEASE, name)
    try:
        line = f"{sum_of(path)}  {name}"
        fine = line in text_of("release", "SHA256SUMS").splitlines()
    except OSError as error:
        where = os.path.relpath(error.filename, TOP)
        raise Missing(f"there is no release of version {released()}: {where} is missing") from error
    if not fine:
        raise Missing(f"release/{name} does not have the sum that release/SHA256SUMS names")
    return path


def chosen(name: str) -> Program:
    """The program to run: the built one, or the released one."""
    path = built(name)
    if path:
        return Program(path, "the program built here", False)
    why = unfit()
    if why is None:
        try:
            path = released_program(name)
            is_other = made().get("sources") != digest()
            more = ", made of other sources than these" if is_other else ""
            return Program(path, f"the released program, version {released()}{more}", is_other)
        except Missing as missing:
            why = str(missing)
    raise Missing(f'{name}: {why}, and none is built here (make prove); README.md has more under "Try it"')


def ended(main: Callable[[], int]) -> NoReturn:
    """Ends a script with the status of its `main`, and without a traceback where it is interrupted or nobody reads
    its output further."""
    try:
        status = main()
        sys.stdout.flush()
    except KeyboardInterrupt:
        status = 130
    except BrokenPipeError:
        os.dup2(os.open(os.devnull, os.O_WRONLY), 1)
        status = 141
    sys.exit(status)
