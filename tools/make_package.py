#!/usr/bin/env python3
"""Makes an archive, or a package of Debian, of the programs, hsp, manual pages, completions and pages.

    tools/make_package.py archive    out/hsplan-VERSION-x86_64-linux.tar.xz, with what stands below PREFIX
    tools/make_package.py deb        out/hsplan_VERSION_amd64.deb, with the examples too (tools/lib/deb.py)

The programs are those built here where they are newer than their sources, and otherwise the released ones. No kit is
needed. The same programs and files give the same octets.
"""
from __future__ import annotations

import argparse
import io
import lzma
import os
import sys
import tarfile

from lib import companion, deb, pages, programs


def contents(made: dict[str, str]) -> dict[str, tuple[bytes, int]]:
    """What the archive holds: each path in it, with the octets of the file and its mode."""
    held = {f"bin/{name}": (programs.octets_of(path), 0o755) for name, path in made.items()}
    held["bin/hsp"] = (companion.archive(), 0o755)
    files = programs.FILES
    return {**held, **{files[it]: (pages.installed(it, files), 0o644) for it in files}}


def packed(held: dict[str, tuple[bytes, int]]) -> bytes:
    """The archive of these files, without times and owners."""
    room = io.BytesIO()
    with tarfile.open(fileobj=room, mode="w", format=tarfile.USTAR_FORMAT) as archive:
        for path, (octets, mode) in sorted(held.items()):
            member = tarfile.TarInfo(f"{programs.stem()}/{path}")
            member.size, member.mode = len(octets), mode
            archive.addfile(member, io.BytesIO(octets))
    return lzma.compress(room.getvalue(), preset=9 | lzma.PRESET_EXTREME)


def write(kind: str, made: dict[str, str]) -> str:
    """Writes the archive or the package, and returns its path."""
    os.makedirs(programs.OUT, exist_ok=True)
    if kind == "deb":
        deb.write(made, programs.package())
        return programs.package()
    with open(programs.archive(), "wb") as file:
        file.write(packed(contents(made)))
    return programs.archive()


def main() -> int:
    arguments = argparse.ArgumentParser(description="Makes an archive or a package of Debian.")
    arguments.add_argument("kind", choices=("archive", "deb"))
    kind = arguments.parse_args().kind
    try:
        chosen = {it: programs.chosen(it) for it in programs.PROGRAMS}
        path = write(kind, {name: program.path for name, program in chosen.items()})
    except programs.Missing as missing:
        print(missing, file=sys.stderr)
        return 1
    for name, program in chosen.items():
        print(f"{name}: {program.kind}")
    print(f"{os.path.relpath(path, programs.TOP)}: {os.path.getsize(path):,} octets")
    return 0


if __name__ == "__main__":
    programs.ended(main)
