#!/usr/bin/env python3
"""Writes the folder `release` from the programs that the gate, or `make prove`, has proved and built.

    release/hsplan            the programs
    release/hsplan-stream
    release/SHA256SUMS        their sums, for `sha256sum -c`
    release/MADE              version, the kit's line of `rt version`, and the sum over the sources

tools/gate/check_release.py compares them with what is proved and built. tools/make_package.py makes an archive and a
package of Debian of them.
"""
from __future__ import annotations

import os
import shutil
import sys

from lib import programs


def write(name: str, text: str) -> None:
    with open(os.path.join(programs.RELEASE, name), "w", encoding="utf-8") as file:
        file.write(text)


def proved() -> dict[str, str]:
    """The programs that were proved and built here, by their names."""
    found = {name: path for name in programs.PROGRAMS if (path := programs.built(name))}
    if len(found) < len(programs.PROGRAMS):
        raise programs.Missing("the programs are not built, or older than a source: make prove")
    return found


def main() -> int:
    try:
        found = proved()
    except programs.Missing as missing:
        print(missing, file=sys.stderr)
        return 1
    os.makedirs(programs.RELEASE, exist_ok=True)
    for name, path in found.items():
        target = os.path.join(programs.RELEASE, name)
        shutil.copyfile(path, target)
        os.chmod(target, 0o755)
        print(f"release/{name}: {os.path.getsize(target):,} octets")
    write("SHA256SUMS", "".join(f"{programs.sum_of(path)}  {name}\n" for name, path in found.items()))
    write("MADE", f"version {programs.version()}\nkit {programs.kit()}\nsources {programs.digest()}\n")
    return 0


if __name__ == "__main__":
    programs.ended(main)
