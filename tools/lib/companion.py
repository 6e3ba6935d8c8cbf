"""The companion `hsp` as one file: a zip archive that Python runs, of the package in companion/hsp.

The same sources give the same octets: names are sorted, and no time is kept.
"""
from __future__ import annotations

import io
import os
import zipfile

from lib import programs

PACKAGE = os.path.join(programs.TOP, "companion", "hsp")
# The time of each file in the archive: the first that a zip archive can have.
TIME = (1980, 1, 1, 0, 0, 0)
MAIN = """import sys

if sys.version_info < (3, 11):
    sys.exit("hsp: this is Python %d.%d, and hsp needs 3.11 or later" % sys.version_info[:2])
import signal

# Until hsp.cli answers signals, Ctrl-C ends hsp without a traceback. Where it is ignored it stays so.
if signal.getsignal(signal.SIGINT) == signal.default_int_handler:
    signal.signal(signal.SIGINT, signal.SIG_DFL)
try:
    import click, jinja2
except ImportError as error:
    sys.exit(f"hsp: Python has no {error.name}: install click and Jinja2 (Debian: python3-click python3-jinja2)")
from hsp.cli import main

main(prog_name="hsp")
"""


def modules() -> dict[str, bytes]:
    """The files of the package by their names, which begin with `hsp/`. `python3 -m hsp` isn't a way to call it."""
    found = {}
    for at, folders, names in os.walk(PACKAGE):
        folders[:] = [it for it in folders if not it.startswith((".", "__"))]
        for name in names:
            if name != "__main__.py":
                path = os.path.join(at, name)
                with open(path, "rb") as file:
                    found[os.path.relpath(path, os.path.dirname(PACKAGE))] = file.read()
    return found


def files() -> dict[str, bytes]:
    """The files of the archive by their names."""
    return {"__main__.py": MAIN.encode(), **modules()}


def archive() -> bytes:
    """The archive, with the line before it by which a shell finds Python."""
    room = io.BytesIO()
    with zipfile.ZipFile(room, "w", zipfile.ZIP_DEFLATED, compresslevel=9) as packed:
        for name, octets in sorted(files().items()):
            member = zipfile.ZipInfo(name, TIME)
            member.external_attr = 0o644 << 16
            member.compress_type = zipfile.ZIP_DEFLATED
            packed.writestr(member, octets)
    return b"#!/usr/bin/python3\n" + room.getvalue()
