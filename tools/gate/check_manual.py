#!/usr/bin/env python3
"""Checks that each installed tool for manual pages formats the pages of docs/use without a warning.

The version of each page has to be that of VERSION. A tool that is not installed is named as not tried. If no tool is
installed, that is a fault.
"""

import os
import re
import shutil
import subprocess
import sys
from pathlib import Path

sys.path.insert(0, str(Path(__file__).resolve().parents[1]))

from lib import programs

PAGES = [os.path.join(programs.TOP, "docs", "use", it) for it in ("hsplan.1", "hsplan-stream.1", "hsp.1")]
TOOLS = {
    "groff": ["groff", "-ww", "-z", "-man", "-Tutf8"],
    "man": ["man", "--warnings=w", "-E", "UTF-8", "-l", "-Tutf8", "-Z"],
    "mandoc": ["mandoc", "-T", "lint", "-W", "warning"],
}


def warnings(tool: str, page: str) -> list[str]:
    ended = subprocess.run(TOOLS[tool] + [page], stdout=subprocess.PIPE, stderr=subprocess.PIPE, text=True)
    said = ended.stderr + (ended.stdout if tool == "mandoc" else "")
    left = [] if ended.returncode == 0 or said.strip() else [f"{tool}: ended with status {ended.returncode}"]
    return [f"{tool}: {it}" for it in said.splitlines() if it.strip()] + left


def wrong_version(page: str) -> list[str]:
    stated = re.search(r'^\.TH .* "hsplan ([^"]*)"', programs.text_of(page), re.M)
    is_right = stated and stated[1] == programs.version()
    return [] if is_right else [f"{os.path.relpath(page, programs.TOP)} is not of version {programs.version()}"]


def main() -> int:
    there = [it for it in TOOLS if shutil.which(it)]
    absent = [it for it in TOOLS if it not in there]
    faults = [fault for page in PAGES for fault in wrong_version(page)]
    faults += [fault for page in PAGES for it in there for fault in warnings(it, page)]
    print("".join(f"{it} IS NOT INSTALLED HERE: the manual pages were not tried with it\n" for it in absent), end="")
    line = f"manual pages: {len(PAGES)} formatted by {', '.join(there) or 'no tool'},"
    return programs.concluded(faults, line, bool(there))


if __name__ == "__main__":
    sys.exit(main())
