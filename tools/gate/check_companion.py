#!/usr/bin/env python3
"""Tests the companion `hsp` with Debian's Python: its types, its tests over the built programs and in headless
Chromium, and the pages that lie in examples. The tests run side by side, one for each processor.

    tools/gate/check_companion.py [PYTEST ARGUMENTS]..
"""

import os
import subprocess
import sys
from pathlib import Path

sys.path.insert(0, str(Path(__file__).resolve().parents[1]))

from lib import lanes, packages, programs


PYTHON = "/usr/bin/python3"
COMPANION = os.path.join(programs.TOP, "companion")


def main() -> int:
    if not packages.are_there():
        return 1
    steps = [
        # Each start of hsp takes what is compiled here, as long as its sources have the same octets.
        [PYTHON, "-m", "compileall", "-q", "--invalidation-mode", "checked-hash", "hsp"],
        [PYTHON, "-m", "mypy", "--strict", "--no-incremental", "hsp"],
        [PYTHON, "-m", "pytest", "-q", "-p", "no:cacheprovider", "-n", str(lanes.processors()), "tests", *sys.argv[1:]],
        [PYTHON, os.path.join(programs.TOP, "tools", "pictures", "shoot.py"), "--check"],
    ]
    environment = {**os.environ, "PYTHONDONTWRITEBYTECODE": "1", "MYPY_CACHE_DIR": os.devnull}
    statuses = [subprocess.run(words, cwd=COMPANION, env=environment).returncode for words in steps]
    print(f"companion: {sum(it != 0 for it in statuses)} faults")
    return 1 if any(statuses) else 0


if __name__ == "__main__":
    programs.ended(main)
