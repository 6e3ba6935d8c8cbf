#!/usr/bin/env python3
"""Prints how many checks `rt ci` runs side by side in `make test`; `RT_JOBS=N make test` runs N of them."""

import sys
from pathlib import Path

sys.path.insert(0, str(Path(__file__).resolve().parents[1]))

from lib import lanes

if __name__ == "__main__":
    print(lanes.lanes())
