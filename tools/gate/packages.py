#!/usr/bin/env python3
"""Installs the packages of Debian that the gate takes, where it runs as root. Otherwise one line names those that are
absent.

    tools/gate/packages.py
"""

import sys
from pathlib import Path

sys.path.insert(0, str(Path(__file__).resolve().parents[1]))

from lib import packages

if __name__ == "__main__":
    sys.exit(not packages.are_there())
