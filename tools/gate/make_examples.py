#!/usr/bin/env python3
"""Writes the inputs of the examples.

Those of examples/two-sites and examples/bring-in are kept with the sources. Those of examples/twelve-sites are large,
and go into its folder out/. A number that is not written here is drawn from a digest of a word and of what the number
is for. So each run writes the same octets.

    tools/gate/make_examples.py            writes all
    tools/gate/make_examples.py --check    writes nothing, and compares the kept ones with what it would write there
"""

import argparse
import os
import sys
from pathlib import Path

sys.path.insert(0, str(Path(__file__).resolve().parents[1]))

from lib import examples, programs


def octets_at(path: str) -> bytes | None:
    if not os.path.exists(path):
        return None
    with open(path, "rb") as file:
        return file.read()


def differing(folder: str, files: examples.Files) -> list[str]:
    return [
        f"{folder}/{name} is not what tools/gate/make_examples.py writes"
        for name, octets in files.items()
        if octets_at(os.path.join(programs.TOP, folder, name)) != octets
    ]


def main() -> int:
    arguments = argparse.ArgumentParser(description="Writes the inputs of the examples.")
    arguments.add_argument(
        "--check", action="store_true", help="compare the kept examples with what would be written, and write nothing"
    )
    kept = {"examples/two-sites": examples.two_sites(), "examples/bring-in": examples.bring_in()}
    if arguments.parse_args().check:
        faults = [fault for folder, files in kept.items() for fault in differing(folder, files)]
        compared = " and ".join(f"{len(files)} files of {os.path.basename(folder)}" for folder, files in kept.items())
        return programs.concluded(faults, f"examples: {compared} compared,")
    for folder, files in kept.items():
        examples.write(folder, files)
    examples.write("examples/twelve-sites/out", examples.twelve_sites())
    return 0


if __name__ == "__main__":
    sys.exit(main())
