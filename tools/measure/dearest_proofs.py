#!/usr/bin/env python3
"""Lists what took longest to prove in the last check of a crate from nothing.

    tools/measure/dearest_proofs.py CRATE [N]        the N most expensive modules, 30 if N is left out

The seconds of a module are the time from the writing of the file that was kept before it to the writing of its own. A
module `F.Proof` is the search for the goals of a function F, and `F.Lts` is how long its values live. Other names are
files of proofs/ and specs/. What a check took from an earlier one has the times of the earlier one. Checks side by side
take longer, so compare only what was measured at one load.
"""

import argparse
import os
import re
import sys
from pathlib import Path

sys.path.insert(0, str(Path(__file__).resolve().parents[1]))

from lib import programs


# A longer time than this, in seconds, lies between two checks: no module takes so long.
BETWEEN_CHECKS = 300


def files_of(crate: str) -> list[tuple[float, str]]:
    """The files that checks of the crate kept, each with its time of writing, in the order of these times."""
    kept = os.path.join(programs.TOP, "crates", crate, "out", "incremental")
    found = [os.path.join(at, name) for at, _, names in os.walk(kept) for name in names if name.endswith(".oantt")]
    return sorted((os.stat(it).st_mtime, it) for it in found)


def module_of(crate: str, path: str) -> str:
    name = re.sub(r"(\.decls)?\.oantt$", "", os.path.basename(path))
    return re.sub(f"^Rattle-{crate}-?", "", name) or crate


def main() -> None:
    arguments = argparse.ArgumentParser(description="Lists the most expensive proofs of a crate.")
    arguments.add_argument("crate")
    arguments.add_argument("most", nargs="?", type=int, default=30)
    given = arguments.parse_args()
    files = files_of(given.crate)
    steps = [(after - before, path) for (before, _), (after, path) in zip(files, files[1:])]
    steps = [(seconds, module_of(given.crate, path)) for seconds, path in steps if seconds < BETWEEN_CHECKS]
    if not steps:
        raise SystemExit(f"no check of {given.crate} kept anything: run rt check in crates/{given.crate}")
    for seconds, module in sorted(steps, reverse=True)[: given.most]:
        print(f"{seconds:8.2f}  {module}")
    print(f"{sum(seconds for seconds, _ in steps):8.2f}  all {len(steps)}")


if __name__ == "__main__":
    main()
