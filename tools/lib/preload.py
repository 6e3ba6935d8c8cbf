"""Libraries in C that are preloaded before a program: they refuse an allocation, fail a call, or report memory."""

import os
import subprocess
from pathlib import Path

from lib import programs


def compiled(source: str, folder: str, words: str, libraries: str = "") -> str:
    """What a source below tools is compiled to in a folder, by these words before it and these libraries behind it."""
    path, made = os.path.join(programs.TOP, "tools", source), os.path.join(folder, Path(source).stem)
    subprocess.run([*words.split(), "-o", made, path, *libraries.split()], check=True)
    return made


def built(name: str, folder: str) -> str:
    """The library of tools/lib/NAME.c, compiled into a folder."""
    return compiled(f"lib/{name}.c", folder, "cc -O1 -shared -fPIC", "-ldl")


def count_in(path: str) -> int | None:
    """The number that a library wrote into a file, or None where it wrote none."""
    try:
        with open(path, encoding="ascii") as file:
            return int(file.read())
    except (OSError, ValueError):
        return None
