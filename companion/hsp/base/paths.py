"""Paths of files, as the commands and the programs take them."""

import os
import shlex


def named(path: str) -> str:
    """The path, which no program takes for an option."""
    return f"./{path}" if path.startswith("-") and path != "-" else path


def path_in(folder: str, name: str) -> str:
    """The path of a file in a folder, without needless parts."""
    return named(os.path.normpath(os.path.join(folder, name)))


def shell_word(path: str) -> str:
    """The path as one word of a command in a shell."""
    return shlex.quote(named(path))
