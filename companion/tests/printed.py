"""Printed texts that are kept: each test's text has to be the one in the folder `printed`. A change of it is shown, and a
person judges whether it is meant. That a text is right is for other tests to say.

With HSP_KEEP in the environment tests write what they print in place of it. Then run pytest without -n, and read what
has changed before it is committed.
"""

import difflib
import functools
import os
import re
from pathlib import Path

import pytest

FOLDER = Path(__file__).parent / "printed"
HEAD = re.compile(r"^==== (.*)\n", re.M)


@functools.lru_cache
def kept(name: str) -> dict[str, str]:
    """The texts of a file by their heads. What stands above the first head has an empty one."""
    path = FOLDER / f"{name}.txt"
    parts = ["", *HEAD.split(path.read_bytes().decode() if path.exists() else "")]
    return dict(zip(parts[0::2], parts[1::2]))


def heads(name: str) -> list[str]:
    return [head for head in kept(name) if head]


def assert_kept(name: str, head: str, text: str) -> None:
    """The text under a head of a file is this one."""
    text = text if text.endswith("\n") or not text else f"{text}\n"
    assert not HEAD.search(text) and head and "\n" not in head
    if os.environ.get("HSP_KEEP"):
        kept(name)[head] = text
        whole = "".join(f"==== {head}\n{text}" if head else text for head, text in kept(name).items())
        (FOLDER / f"{name}.txt").write_bytes(whole.encode())
    assert head in kept(name), f"nothing is kept under {head}: run the test with HSP_KEEP=1"
    if text != kept(name)[head]:
        changes = difflib.unified_diff(kept(name)[head].splitlines(), text.splitlines(), "kept", "printed", lineterm="")
        pytest.fail("\n".join([f"{name}.txt, {head}:", *changes]), pytrace=False)
