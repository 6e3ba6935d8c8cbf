"""How hsp ends: with a status, and lines on standard error where these can be written."""

import os
import sys
from typing import NoReturn

from hsp.base.text import say

# Not all queries can be served; memory ran out; a file or a program isn't there or fails.
SHORTAGE, OUT_OF_MEMORY, BROKEN = 3, 4, 5


def with_streams() -> None:
    """Opens the null device for each standard stream that is closed, so that no file gets its number. Ends where that
    is standard output, which each command writes."""
    is_closed = sys.stdout is None
    number = 0
    while number < 3:
        number = os.open(os.devnull, os.O_RDWR)
    os.close(number)
    sys.stdin = sys.stdin or open(0, encoding="utf-8")
    sys.stderr = sys.stderr or open(2, "w", encoding="utf-8")
    if is_closed:
        ended(BROKEN, "standard output is closed")


def to_nowhere(stream: int) -> None:
    """Drops what a stream still has to write, so that Python doesn't try it once more at the end."""
    os.dup2(os.open(os.devnull, os.O_WRONLY), stream)


def lost(fault: OSError) -> NoReturn:
    """Ends where a file, or standard output, can't be read or written. Nothing is said where nobody reads on."""
    name = fault.filename
    if name is None:
        name = "standard output"
        to_nowhere(1)
    ended(BROKEN, *([] if isinstance(fault, BrokenPipeError) else [f"{name}: {fault.strerror}"]))


def ended(status: int, *lines: str) -> NoReturn:
    """Prints lines on standard error, where these can be written, and ends with a status."""
    try:
        for line in lines:
            say(f"hsp: {line}", err=True)
    except OSError:
        to_nowhere(2)
    sys.exit(status)
