"""Files that a command reads more than once: that they stay the same meanwhile, or that they have changed."""

import os
import stat
from collections.abc import Iterable

Sign = tuple[int, int, int] | None


def sign_of(path: str) -> Sign:
    """What differs where a file was written anew. None where no file is there."""
    try:
        found = os.stat(path)
    except (OSError, ValueError):
        return None
    return (found.st_ino, found.st_size, found.st_mtime_ns) if stat.S_ISREG(found.st_mode) else None


class Held:
    """Files as they were at the first look at each."""

    def __init__(self) -> None:
        self._signs: dict[str, Sign] = {}

    def add(self, files: Iterable[str]) -> None:
        for path in files:
            self._signs.setdefault(path, sign_of(path))

    def changed(self) -> str:
        """The path of a file that was changed since then; nothing where none was."""
        return next((path for path, sign in self._signs.items() if sign_of(path) != sign), "")


class Watched:
    """Files of which a change is to be seen. One that is still being written is waited for."""

    def __init__(self, files: Iterable[str]) -> None:
        self._files = list(files)
        self._read = self._last = self._signs()

    def _signs(self) -> list[Sign]:
        return [sign_of(path) for path in self._files]

    def are_read(self) -> None:
        """From now on only what changes later is a change."""
        self._read = self._last = self._signs()

    def have_changed(self) -> bool:
        """Whether they are other ones than were read, and the same as at the last look."""
        now, last = self._signs(), self._last
        self._last = now
        return now == last and now != self._read
