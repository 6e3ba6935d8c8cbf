"""Files that are written together: all of them, or none. What isn't a file is never replaced by one.

A file is written beside its place under a name of its own, and gets its name when it is whole.
"""

import contextlib
import errno
import fcntl
import os
import re
import secrets
import stat
import time
from collections.abc import Iterable, Iterator, Mapping
from typing import IO

from hsp.base.paths import path_in
from hsp.base.programs import Missing
from hsp.base.signals import uncut
from hsp.base.unfit import Unfit

# How a folder is opened that is no link.
FOLDER = os.O_RDONLY | os.O_DIRECTORY | os.O_NOFOLLOW | os.O_CLOEXEC
# So many seconds a run waits for another one that writes in the same folder.
PATIENCE = 30
# The folders, by device and number, that this process has locked.
_locked: set[tuple[int, int]] = set()


@contextlib.contextmanager
def _named(path: str, part: str = "") -> Iterator[None]:
    """Gives a fault of a write the name of its file, in place of the part that is written first."""
    try:
        yield
    except OSError as fault:
        own = path if fault.filename in (None, part) else fault.filename
        raise OSError(fault.errno, fault.strerror, own) from None


def created(path: str, rights: int = 0o666, at: int | None = None) -> IO[bytes]:
    """A file that wasn't there before, and isn't behind a link; of a folder by its descriptor."""
    flags = os.O_WRONLY | os.O_CREAT | os.O_EXCL | os.O_NOFOLLOW | os.O_CLOEXEC
    return open(os.open(path, flags, rights, dir_fd=at), "wb")


def opened(root: str, folder: str, is_made: bool = True) -> int:
    """A folder below another one, by its descriptor; it is made where it isn't there. No link below `root` is
    followed."""
    at = os.open(root, os.O_RDONLY | os.O_DIRECTORY | os.O_CLOEXEC)
    for name in os.path.relpath(folder, root).split(os.sep):
        above = at
        try:
            with contextlib.suppress(FileExistsError):
                if is_made:
                    os.mkdir(name, dir_fd=above)
            at = os.open(name, FOLDER, dir_fd=above)
        except OSError as fault:
            if fault.errno in (errno.ENOTDIR, errno.ELOOP):
                raise Unfit(f"{folder}: no folder of its own; files are written there") from None
            raise OSError(fault.errno, fault.strerror, folder) from None
        finally:
            os.close(above)
    return at


def forget(root: str, folder: str, names: Iterable[str]) -> None:
    """Takes away files of a folder below another one, as `opened` finds it."""
    try:
        at = opened(root, folder, False)
    except (FileNotFoundError, Unfit):
        return
    try:
        for name in names:
            with contextlib.suppress(FileNotFoundError):
                os.unlink(name, dir_fd=at)
    finally:
        os.close(at)


def _stream(path: str) -> str | int | None:
    """What is written as it goes: a descriptor by its number, a device or a pipe by its path. None for a file."""
    descriptor = re.fullmatch(r"/(?:dev|proc/self)/fd/([0-9]+)", path)
    if descriptor or path in ("/dev/stdout", "/dev/stderr"):
        return int(descriptor[1]) if descriptor else 1 if path == "/dev/stdout" else 2
    try:
        mode = os.stat(path).st_mode
    except OSError:
        return None
    return None if stat.S_ISREG(mode) or stat.S_ISDIR(mode) else path


def _identity(path: str) -> tuple[int, int, str] | None:
    """Which file a path means, by device and number; one that isn't there by its folder and its name. None for a
    stream."""
    try:
        found = os.fstat(0) if path == "-" else os.stat(path)
    except OSError:
        folder, name = os.path.split(os.path.realpath(path))
        if not os.path.isdir(folder):
            return 0, 0, os.path.join(folder, name)
        own = os.stat(folder)
        return own.st_dev, own.st_ino, name
    return (found.st_dev, found.st_ino, "") if stat.S_ISREG(found.st_mode) else None


def refuse_clashes(inputs: Iterable[str], outputs: Iterable[str]) -> None:
    """Refuses a file that would be read and written, or written twice, whatever paths it is given by."""
    read, written = {_identity(file) for file in inputs}, set()
    for path in outputs:
        own = _identity(path)
        if own is not None and own in read:
            raise Unfit(f"{path}: it would be read and written")
        if own is not None and own in written:
            raise Unfit(f"{path}: it would be written twice")
        written.add(own)


def refuse_no_folder(path: str, what: str) -> None:
    """Refuses a link, and what is no folder, where a folder of its own is written."""
    if os.path.islink(path) or os.path.lexists(path) and not os.path.isdir(path):
        raise Unfit(f"{path}: no folder of its own; {what} there")


def refuse_no_file(path: str, why: str) -> None:
    """Refuses a folder, a pipe, a socket or a device where a file has to be. What isn't there is none of these."""
    if os.path.exists(path) and not os.path.isfile(path):
        raise Unfit(f"{path}: no regular file; {why}")


def _lock(descriptor: int, folder: str) -> None:
    """Waits until no other run has a folder locked. A folder that its file system can't lock isn't."""
    until = time.monotonic() + PATIENCE
    while True:
        try:
            fcntl.flock(descriptor, fcntl.LOCK_EX | fcntl.LOCK_NB)
            return
        except BlockingIOError:
            if time.monotonic() > until:
                raise Missing(f"{folder}: another run has it locked for {PATIENCE} seconds; try again later") from None
            time.sleep(0.02)
        except OSError:
            return


@contextlib.contextmanager
def _one_locked(folder: str) -> Iterator[None]:
    try:
        descriptor = os.open(folder, os.O_RDONLY | os.O_DIRECTORY)
    except OSError:  # a folder that can't be opened has nothing to lock; a write there says why it can't be
        yield
        return
    own = os.fstat(descriptor)
    key = own.st_dev, own.st_ino
    is_fresh = key not in _locked
    try:
        if is_fresh:
            _lock(descriptor, folder)
            _locked.add(key)
        yield
    finally:
        os.close(descriptor)
        if is_fresh:
            _locked.discard(key)


@contextlib.contextmanager
def locked(folders: Iterable[str]) -> Iterator[None]:
    """Only one run at a time has these folders. The kernel unlocks them when the run ends, however it ends."""
    with contextlib.ExitStack() as stack:
        for folder in sorted({os.path.realpath(name) for name in folders}):
            stack.enter_context(_one_locked(folder))
        yield


class Output:
    """A file that is written piece by piece under a name of its own, or a stream that is written as it goes. In a
    folder by its descriptor a file takes the place of a link, which else stays one."""

    def __init__(self, path: str, at: int | None = None) -> None:
        self.path, self._at, self._stream = path, at, _stream(path) if at is None else None
        self.target = os.path.realpath(path) if at is None else os.path.basename(path)
        self._part = os.path.join(os.path.dirname(self.target), f".hsp-{secrets.token_hex(8)}")
        self._file: IO[bytes] | None = None

    @property
    def is_file(self) -> bool:
        return self._stream is None

    def _mode(self) -> int:
        """The kind and the rights of what stands in its place; 0 where nothing does."""
        with contextlib.suppress(OSError):
            return os.stat(self.target, dir_fd=self._at, follow_symlinks=self._at is None).st_mode
        return 0

    def begin(self) -> None:
        mode = self._mode()
        with _named(self.path, self._part):
            if stat.S_ISDIR(mode):  # it would be seen only when others have their names already
                raise IsADirectoryError(errno.EISDIR, os.strerror(errno.EISDIR))
            if self._stream is None:
                self._file = created(self._part, 0o600 if stat.S_ISREG(mode) else 0o666, self._at)
            else:
                self._file = open(os.dup(self._stream) if isinstance(self._stream, int) else self._stream, "wb")

    def write(self, octets: bytes) -> None:
        assert self._file
        with _named(self.path):
            self._file.write(octets)

    def finish(self) -> None:
        """Writes what is left, and gives a file the rights of the one that stands in its place."""
        assert self._file
        with _named(self.path):
            self._file.flush()
            mode = self._mode()
            if self.is_file and stat.S_ISREG(mode):
                os.fchmod(self._file.fileno(), stat.S_IMODE(mode))
            self._file.close()

    def publish(self) -> None:
        """Gives a file its name. A link stays a link."""
        if self.is_file:
            with _named(self.path, self._part):
                os.replace(self._part, self.target, src_dir_fd=self._at, dst_dir_fd=self._at)

    def discard(self) -> None:
        """Takes away what has no name yet."""
        if self._file:
            with contextlib.suppress(OSError):
                self._file.close()
        with contextlib.suppress(OSError):
            os.unlink(self._part, dir_fd=self._at)


class Outputs:
    """Files of one command, which get their names together."""

    def __init__(self) -> None:
        self._all: list[Output] = []
        self._folders: dict[str, int] = {}

    def open(self, path: str, root: str = "") -> Output:
        """A file. Where its folder is one below `root`, no link leads to another one."""
        folder = os.path.dirname(path)
        is_below = bool(root) and not os.path.relpath(folder or ".", root).startswith(".")
        if is_below and folder not in self._folders:
            self._folders[folder] = opened(root, folder)
        self._all.append(Output(path, self._folders[folder] if is_below else None))
        self._all[-1].begin()
        return self._all[-1]

    def publish(self) -> None:
        for written in self._all:
            written.finish()
        folders = (os.path.dirname(os.path.realpath(written.path)) for written in self._all if written.is_file)
        with locked(folders), uncut():
            for written in self._all:
                written.publish()

    def discard(self) -> None:
        for written in self._all:
            written.discard()
        while self._folders:
            os.close(self._folders.popitem()[1])


@contextlib.contextmanager
def together() -> Iterator[Outputs]:
    """Files that have their names only when all of them are whole. A device or a pipe is written as it goes."""
    outputs = Outputs()
    try:
        yield outputs
        outputs.publish()
    finally:
        outputs.discard()


@contextlib.contextmanager
def growing(path: str) -> Iterator[Output]:
    """A file that is written piece by piece."""
    with together() as outputs:
        yield outputs.open(path)


def replace_all(contents: Mapping[str, bytes], root: str = "") -> None:
    """Writes the whole files, or leaves all of them as they are. Below `root` no link leads to another folder."""
    with together() as outputs:
        for path, text in contents.items():
            outputs.open(path, root).write(text)


def create(folder: str, texts: Mapping[str, str]) -> list[str]:
    """Writes new files into a folder, and returns their paths. It overwrites nothing."""
    paths = {path_in(folder, name): text for name, text in texts.items()}
    there = [each for each in paths if os.path.lexists(each)]
    if there:
        raise Missing(f"{there[0]}: it is there already, and no file is overwritten")
    os.makedirs(folder, exist_ok=True)
    written: list[str] = []
    try:
        for path, text in paths.items():
            with _named(path), uncut(), created(path) as file:
                written.append(path)
                file.write(text.encode())
    except BaseException:
        for path in written:
            os.unlink(path)
        raise
    return written
