"""Files that can't be read, each with the reason."""

import difflib
import os
import stat

from hsp.base.bounds import LARGEST
from hsp.base.paths import shell_word
from hsp.doctor.findings import Finding, Place, Words, found
from hsp.plans.service import NAMES

TOO_LARGE = Words(
    f"the file has more than {LARGEST:,} octets",
    "give a smaller file: this is likely another one",
    "hsplan reads it whole",
)


def unreadable(path: str, role: str) -> Words | None:
    """Why a file can't be read, or None."""
    if path == "-":
        return Words("'-' is no file here", "give /dev/stdin for standard input", "'-' is a name like any other")
    if not path:
        message = f"the name of the file for --{role} is empty"
        return Words(message, f"give a file behind --{role}", "a variable of the shell that isn't set?")
    try:
        mode = os.stat(path).st_mode
    except FileNotFoundError:
        return _absent(path, role)
    except NotADirectoryError:
        return Words(
            "no such file", "mend the path: a part of it is a file, not a folder", "a part of the path is a file"
        )
    except OSError as fault:
        return Words("the file can't be looked at", "mend the path, or the rights of its folders", str(fault.strerror))
    return _of_mode(path, role, mode)


def _of_mode(path: str, role: str, mode: int) -> Words | None:
    """What is wrong with a file that is there: a folder, too large, or closed to this user."""
    if stat.S_ISDIR(mode):
        name = NAMES.get(role, "the file")
        return Words(
            "a folder, not a file", f"give the file in it, as {os.path.join(path, name)}", "hsplan reads files"
        )
    if stat.S_ISREG(mode) and role != "log" and os.stat(path).st_size > LARGEST:
        return TOO_LARGE
    if not os.access(path, os.R_OK):
        message = "you may not read this file"
        return Words(message, f"chmod +r {shell_word(path)}, or run as its owner", "its rights don't let you")
    return None


def _absent(path: str, role: str) -> Words:
    """A file that isn't there: a near name in its folder, or the nearest folder that is."""
    folder = os.path.dirname(path) or "."
    if os.path.islink(path):
        message = "a link to a file that isn't there"
        return Words(message, "mend the link, or put its file back", f"it leads to {os.readlink(path)}")
    if path.startswith("~"):
        remedy = f"write $HOME in place of ~, or a blank before it: --{role} ~/.."
        return Words("no such file", remedy, "the shell didn't replace ~")
    if not os.path.isdir(folder):
        return Words("no such file", f"mend the path: there is no folder {folder}", f"{folder} isn't there")
    names = sorted(name for name in os.listdir(folder) if not name.startswith("."))
    own = os.path.basename(path)
    near = difflib.get_close_matches(own, names, 1, 0.6)
    stem = os.path.splitext(own)[0]
    if near and not difflib.get_close_matches(stem, [os.path.splitext(near[0])[0]], 1, 0.6):
        near = [name for name in (NAMES.get(role, ""),) if name in names]
    if near:
        remedy = f"did you mean {os.path.join(os.path.dirname(path), near[0])}? Rename it, or give it by --{role}"
        return Words("no such file", remedy, f"{near[0]} is there")
    remedy = f"give another file by --{role}" + ("; hsp new makes a folder with all of them" if role in NAMES else "")
    return Words("no such file", remedy, f"{folder} has {', '.join(names[:6]) or 'no file'}")


def file_finding(path: str, role: str, said: str, read: int = 0) -> Finding | None:
    """What is wrong with a file by itself, of which so many octets were read."""
    words = TOO_LARGE if read > LARGEST and role != "log" else unreadable(path, role)
    return found(path or f"--{role}", Place(), words, said) if words else None
