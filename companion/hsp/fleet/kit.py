"""What a run's workers need: the programs, the files of the plan and hsp itself, under SHA-256 sums."""

import importlib.resources
import importlib.util
import io
import marshal
import zipfile
from collections.abc import Iterator
from typing import Any

from hsp.base.bounds import whole
from hsp.base.programs import Inputs, program
from hsp.fleet.answers import FILES

# The beginning of a compiled module that is taken without a look at its source.
UNCHECKED = (1).to_bytes(4, "little")


# The kinds of files that are certificates.
CERTIFICATES = ("plan", "prices")


def _modules(folder: Any, name: str) -> Iterator[tuple[str, bytes]]:
    for entry in folder.iterdir():
        if entry.is_dir() and not entry.name.startswith("__"):
            yield from _modules(entry, f"{name}/{entry.name}")
        elif entry.name.endswith(".py"):
            yield f"{name}/{entry.name}", entry.read_bytes()


def _compiled(name: str, source: bytes) -> bytes:
    """A module as Python keeps it, and as it is kept here already where it can be. Workers have the same Python, so a
    part doesn't compile it once more."""
    module = name.removesuffix(".py").removesuffix("/__init__").replace("/", ".")
    spec: Any = importlib.util.find_spec(module)
    head: list[Any] = [importlib.util.MAGIC_NUMBER, UNCHECKED, importlib.util.source_hash(source)]
    return b"".join([*head, marshal.dumps(spec.loader.get_code(module))])


def companion() -> bytes:
    """The modules of hsp as a zip archive that Python imports from."""
    room = io.BytesIO()
    with zipfile.ZipFile(room, "w") as packed:
        for name, source in sorted(_modules(importlib.resources.files("hsp"), "hsp")):
            packed.writestr(f"{name}c", _compiled(name, source))
    return room.getvalue()


def programs() -> dict[str, bytes]:
    return {name: whole(program(name)) for name in ("hsplan", "hsplan-stream")}


def files_of(inputs: Inputs, plan: str = "") -> dict[str, bytes]:
    """The files of a service by their kinds, those that there are. Answers by prices need no demand."""
    paths = {file: getattr(inputs, file) for file in FILES if file not in CERTIFICATES}
    if inputs.is_log:
        del paths["demand"]
    paths[inputs.plan_option.removeprefix("--")] = plan
    return {role: whole(path) for role, path in paths.items() if path}
