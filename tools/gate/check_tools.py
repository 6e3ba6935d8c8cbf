#!/usr/bin/env python3
"""Checks the scripts below tools: their types (Debian's mypy, strict), and that none imports a command.

A command is a script that can be run. What several of them need stands in tools/lib, which imports nothing but that.

    tools/gate/check_tools.py
"""

import ast
import os
import subprocess
import sys
import tempfile
from pathlib import Path

sys.path.insert(0, str(Path(__file__).resolve().parents[1]))

from lib import programs

TOOLS = Path(programs.TOP, "tools")
MYPY = ["/usr/bin/python3", "-m", "mypy", "--strict"]
# The folders whose modules import one another by their own names are checked apart.
APART = "fuzz"


def imported(path: Path) -> set[str]:
    found = set()
    for node in ast.walk(ast.parse(path.read_text("utf-8"))):
        if isinstance(node, ast.Import):
            found |= {name.name for name in node.names}
        elif isinstance(node, ast.ImportFrom) and node.module:
            found |= {node.module, *(f"{node.module}.{name.name}" for name in node.names)}
    return found


def wrong_imports() -> list[str]:
    """The scripts that import a command, by its own name or by that of its folder."""
    scripts = sorted(TOOLS.rglob("*.py"))
    commands = {path.stem: path for path in scripts if os.access(path, os.X_OK)}
    faults = []
    for path in scripts:
        others = {name.split(".")[-1] for name in imported(path) if not name.startswith("lib")} & set(commands)
        beside = [name for name in others if commands[name] != path and _is_meant(path, name)]
        faults += [f"{path.relative_to(programs.TOP)} imports the command {name}" for name in sorted(beside)]
    return faults


def _is_meant(path: Path, name: str) -> bool:
    """Whether a script finds a command by this name: in its own folder, or by a name with the folder."""
    return (path.parent / f"{name}.py").exists() or any(it.endswith(f".{name}") for it in imported(path))


def wrong_types() -> list[str]:
    folders = sorted(it for it in TOOLS.iterdir() if it.is_dir() and it.name != APART and list(it.glob("*.py")))
    with tempfile.TemporaryDirectory() as room:
        means = {**os.environ, "MYPY_CACHE_DIR": room, "MYPYPATH": f"{TOOLS}:{programs.TOP}/companion"}
        runs = [
            (["--explicit-package-bases", *map(str, [*folders, *sorted(TOOLS.glob("*.py"))])], programs.TOP),
            (sorted(it.name for it in (TOOLS / APART).glob("*.py")), str(TOOLS / APART)),
        ]
        done = [
            subprocess.run([*MYPY, *words], cwd=folder, env=means, stdout=subprocess.PIPE, text=True)
            for words, folder in runs
        ]
    return [
        line
        for one in done
        if one.returncode
        for line in one.stdout.splitlines() or [f"mypy ended with status {one.returncode}, and printed nothing"]
    ]


def main() -> int:
    faults = wrong_imports() + wrong_types()
    return programs.concluded(faults, f"tools: {len(list(TOOLS.rglob('*.py')))} scripts,")


if __name__ == "__main__":
    sys.exit(main())
