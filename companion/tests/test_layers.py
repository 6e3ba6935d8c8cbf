"""The packages of hsp stand on each other in one order, and no module on itself by a way round."""

import ast
from graphlib import TopologicalSorter
from pathlib import Path

PACKAGE = Path(__file__).resolve().parents[1] / "hsp"
# Each package imports itself and those before it.
LAYERS = ["base", "plans", "intake", "measures", "doctor", "scenarios", "proxy", "fleet", "commands", "cli", "__main__"]


def modules() -> dict[str, Path]:
    paths = {".".join(path.relative_to(PACKAGE.parent).with_suffix("").parts): path for path in PACKAGE.rglob("*.py")}
    return {name.removesuffix(".__init__"): path for name, path in paths.items()}


def imported(path: Path, known: set[str]) -> set[str]:
    """The modules of hsp that a module imports, at its head or in a function."""
    names: set[str] = set()
    for node in ast.walk(ast.parse(path.read_text())):
        if isinstance(node, ast.Import):
            names.update(alias.name for alias in node.names)
        elif isinstance(node, ast.ImportFrom):
            assert not node.level, f"{path}:{node.lineno}: modules are named whole"
            module = node.module or ""
            names.update(
                f"{module}.{alias.name}" if f"{module}.{alias.name}" in known else module for alias in node.names
            )
    return names & known


def layer(module: str) -> int:
    """The place of a module's package among the layers. What every package may read stands below all of them."""
    return -1 if module == "hsp" else LAYERS.index(module.split(".")[1])


def test_a_package_imports_no_higher_one() -> None:
    known = modules()
    upward = [
        f"{module} imports {other}"
        for module, path in known.items()
        for other in imported(path, set(known))
        if layer(other) > layer(module)
    ]
    assert not upward


def test_no_module_imports_itself_by_others() -> None:
    known = modules()
    graph = {module: imported(path, set(known)) - {module} for module, path in known.items()}
    assert len(list(TopologicalSorter(graph).static_order())) == len(known)


def test_each_package_is_installed() -> None:
    said = (PACKAGE.parent / "pyproject.toml").read_text()
    folders = [path.parent.relative_to(PACKAGE.parent).parts for path in PACKAGE.rglob("__init__.py")]
    for folder in folders:
        assert f'"{".".join(folder)}"' in said
