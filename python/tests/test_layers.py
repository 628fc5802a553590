"""Each module of the package imports only those above it: what it knows stands in one order."""

import ast
import pathlib
import unittest

from .common import TOP

SOURCES = TOP / "python/src/overlayd"
ORDER = ("ending", "progress", "program", "program_files", "grid", "words", "geometry", "grid_pass", "kernel", "api",
         "files", "store", "maps", "register", "web", "commands", "cli", "__main__")


def imports(path: pathlib.Path) -> set[str]:
    """The parts of the package that a module imports, at its head or within a function."""
    package = ["overlayd", *path.relative_to(SOURCES).parent.parts]
    found = set()
    for node in ast.walk(ast.parse(path.read_text())):
        if isinstance(node, ast.ImportFrom):
            base = [*package[:len(package) - node.level + 1], *(node.module or "").split(".")] if node.level else \
                (node.module or "").split(".")
            names = [[*filter(None, base), alias.name] for alias in node.names]
        elif isinstance(node, ast.Import):
            names = [alias.name.split(".") for alias in node.names]
        else:
            continue
        found |= {name[1] for name in names if name[0] == "overlayd" and len(name) > 1}
    return found


class Layers(unittest.TestCase):
    def test_each_module_imports_only_those_above_it(self) -> None:
        paths = [path for path in (*SOURCES.glob("*.py"), *SOURCES.glob("*/*.py")) if path.parent != SOURCES
                 or path.stem != "__init__"]
        assert len(paths) > 80
        for path in paths:
            own = path.relative_to(SOURCES).parts[0].removesuffix(".py")
            for one in imports(path) & set(ORDER):
                assert ORDER.index(one) <= ORDER.index(own), f"{path}: {one}"

    def test_the_client_imports_the_standard_library_alone(self) -> None:
        assert imports(SOURCES / "program.py") == set()
