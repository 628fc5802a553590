"""What the tests of the tools have in common: files, a tool's outcome, and the programs that are asked."""

import contextlib
import importlib.util
import io
import os
import pathlib
import subprocess
import sys
import tempfile
import time
import unittest
from collections.abc import Callable
from types import ModuleType
from typing import Any

from overlayd import cli
from overlayd.program import Layer, Reply, lines_after
from overlayd.store.layers import Columns, Layers

TOP = pathlib.Path(__file__).resolve().parents[2]
TOOLS, TESTS = TOP / "tools", TOP / "python" / "tests"
OVERLAY = [sys.executable, str(TOP / "overlay")]
# What another Python that runs at the top finds the package by, and the tests.
SOURCES = {**os.environ, "PYTHONPATH": f"{TOP / 'python' / 'src'}:{TOP / 'python'}"}
SECONDS = 120  # what a program of a test may take before it is ended
SQUARE = "POLYGON ((0 0, 10 0, 10 10, 0 10, 0 0))"

# The folder qgis/ at the top is found by this name too, but has no module of it.
QGIS = importlib.util.find_spec("qgis")
HAS_QGIS = QGIS is not None and QGIS.origin is not None


class Programs:
    """The built programs, or None: those of the words --program, --live and --features, else of crates/."""

    batched: str | None = None
    live: str | None = None
    features: str | None = None


def path(*parts: str) -> str:
    return str(TOOLS.joinpath(*parts))


def content(*parts: str) -> bytes:
    return TESTS.joinpath(*parts).read_bytes()


def outcome(tool: ModuleType, *words: object) -> tuple[int, str, str]:
    """Status, standard output and standard error of a tool."""
    with contextlib.redirect_stdout(io.StringIO()) as output, contextlib.redirect_stderr(io.StringIO()) as errors:
        given = [str(word) for word in words]
        status = tool.main(given) if hasattr(tool, "main") else cli.run(tool.command, given)
    return status, output.getvalue(), errors.getvalue()


def on_file(tool: ModuleType, text: str | bytes, *words: object) -> tuple[int, str, str]:
    """The same, with a file of this text as the first word."""
    with tempfile.TemporaryDirectory() as folder:
        name = pathlib.Path(folder, "input file.txt")
        name.write_bytes(text if isinstance(text, bytes) else text.encode())
        status, output, errors = outcome(tool, name, *words)
        return status, output, errors.replace(str(name), "FILE")


def ran(*words: object, **how: Any) -> subprocess.CompletedProcess[str]:
    """A run to its end, and what it wrote, as texts."""
    usual = {"capture_output": True, "text": True, "check": False, "timeout": SECONDS}
    return subprocess.run([*map(str, words)], **(usual | how))


def in_python(code: str, *words: object, **how: Any) -> subprocess.CompletedProcess[str]:
    """A run of lines of Python, which finds the package and these tests."""
    return ran(sys.executable, "-c", code, *words, **({"cwd": TOP, "env": SOURCES} | how))


def children(process: int) -> list[int]:
    """The processes that a process has begun and that have not ended."""
    threads = pathlib.Path(f"/proc/{process}/task").glob("*/children")
    return [int(word) for thread in threads for word in thread.read_text().split()]


def is_running(process: int) -> bool:
    """Whether a process goes on. One that has ended stays listed until whoever has taken it over looks at it."""
    try:
        return pathlib.Path(f"/proc/{process}/stat").read_text().rpartition(")")[2].split()[0] not in "ZX"
    except (FileNotFoundError, ProcessLookupError):
        return False


def wait_until(holds: Callable[[], object], seconds: float = 240) -> None:
    """Waits until something holds; an AssertionError where it does not in time."""
    end = time.monotonic() + seconds
    while not holds():
        if time.monotonic() > end:
            raise AssertionError(f"it has not come to be in {seconds} seconds")
        time.sleep(0.01)


def fixture(name: str) -> tuple[Layers, dict[str, Columns]]:
    """The layers of a script of fixtures/, and the columns that its replies have of them."""
    lines = [line for line in content("fixtures", f"{name}.txt").decode().splitlines() if line and line[0] != "#"]
    replies = iter(content("fixtures", f"{name}.replies").decode().splitlines())
    listed: list[Layer] = []
    columns: dict[str, Columns] = {}
    for line in lines:
        (word, layer, *rest), first = line.split(" ", 2), next(replies)
        reply = Reply(first, "".join(next(replies) + "\n" for _ in range(lines_after(first))).encode())
        if word == "EDGES":
            columns.setdefault(layer, []).append(reply.pieces())
        elif word != "WAIT":
            listed.append(Layer(layer, *((rest[0], None) if word == "PUT" else (None, rest[0].removeprefix("= ")))))
    return Layers.of(listed), columns


class InFolder(unittest.TestCase):
    """A test with a folder of its own."""

    def setUp(self) -> None:
        made = tempfile.TemporaryDirectory()
        self.addCleanup(made.cleanup)
        self.folder = pathlib.Path(made.name)

    def file(self, name: str, text: str | bytes, mode: int = 0o600) -> pathlib.Path:
        made = self.folder / name
        made.write_bytes(text if isinstance(text, bytes) else text.encode())
        os.chmod(made, mode)
        return made

    def model(self) -> pathlib.Path:
        """The plain model of the lab in the place of overlay_live, of which a script is the store."""
        path = f"{TOP}/python/lab:{TOP}/python/src"
        text = f"#!/bin/sh\nPYTHONPATH='{path}' exec python3 '{TESTS}/model_live.py' \"$@\"\n"
        return self.file("model", text, 0o700)


class WithProgram(InFolder):
    """A test of the built program, which is left out, and counted as such, where none was given."""

    def setUp(self) -> None:
        super().setUp()
        if Programs.live is None or Programs.features is None:
            self.skipTest("no built overlay_live or overlay_features: --live and --features name them")
        self.program: str = Programs.live

    def store(self, name: str, script: str | bytes) -> pathlib.Path:
        """A new store with the layers of a script, all of whose lines are accepted."""
        made = self.folder / name
        text = script if isinstance(script, bytes) else script.encode()
        done = subprocess.run([self.program, "--store", made, "--create"], input=text, capture_output=True, check=True,
                              timeout=SECONDS)
        assert [line for line in done.stdout.splitlines() if line.startswith((b"error", b"refused"))] == []
        return made
