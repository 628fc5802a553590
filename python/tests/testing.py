"""A module for the tests of web/: the program that they run, shapes, and a front that is called as a function."""

import contextlib
import io
import json
import math
import os
import pathlib
import signal
import tempfile
import unittest
import urllib.parse
from collections.abc import Iterator, Mapping
from typing import Any, NamedTuple

from overlayd.grid import scale as scales
from overlayd.program import Server
from overlayd.program_files import FEATURES, found_program
from overlayd.web.front import Front, of_store
from overlayd.web.layer_store import LayerStore
from overlayd.web.map_scale import MapScale
from overlayd.web.systems import Projection, Systems

from .common import wait_until

PROGRAM = "overlay_live"  # the one of --live
HOST = "127.0.0.1:8080"
SQUARE = "POLYGON ((0 0, 10 0, 10 10, 0 10, 0 0))"
SHIFTED = "POLYGON ((5 5, 15 5, 15 15, 5 15, 5 5))"
# Two triangles and the corners of what both have, 5/3 and 4/3 among them: the crossings of x = 1 and x = 2 with the
# lines y = x / 3 and y = 2 - x / 3.
TRIANGLE = "POLYGON ((0 0, 3 1, 0 2, 0 0))"
BAR = "POLYGON ((1 -1, 2 -1, 2 3, 1 3, 1 -1))"


def ring_text(points: list[tuple[int, int]]) -> str:
    return "POLYGON ((" + ", ".join(f"{x} {y}" for x, y in points + points[:1]) + "))"


def star(corners: int, x: int = 0, y: int = 0, reach: int = 600_000) -> str:
    """A ring that goes out and in at each corner: three of them cross so often that a layer takes a while to build."""
    turns = [2 * math.pi * i / corners for i in range(corners)]
    lengths = [reach * (1 - 0.75 * (i % 2)) for i in range(corners)]
    return ring_text([(x + round(r * math.cos(t)), y + round(r * math.sin(t))) for r, t in zip(lengths, turns)])


def program_that_ignores_a_full_file(folder: pathlib.Path) -> pathlib.Path:
    """The program, begun so that a write beyond a limit of file size fails and does not end it."""
    made = folder / "overlay_live.sh"
    made.write_text(f"#!/bin/sh\ntrap '' XFSZ\nexec '{PROGRAM}' \"$@\"\n")
    made.chmod(0o755)
    return made


def square_store(folder: pathlib.Path) -> pathlib.Path:
    """A new store with a square and a layer that is the same."""
    store = folder / "map.db"
    with Server(store, create=True, program=PROGRAM) as server:
        server.sessions[0].batch([f"PUT A {SQUARE}", "DEFINE I = A"])
    return store


def stop(pid: int) -> None:
    """Stops a process, as if it came to no end."""
    os.kill(pid, signal.SIGSTOP)
    stat = pathlib.Path(f"/proc/{pid}/stat")
    wait_until(lambda: stat.read_text().rpartition(")")[2].split()[0] == "T")


def map_scale(**given: object) -> MapScale:
    return MapScale(scales.of_value(given))


@contextlib.contextmanager
def folder() -> Iterator[pathlib.Path]:
    with tempfile.TemporaryDirectory() as place:
        yield pathlib.Path(place)


class Told(NamedTuple):
    """An answer of a front: the status, the headers, and the value of its JSON, or its bytes."""

    status: int
    headers: dict[str, str]
    value: Any


class Client:
    """Asks a front as a function, as a browser or a program would over the loopback."""

    def __init__(self, front: Front) -> None:
        self.front = front

    def ask(self, path: str, method: str = "GET", body: object = None,
            headers: Mapping[str, str] | None = None) -> Told:
        """body: bytes, or what is sent as JSON. headers: as WSGI has them; one that is '' is left out."""
        parts = urllib.parse.urlsplit(path)
        data = body if isinstance(body, bytes) else b"" if body is None else json.dumps(body).encode()
        environ = {"REQUEST_METHOD": method, "PATH_INFO": urllib.parse.unquote(parts.path), "QUERY_STRING": parts.query,
                   "HTTP_HOST": HOST, "wsgi.url_scheme": "http", "wsgi.input": io.BytesIO(data)}
        if body is not None:
            environ |= {"CONTENT_TYPE": "application/json", "CONTENT_LENGTH": str(len(data))}
        environ = {key: value for key, value in {**environ, **(headers or {})}.items() if value != ""}
        told: list[tuple[str, dict[str, str]]] = []
        made = b"".join(self.front(environ, lambda status, lines: told.append((status, dict(lines)))))
        status, lines = told[0]
        return Told(int(status.split()[0]), lines,
                    json.loads(made) if "json" in lines.get("Content-Type", "") and made else made)

    def get(self, path: str) -> Any:
        """The value of an answer of status 200."""
        found = self.ask(path)
        if found.status != 200:
            raise AssertionError(f"{path}: {found.status} {found.value}")
        return found.value

    def change(self, path: str, method: str, body: object = None) -> Any:
        found = self.ask(path, method, body)
        if found.status != 200:
            raise AssertionError(f"{method} {path}: {found.status} {found.value}")
        return found.value


class FrontCase(unittest.TestCase):
    """A test of a front in memory, which its lines begin. Each class has one process of the program
    for all of its tests."""

    lines: tuple[str, ...] = ()
    scale: Mapping[str, object] = {}
    writable = True
    projection: Projection | None = None
    server: Server
    store: LayerStore
    front: Front
    client: Client

    @classmethod
    def setUpClass(cls) -> None:
        cls.server = cls.enterClassContext(Server(sessions=4, program=PROGRAM, timeout=60))
        version = 0
        if cls.lines:
            with cls.server.session() as one:
                version = one.batch(cls.lines)
        cls.store = LayerStore(cls.server, found_program(FEATURES), map_scale(**cls.scale), version=version, kept=False,
                               writable=cls.writable)
        cls.addClassCleanup(cls.store.close)
        cls.front = of_store(cls.store, systems=Systems(cls.store.scale, cls.projection))
        cls.client = Client(cls.front)

    @classmethod
    def wait_for(cls, *names: str) -> None:
        """Waits until derived layers are built, before what does not wait for them: their extents and their tiles."""
        with cls.server.session(slow=True) as one:
            for name in names:
                one.wait(name)
