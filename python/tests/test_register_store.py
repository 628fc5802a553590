"""A register of the layers of a store, and of the features that an earlier version kept beside it."""

import json
import sqlite3
import subprocess
from pathlib import Path
from typing import Any

import pytest

from overlayd.commands.store_sources import digest, whole

from . import testing
from .common import OVERLAY, SECONDS, SOURCES, SQUARE

pytestmark = [pytest.mark.live, pytest.mark.features]

WEST = [(0, 0), (10, 0), (10, 10), (0, 10), (0, 0)]
EAST = [(10, 0), (20, 0), (20, 10), (10, 10), (10, 0)]
ISLE = [(30, 0), (34, 0), (34, 4), (30, 0)]
LATE = [(40, 0), (44, 0), (44, 4), (40, 0)]
RUNS = [[(50, 0), (54, 0), (54, 4), (50, 0)], [(50, 0), (54, 4), (50, 4), (50, 0)]]


def feature(number: int, name: str, *runs: list[tuple[int, int]], **more: Any) -> dict[str, Any]:
    """A feature as the file has it."""
    return {"id": number, "number": number, "name": name, "kind": "Polygon",
            "layers": [f"b{bit}" for bit in range(3) if number >> bit & 1],
            "rings": [["+".join(map(digest, runs))]], "properties": {"name": name, **more}}


FEATURES = [feature(1, "West", WEST, part=0.114, list=[1, {"a": "é"}]), feature(2, "East", EAST),
            feature(4, "Cut", *RUNS)]
ADDED, MOVED, GONE = ({"of": None, "feature": feature(3, "Late", LATE)}, {"of": 2, "feature": feature(2, "East", LATE)},
                      {"of": 2, "feature": None})


def store_of(folder: Path, table: dict[str, Any], *rings: str) -> Path:
    """A store with coded layers, and a file of features beside it."""
    store = folder / "plan.db"
    with testing.Server(store, create=True, program=testing.PROGRAM) as server, server.session() as one:
        one.batch([*(f"PUT b{bit} MULTIPOLYGON ({own})" for bit, own in enumerate(rings)), "DEFINE land = b0"])
        one.sync()
    (folder / "plan.features.json").write_text(json.dumps({
        "collection": "plan", "coded": True, "union": False, "name_by": "name", "features": FEATURES,
        "layers": {f"b{bit}": [f"b{bit}"] for bit in range(3)}, **table}))
    return store


def polygon(ring: list[tuple[int, int]]) -> str:
    return f"(({', '.join(f'{x} {y}' for x, y in ring)}))"


def init(folder: Path, *words: object) -> subprocess.CompletedProcess[str]:
    """`overlay register init` of land.gpkg."""
    given = [*OVERLAY, "register", "init", folder / "land.gpkg", *words]
    return subprocess.run(given, env=SOURCES, capture_output=True, text=True, timeout=SECONDS)


@pytest.mark.parametrize("pending, of_b1, wanted", [
    (None, [EAST], ["West", "East", "Cut"]), (ADDED, [EAST], ["West", "East", "Cut"]),
    (ADDED, [EAST, LATE], ["West", "East", "Cut", "Late"]), (MOVED, [LATE], ["West", "Cut", "East"]),
    (MOVED, [EAST], ["West", "East", "Cut"]), (GONE, [ISLE], ["West", "Cut"]), (GONE, [EAST], ["West", "East", "Cut"])])
def test_a_register_has_the_layers_of_a_store_and_its_features(
        pending: Any, of_b1: list[list[tuple[int, int]]], wanted: list[str], tmp_path: Path) -> None:
    store = store_of(tmp_path, {"pending": pending} if pending else {}, polygon(WEST),
                     ", ".join(map(polygon, of_b1)), ", ".join(map(polygon, RUNS)))
    done = init(tmp_path, "--from-store", store, "--live", testing.PROGRAM)
    assert done.returncode == 0, done.stderr
    rows = sqlite3.connect(tmp_path / "land.gpkg")
    assert [name for name, in rows.execute("SELECT name FROM overlay_layer ORDER BY name")] == ["land", "plan"]
    assert sorted(name for name, in rows.execute("SELECT name FROM plan")) == sorted(wanted)
    of_west, = rows.execute("SELECT part, list FROM plan WHERE fid = 1")
    assert (of_west[0], json.loads(of_west[1])) == (0.114, [1, {"a": "é"}])


def test_runs_of_a_ring_are_the_ring() -> None:
    ring = [(x, x * x) for x in range(12)]
    for cut in (3, 5, 8):
        runs = [[*ring[:cut], ring[0]], [ring[0], *ring[cut - 1:], ring[0]]]
        assert whole(runs) == [*ring, ring[0]]


@pytest.mark.parametrize("table", [{"features": [feature(1, "Far", LATE)]}, {"layers": 3}, {"features": [{}]}])
def test_a_file_of_another_store_is_refused(table: dict[str, Any], tmp_path: Path) -> None:
    done = init(tmp_path, "--from-store", store_of(tmp_path, table, polygon(WEST)), "--live", testing.PROGRAM)
    assert (done.returncode, "no features of this store" in done.stderr) == (1, True), done.stderr


def test_a_store_alone_is_brought_over(tmp_path: Path) -> None:
    with testing.Server(tmp_path / "plan.db", create=True, program=testing.PROGRAM) as server:
        server.sessions[0].batch([f"PUT A {SQUARE}"])
        server.sessions[0].sync()
    done = init(tmp_path, "--from-store", tmp_path / "plan.db", "--live", testing.PROGRAM)
    assert (done.returncode, "A: 1 features" in done.stderr) == (0, True), done.stderr


def test_a_store_that_is_none_is_told(tmp_path: Path) -> None:
    (tmp_path / "map.db").write_text("no store")
    done = init(tmp_path, "--from-store", tmp_path / "map.db", "--live", testing.PROGRAM)
    assert done.returncode == 1 and "map.db" in done.stderr
    done = init(tmp_path)
    assert done.returncode == 2 and "--from-store" in done.stderr
