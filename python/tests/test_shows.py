"""Tests of a first map in one word: a register is made of files, and a front prints its address."""

import json
import signal
import sqlite3
import subprocess
import urllib.request
from pathlib import Path
from typing import Any

import pytest

from overlayd.commands import show

from .common import OVERLAY, Programs, outcome

pytestmark = pytest.mark.features

WEST = [[0, 0], [10, 0], [10, 10], [0, 10], [0, 0]]
EAST = [[8, 0], [20, 0], [20, 10], [8, 10], [8, 0]]
OVER = [[5, 5], [25, 5], [25, 6], [5, 6], [5, 5]]


def file_of(path: Path, **rings: list[list[int]]) -> Path:
    """A file of features with names and outlines."""
    features = [{"type": "Feature", "properties": {"name": name},
                 "geometry": {"type": "Polygon", "coordinates": [ring]}} for name, ring in rings.items()]
    path.write_text(json.dumps({"type": "FeatureCollection", "features": features}))
    return path


def made(folder: Path, *words: object) -> tuple[int, str]:
    """The status of `overlay show` that makes a register, and what it reports."""
    status, _, told = outcome(show, *words, "--program", Programs.features, "--only-make", "--output",
                              folder / "land.gpkg")
    return status, told


def rows(folder: Path, query: str) -> list[Any]:
    return sqlite3.connect(folder / "land.gpkg").execute(query).fetchall()


def test_a_register_is_made_with_overlaps_and_then_shown_as_it_is(tmp_path: Path) -> None:
    city = file_of(tmp_path / "my city.geojson", West=WEST, East=EAST)
    status, told = made(tmp_path, city, "--name-by", "name")
    assert (status, "overlay_result_overlaps_1: check my city, 1 rows\n" in told) == (0, True), told
    assert rows(tmp_path, "SELECT a_id, b_id, area FROM overlay_result_overlaps_1") == [("West", "East", 20.0)]
    file_of(city, West=WEST)
    assert made(tmp_path, city) == (0, f"{tmp_path}/land.gpkg: made before, and shown as it is\n")


def test_maps_beside_each_other_have_pairs_and_what_they_have_in_common(tmp_path: Path) -> None:
    city, zone = file_of(tmp_path / "city.geojson", West=WEST, East=EAST), file_of(tmp_path / "zone.geojson", Over=OVER)
    assert made(tmp_path, city, "--with", zone)[0] == 0
    assert rows(tmp_path, "SELECT a, b, area FROM overlay_result_pairs_2 ORDER BY a") == [(1, 1, 5.0), (2, 1, 12.0)]
    assert rows(tmp_path, "SELECT sum(area) FROM overlay_result_both") == [(15.0,)]


def test_gaps_are_violations(tmp_path: Path) -> None:
    frame = [[[0, 0], [30, 0], [30, 30], [0, 30], [0, 0]], [[10, 10], [11, 10], [11, 12], [10, 12], [10, 10]]]
    file = tmp_path / "city.geojson"
    file.write_text(json.dumps({"type": "Polygon", "coordinates": frame}))
    status, told = made(tmp_path, file)
    assert (status, "must not have gaps" in told) == (0, True), told
    assert rows(tmp_path, "SELECT area FROM overlay_violation") == [(2.0,)]


def test_well_known_text_and_a_system_that_is_said(tmp_path: Path) -> None:
    text = tmp_path / "plan.wkt"
    text.write_text("POLYGON ((0 0, 10 0, 10 10, 0 10, 0 0)) POLYGON ((8 0, 20 0, 20 10, 8 10, 8 0))")
    assert made(tmp_path, text, "--crs", "EPSG:25832")[0] == 0
    assert rows(tmp_path, "SELECT area FROM overlay_result_overlaps_1") == [(20.0,)]
    assert rows(tmp_path, "SELECT organization_coordsys_id FROM gpkg_spatial_ref_sys JOIN gpkg_geometry_columns USING "
                          "(srs_id) WHERE table_name = 'plan'") == [(25832,)]


@pytest.mark.parametrize("words, told", [
    (["none.geojson"], "none.geojson: not read: No such file or directory"), (["{"], "not read"),
    (["no map"], "not read"), (["{}", "--source-layer", "streets"], "have no layers"),
    (["{}", "--port", "x"], "--port")])
def test_what_is_refused_leaves_nothing(words: list[str], told: str, tmp_path: Path) -> None:
    given = tmp_path / "none.geojson"
    if words[0] != given.name:
        given.write_text(words[0])
    status, errors = made(tmp_path, given, *words[1:])
    assert (status, told in errors, (tmp_path / "land.gpkg").exists()) == (2, True, False), errors


def test_a_feature_that_is_refused_is_counted(tmp_path: Path) -> None:
    city = file_of(tmp_path / "city.geojson", West=WEST, Open=[[0, 0], [9, 0], [9, 9], [1, 1]])
    status, told = made(tmp_path, city)
    assert (status, "problem: 1 features: " in told) == (0, True), told


def test_only_make_needs_a_place() -> None:
    status, _, told = outcome(show, "city.geojson", "--only-make")
    assert (status, "--only-make needs --output" in told) == (2, True)


@pytest.mark.parametrize("ending", [signal.SIGTERM, signal.SIGINT])
def test_the_word_starts_a_front_that_ends_by_a_signal(ending: signal.Signals, tmp_path: Path) -> None:
    words = [*OVERLAY, "show", file_of(tmp_path / "city.geojson", West=WEST), "--program", Programs.features, "--port",
             "0", "--no-browser"]
    with subprocess.Popen([*map(str, words)], stdout=subprocess.PIPE, stderr=subprocess.DEVNULL, text=True) as run:
        assert run.stdout is not None
        address = run.stdout.readline().strip()
        with urllib.request.urlopen(f"{address}collections/city/locate?x=1&y=1", timeout=30) as answer:
            found = json.load(answer)["features"]
        assert [one["properties"]["name"] for one in found] == ["West"]
        run.send_signal(ending)
        assert run.wait(60) == 0
    assert [one.name for one in tmp_path.iterdir()] == ["city.geojson"]
