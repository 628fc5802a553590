"""Registers by the algorithms: made of layers, kept, edited by QGIS, refreshed."""

from __future__ import annotations

import contextlib
import pathlib
import shutil
import sqlite3
import subprocess
import sys
from typing import Any

import pytest

from made import SQUARE, cancelled_after, layer, run, wave


@pytest.fixture
def register(qgis: Any, maps: pathlib.Path, tmp_path: pathlib.Path) -> str:
    """A register of parcels and zones."""
    from qgis.core import QgsVectorLayer

    layers = [QgsVectorLayer(str(maps / f"{name}.geojson"), name, "ogr") for name in ("parcels", "zones")]
    words = {"LAYERS": layers, "GRID": "0.001", "ID": "parcels=nr, zones=kind", "FILE": str(tmp_path / "land.gpkg")}
    found = run("registerinit", **words)
    assert found["STATUS"].splitlines() == [
        "grid 0.001, version 0", "layer parcels: 8 changes pending", "layer zones: 3 changes pending"]
    return str(found["FILE"])


def rows(file: str, text: str) -> list[Any]:
    with sqlite3.connect(file) as own:
        return own.execute(text).fetchall()


def test_tables_are_kept_and_follow_an_edit_of_qgis(register: str) -> None:
    from qgis.core import QgsVectorLayer

    assert run("registerkeep", FILE=register, KIND=0, TABLE="pz", LAYER="parcels", OTHER="zones")["ROWS"] == 12
    assert run("registerkeep", FILE=register, KIND=1, TABLE="shared", LAYER="parcels")["ROWS"] == 3
    assert run("registerkeep", FILE=register, KIND=2, TABLE="beyond", EXPRESSION="zones - parcels")["ROWS"] > 0
    ((area,),) = rows(register, "SELECT sum(area) FROM overlay_result_beyond")
    assert area == pytest.approx(2739.370718694, abs=1e-6)
    own = QgsVectorLayer(f"{register}|layername=parcels", "parcels", "ogr")
    (feature,) = own.getFeatures("nr = '203'")
    assert own.startEditing() and own.deleteFeature(feature.id()) and own.commitChanges()
    told = run("registerstatus", FILE=register)["STATUS"].splitlines()
    assert "layer parcels: 1 changes pending" in told
    assert run("registerrefresh", FILE=register)["CHANGES"] == 1
    assert rows(register, "SELECT count(*) FROM overlay_result_shared") == [(2,)]
    assert rows(register, "SELECT count(*) FROM overlay_result_pz WHERE a_id = '203'") == [(0,)]


def may_write(file: str) -> bool:
    """Whether another process may write a file now."""
    text = "import sqlite3, sys; sqlite3.connect(sys.argv[1], timeout=0).execute('BEGIN IMMEDIATE')"
    return not subprocess.run([sys.executable, "-c", text, file], stderr=subprocess.DEVNULL, check=False).returncode


def test_another_process_works_on_a_register(register: str, monkeypatch: pytest.MonkeyPatch) -> None:
    """OGR, where it opens a file, takes away the locks that sqlite3 has of it in the same process: two may write."""
    from qgis.core import QgsVectorLayer

    other = shutil.copy(register, register + ".gpkg")
    with contextlib.closing(sqlite3.connect(other, isolation_level=None)) as own:
        own.execute("PRAGMA journal_mode = DELETE")
        own.execute("BEGIN IMMEDIATE")
        assert not may_write(other)
        assert QgsVectorLayer(f"{other}|layername=parcels", "parcels", "ogr").isValid()
        assert may_write(other)
        own.execute("ROLLBACK")
    monkeypatch.delattr(sqlite3, "connect")
    assert run("registerkeep", FILE=register, KIND=0, TABLE="pz", LAYER="parcels", OTHER="zones")["ROWS"] == 12
    assert run("registerrefresh", FILE=register)["CHANGES"] == 0
    assert run("registerstatus", FILE=register)["STATUS"].endswith("overlay_result_pz: pairs parcels zones, 12 rows")


def test_layers_of_a_geopackage_are_taken_in_where_they_are(qgis: Any, tmp_path: pathlib.Path) -> None:
    import processing

    file = str(tmp_path / "own.gpkg")
    processing.run("native:package", {"LAYERS": [layer([SQUARE, SQUARE])], "OUTPUT": file})
    found = run("registeradopt", FILE=file, LAYERS="made", ID="nr")
    assert found["STATUS"].splitlines() == ["grid 1, version 0", "layer made: 2 changes pending"]
    assert run("registerkeep", FILE=file, KIND=1, TABLE="twice", LAYER="made")["ROWS"] == 1
    assert rows(file, "SELECT relation, area FROM overlay_result_twice") == [("equals", 100)]


def test_what_a_register_refuses_is_said(register: str, tmp_path: pathlib.Path) -> None:
    from qgis.core import QgsProcessingException

    for name, words, told in (
        ("registerkeep", {"FILE": register, "KIND": 1, "TABLE": "x", "LAYER": "lots"}, "lots: no layer"),
        ("registerkeep", {"FILE": register, "KIND": 2, "TABLE": "x", "EXPRESSION": "zones -"}, "zones -: no expr"),
        ("registeradopt", {"FILE": register, "LAYERS": "parcels"}, "parcels is a layer of the register already"),
        ("registerinit", {"LAYERS": [layer([SQUARE])], "FILE": register}, "is there already"),
        ("registerstatus", {"FILE": str(tmp_path / "none.gpkg")}, "none.gpkg"),
    ):
        with pytest.raises(QgsProcessingException, match=told):
            run(name, **words)


def test_a_run_ends_soon_after_it_is_cancelled(qgis: Any, tmp_path: pathlib.Path) -> None:
    import processing

    file = str(tmp_path / "own.gpkg")
    waves = [[wave(2000, place + shift) for place in range(25)] for shift in (0, 3)]
    layers = [layer(shapes, name=name) for shapes, name in zip(waves, "ab")]
    processing.run("native:package", {"LAYERS": layers, "OUTPUT": file})
    run("registeradopt", FILE=file, LAYERS="a, b")
    words = {"FILE": file, "KIND": 0, "TABLE": "ab", "LAYER": "a", "OTHER": "b"}
    assert cancelled_after(1, "registerkeep", words) < 2
    assert rows(file, "SELECT count(*) FROM overlay_kept") == [(0,)]
