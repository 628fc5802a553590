"""The command `overlay register` as it is run: its words, watch, and kills of a refresh at any moment."""

import os
import random
import signal
import subprocess
import sys
import time
from pathlib import Path

import pytest
from osgeo import gdal

from overlayd.register.auditing import audit
from overlayd.register.package import GeoPackage
from overlayd.register.registers import Register
from overlayd.register.watching import Watching

from . import register_works as works
from .common import HAS_QGIS, OVERLAY, SECONDS, SOURCES, TOP, Programs
from .register_works import ALL, Land, land

pytestmark = pytest.mark.features
MAPS = TOP / "examples" / "maps"
# A refresh as a program: it says when it is about to write.
REFRESH = """
import sys
from fractions import Fraction
from overlayd.kernel import Ask
from overlayd.register.answers import Program
from overlayd.register.package import GeoPackage
from overlayd.register.refreshing import refresh
from overlayd.register.registers import Register
register = Register(GeoPackage(sys.argv[1]))
refresh(register, Program(Ask(sys.argv[2]), Fraction(1000)), before_write=lambda: print("writes", flush=True))
print("done", flush=True)
"""
# Edits by QGIS without a screen: a corner moved, a feature added, one deleted, a value changed.
QGIS = """
import sys
from qgis.core import QgsApplication, QgsFeature, QgsGeometry, QgsVectorLayer
app = QgsApplication([], False)
app.initQgis()
layer = QgsVectorLayer(sys.argv[1], "parcels", "ogr" if "|" in sys.argv[1] else "postgres")
assert layer.isValid()
ids = sorted(feature.id() for feature in layer.getFeatures())
assert layer.startEditing()
shape = layer.getFeature(ids[0]).geometry()
point = shape.vertexAt(1)
assert shape.moveVertex(point.x() + 1.25, point.y() - 0.5, 1)
assert layer.changeGeometry(ids[0], shape)
more = QgsFeature(layer.fields())
moved = layer.getFeature(ids[1]).geometry()
moved.translate(2, 1)
more.setGeometry(moved)
assert layer.addFeature(more) and layer.deleteFeature(ids[2])
assert layer.changeAttributeValue(ids[3], layer.fields().indexOf("nr"), "by QGIS")
assert layer.commitChanges(), layer.commitErrors()
"""


def ran(*words: object, status: int = 0) -> str:
    """What a subcommand prints; of one that is refused, what it says."""
    done = subprocess.run([*OVERLAY, "register", *map(str, words)], capture_output=True, text=True, timeout=SECONDS,
                          check=False)
    assert done.returncode == status, done.stderr
    return done.stderr if status else done.stdout


def asked(*words: object, status: int = 0) -> str:
    """The same of one that asks the program."""
    return ran(*words, "--program", str(Programs.features), status=status)


def test_the_words_of_a_register(tmp_path: Path) -> None:
    file = tmp_path / "land.gpkg"
    ran("init", file, MAPS / "parcels.geojson", "--id", "nr")
    ran("add", file, MAPS / "zones.geojson", "--id", "zones=kind")
    assert "already" in ran("init", file, MAPS / "parcels.geojson", status=2)
    assert "has a layer zones already" in ran("add", file, MAPS / "zones.geojson", status=2)
    assert "grid of 0.001 already" in ran("adopt", file, "zones", "--grid", "0.01", status=2)
    assert asked("refresh", file) == "11 changes, version 1\n"
    assert asked("keep", "pairs", file, "pz", "parcels", "zones") == "overlay_result_pz: 12 rows\n"
    asked("keep", "check", file, "shared", "parcels")
    asked("keep", "derive", file, "gaps", "zones - parcels", "--cell", "32768")
    told = ran("status", file)
    assert "layer parcels: 0 changes pending\n" in told
    assert "overlay_result_gaps: derive zones - parcels, " in told
    works.by_ogr(file, random.Random(1), 1)
    assert ": 1 changes pending\n" in ran("status", file)
    asked("refresh", file)
    assert asked("audit", file).count("all as worked out anew") == 3
    works.rows_of(file, "SELECT a_id, b_id FROM overlay_result_pz WHERE a_id = 'x'")
    ran("unkeep", file, "gaps")
    assert "is needed by pz" in ran("remove", file, "zones", status=2)
    assert ran("upgrade", file) == "the tables are of this version\n"
    store = GeoPackage(str(file))
    store.ask("UPDATE overlay_result_pz SET relation = 'equals' WHERE id = 1")
    store.close()
    asked("audit", file, status=1)
    assert "no GeoPackage" in ran("status", MAPS / "parcels.geojson", status=2)
    assert "no such file" in ran("status", tmp_path / "none.gpkg", status=2)


def test_a_geopackage_is_adopted_where_it_is(tmp_path: Path) -> None:
    file = works.made(tmp_path / "land.gpkg", random.Random(3))
    before = [works.rows_of(file, f"SELECT * FROM {name}") for name in ("parcels", "zones")]
    assert "no register here" in ran("status", file, status=2)
    ran("adopt", file, "parcels", "zones", "--grid", "0.001")
    asked("keep", "check", file, "shared", "parcels")
    ran("unkeep", file, "shared")
    assert [works.rows_of(file, f"SELECT * FROM {name}") for name in ("parcels", "zones")] == before
    assert "is no grid" in ran("adopt", works.made(tmp_path / "other.gpkg", random.Random(3)), "zones", "--grid", "x",
                               status=2)


def copied(source: Path, target: Path) -> Path:
    """A copy of a register, as it stands, by SQLite's own means."""
    other = GeoPackage(str(source))
    target.unlink(missing_ok=True)
    other.ask("VACUUM INTO ?", str(target))
    other.close()
    return target


def test_kills_of_a_refresh_leave_tables_of_one_state(tmp_path: Path) -> None:
    source, draw = land(tmp_path / "source.gpkg", 4, reach=30, parcels=60, zones=12), random.Random(4)
    works.by_sql(source.path, draw, 40)
    before = {one.name: sorted(source.table(one.name)) for one in ALL}
    ended = copied(source.path, tmp_path / "ended.gpkg")
    after_refresh = Land(ended, Register(GeoPackage(str(ended))), source.program)
    after_refresh.refresh()
    after = {one.name: [row[1:] for row in after_refresh.table(one.name)] for one in ALL}
    assert all(one.is_right() for one in audit(after_refresh.register, source.program))
    done = dict.fromkeys(("before", "after"), 0)
    for number in range(16):
        own = copied(source.path, tmp_path / "killed.gpkg")
        words = [sys.executable, "-c", REFRESH, str(own), str(Programs.features)]
        process = subprocess.Popen(words, stdout=subprocess.PIPE, env=SOURCES)
        assert process.stdout is not None
        if number % 4:
            process.stdout.readline()  # about to write
            time.sleep(draw.random() * 0.01)
        else:
            time.sleep(draw.random())
        process.kill()
        process.wait()
        process.stdout.close()
        found = Land(own, Register(GeoPackage(str(own))), source.program)
        assert found.ask("PRAGMA integrity_check") == [("ok",)]
        rows = {one.name: sorted(found.table(one.name)) for one in ALL}
        is_new = not found.ask("SELECT 1 FROM overlay_pending LIMIT 1")
        done["after" if is_new else "before"] += 1
        if is_new:
            assert {name: sorted(row[1:] for row in own) for name, own in rows.items()} == \
                {name: sorted(own) for name, own in after.items()}
        else:
            assert rows == before
        found.refresh()
        assert {one.name: sorted(row[1:] for row in found.table(one.name)) for one in ALL} == \
            {name: sorted(own) for name, own in after.items()}
        found.register.engine.close()
    assert done["before"]


def test_watch_follows_edits_until_it_is_stopped(tmp_path: Path) -> None:
    own = land(tmp_path / "land.gpkg", 5)
    words = [*OVERLAY, "register", "watch", str(own.path), "--program", str(Programs.features)]
    process = subprocess.Popen(words, stderr=subprocess.PIPE, text=True)
    try:
        for seed in range(3):
            works.by_sql(own.path, random.Random(seed), 2)
            end = time.monotonic() + SECONDS
            while own.ask("SELECT 1 FROM overlay_pending LIMIT 1") and time.monotonic() < end:
                time.sleep(0.05)
            works.check_tables(own)
    finally:
        process.send_signal(signal.SIGTERM)
        _, told = process.communicate(timeout=SECONDS)
    assert process.returncode == 0 and "changes in " in told, told


def test_a_sample_finds_what_is_wrong_and_has_it_worked_out_again(tmp_path: Path) -> None:
    own, told = land(tmp_path / "land.gpkg", 6), []
    for name in ("pz", "shared", "rest"):
        own.ask(f"DELETE FROM overlay_result_{name} WHERE id = (SELECT min(id) FROM overlay_result_{name})")
    looks = iter(range(40))
    watching = Watching(lambda: GeoPackage(str(own.path)), own.program, told.append, sample_each=0, sample_part=1)
    watching.run(lambda: next(looks, None) is not None)
    assert len([text for text in told if text.startswith("AUDIT: ")]) == 3
    works.check_tables(own)


def test_watch_opens_the_file_that_takes_the_place_of_another(tmp_path: Path) -> None:
    own = land(tmp_path / "land.gpkg", 7)
    other = copied(own.path, tmp_path / "other.gpkg")
    works.by_sql(other, random.Random(7), 4)
    looks = iter(range(60))

    def goes_on() -> bool:
        number = next(looks, None)
        if number == 10:
            os.replace(other, own.path)
        return number is not None

    own.register.engine.close()
    Watching(lambda: GeoPackage(str(own.path)), own.program).run(goes_on)
    again = Land(own.path, Register(GeoPackage(str(own.path))), own.program)
    assert not again.ask("SELECT 1 FROM overlay_pending")
    works.check_tables(again)


@pytest.mark.skipif(not HAS_QGIS, reason="no python3-qgis")
def test_a_register_is_edited_by_qgis(tmp_path: Path) -> None:
    own = land(tmp_path / "land.gpkg", 9)
    words = [sys.executable, "-c", QGIS, f"{own.path}|layername=parcels"]
    done = subprocess.run(words, capture_output=True, text=True, timeout=SECONDS, check=False,
                          env={**os.environ, "QT_QPA_PLATFORM": "offscreen", "HOME": str(tmp_path)})
    assert done.returncode == 0, done.stderr
    assert own.refresh() == 4
    works.check_tables(own)
    assert own.ask("SELECT DISTINCT a_id FROM overlay_result_pz WHERE a_id = 'by QGIS'") or \
        not works.expected(own.path, ALL[0])


def test_a_register_is_edited_by_ogr2ogr(tmp_path: Path) -> None:
    own = land(tmp_path / "land.gpkg", 8)
    works.made(tmp_path / "more.gpkg", random.Random(80))
    for words in (["-append", "-update"], ["-overwrite", "-update"], ["-append", "-upsert", "-preserve_fid"]):
        done = subprocess.run(["ogr2ogr", *words, str(own.path), str(tmp_path / "more.gpkg"), "parcels"],
                              capture_output=True, text=True, timeout=SECONDS, check=True)
        assert done.stderr == ""
        own.refresh()
        works.check_tables(own)
    assert gdal.OpenEx(str(own.path)).GetLayerByName("parcels").GetFeatureCount() == 9
