"""Registers in a GeoPackage: their tables beside fractions, after edits by all kinds of writers, faults and stops."""

from __future__ import annotations

import dataclasses
import random
import sqlite3
import subprocess
import sys
from pathlib import Path

import pytest
from osgeo import gdal, ogr

from overlayd.kernel.rows import BlockRefused
from overlayd.register import refreshing
from overlayd.register.answers import Program
from overlayd.register.auditing import audit
from overlayd.register.beginning import standing
from overlayd.register.filling import keep
from overlayd.register.lasting import Lasting
from overlayd.register.model import Kept, Kind, Refused, names_in, spelled
from overlayd.register.package import GeoPackage
from overlayd.register.registers import Register

from . import register_works as works
from .common import SECONDS
from .register_works import ALL, CHECK, DERIVED, PAIRS, Land, land

pytestmark = pytest.mark.features


@pytest.mark.parametrize("seed", range(4))
def test_tables_are_filled_as_fractions_say(tmp_path: Path, seed: int) -> None:
    own = land(tmp_path / "land.gpkg", seed)
    works.check_tables(own)
    assert all(one.is_right() and one.rows for one in audit(own.register, own.program))


@pytest.mark.parametrize("seed, writer", [(seed, name) for seed in range(2) for name in works.WRITERS])
def test_tables_follow_each_writer(tmp_path: Path, seed: int, writer: str) -> None:
    own = land(tmp_path / "land.gpkg", seed)
    draw = random.Random(seed)
    for _ in range(4):
        works.WRITERS[writer](own.path, draw, draw.randint(1, 6))
        assert own.refresh() > 0
        works.check_tables(own)
        assert own.refresh() == 0
    assert all(one.is_right() for one in audit(own.register, own.program))


def test_tables_follow_changes_taken_a_few_at_a_time(tmp_path: Path) -> None:
    own = land(tmp_path / "land.gpkg", 8)
    works.by_sql(own.path, random.Random(1), 20)
    while own.refresh(most=3):
        pass
    works.check_tables(own)


def test_features_of_a_new_register_are_taken_in_by_parts(tmp_path: Path, monkeypatch: pytest.MonkeyPatch) -> None:
    monkeypatch.setattr(refreshing, "FIRST", 5)
    own = land(tmp_path / "land.gpkg", 8, ())
    assert (own.refresh(), own.register.state().version) == (12, 3)  # 9 parcels and 3 zones, by three transactions
    for one in ALL:
        keep(own.register, one, own.program)
    works.check_tables(own)


def test_gdal_lists_layers_and_tables_without_a_warning(tmp_path: Path) -> None:
    own = land(tmp_path / "land.gpkg", 2)
    names: list[str] = []

    def opened() -> None:
        store = gdal.OpenEx(str(own.path), gdal.OF_VECTOR | gdal.OF_UPDATE)
        names.extend(store.GetLayer(place).GetName() for place in range(store.GetLayerCount()))
        for place in range(store.GetLayerCount()):
            assert sum(1 for _ in store.GetLayer(place)) == store.GetLayer(place).GetFeatureCount()

    assert works.warnings_of(opened) == []
    assert names == ["parcels", "zones", "overlay_kept", "overlay_pending", "overlay_problem", "overlay_log",
                     "overlay_rule", "overlay_violation",
                     *(one.table() for one in ALL)]
    assert own.ask("PRAGMA integrity_check") == [("ok",)] and own.ask("PRAGMA foreign_key_check") == []


def test_a_change_during_a_refresh_is_not_lost(tmp_path: Path) -> None:
    own = land(tmp_path / "land.gpkg", 3)
    draw = random.Random(4)
    works.by_sql(own.path, draw, 3)
    own.refresh(before_write=lambda: works.by_sql(own.path, draw, 3))
    assert own.ask("SELECT count(*) FROM overlay_pending")[0][0] > 0
    own.refresh()
    works.check_tables(own)


def test_who_writes_does_not_wait_for_who_reads(tmp_path: Path) -> None:
    own = land(tmp_path / "land.gpkg", 3, (PAIRS,))
    writer = GeoPackage(str(own.path), writes_layers=True, patience=0.2)
    with own.register.engine.reading():
        before = own.ask("SELECT count(*) FROM parcels")
        writer.ask("DELETE FROM parcels WHERE fid = 1")
        assert own.ask("SELECT count(*) FROM parcels") == before
    own.refresh()
    works.check_tables(own, (PAIRS,))


def test_the_same_feature_changed_again_during_a_refresh_is_not_lost(tmp_path: Path) -> None:
    own = land(tmp_path / "land.gpkg", 3)
    writer = GeoPackage(str(own.path), writes_layers=True)

    def move() -> None:
        shape = works.blob(works.drawn(random.Random(writer.ask("SELECT max(id) FROM overlay_log")[0][0]), 9))
        writer.ask("UPDATE parcels SET geom = ? WHERE fid = 7", shape)

    move()
    own.refresh(before_write=move)
    assert own.refresh() == 1
    works.check_tables(own)


@pytest.mark.parametrize("text", [
    "UPDATE overlay_state SET version = version + 1", "ALTER TABLE parcels ADD COLUMN owner TEXT", "VACUUM",
    "ALTER TABLE parcels RENAME COLUMN nr TO number", "CREATE TABLE other (id INTEGER PRIMARY KEY)",
])
def test_a_refresh_begins_anew_where_something_came_between(tmp_path: Path, text: str) -> None:
    own = land(tmp_path / "land.gpkg", 3, (PAIRS, CHECK, DERIVED) if "RENAME" not in text else (DERIVED,))
    works.by_sql(own.path, random.Random(4), 5)
    times: list[int] = []

    def between() -> None:
        times.append(1)
        if len(times) == 1:
            other = sqlite3.connect(own.path, isolation_level=None)
            other.execute(text)
            other.close()

    if "RENAME" in text:
        with pytest.raises(Refused, match="no column nr"):
            own.refresh(before_write=between)
        return
    own.refresh(before_write=between)
    assert len(times) == 2
    works.check_tables(own)


def test_another_refresh_between_reading_and_writing(tmp_path: Path) -> None:
    own, done = land(tmp_path / "land.gpkg", 3), []
    works.by_sql(own.path, random.Random(4), 5)

    def between() -> None:
        if not done:
            done.append(1)
            other = Land(own.path, Register(GeoPackage(str(own.path))), own.program)
            assert other.refresh() > 0

    assert own.refresh(before_write=between) == 0
    works.check_tables(own)


@pytest.mark.parametrize("seed", range(2))
def test_lost_triggers_are_made_again_and_what_was_missed_is_found(tmp_path: Path, seed: int) -> None:
    own, told = land(tmp_path / "land.gpkg", seed), []
    own.ask("DROP TRIGGER overlay_parcels_update")
    own.ask("DROP TRIGGER overlay_parcels_delete")
    works.by_sql(own.path, random.Random(seed), 12)
    own.refresh(say=told.append)
    works.check_tables(own)
    assert "parcels: its triggers were not as the register made them, and are again" in told
    works.by_ogr(own.path, random.Random(seed), 3)
    own.refresh()
    works.check_tables(own)


def test_a_trigger_that_was_away_for_a_while_is_noticed(tmp_path: Path) -> None:
    own = land(tmp_path / "land.gpkg", 5)
    ((text,),) = own.ask("SELECT sql FROM sqlite_master WHERE name = 'overlay_parcels_update'")
    own.ask("DROP TRIGGER overlay_parcels_update")
    works.by_sql(own.path, random.Random(5), 12)
    own.ask(text)
    own.refresh()
    works.check_tables(own)


def test_a_layer_that_is_written_over_is_looked_through(tmp_path: Path) -> None:
    own = land(tmp_path / "land.gpkg", 6)
    works.made(tmp_path / "other.gpkg", random.Random(60))
    gdal.VectorTranslate(str(own.path), str(tmp_path / "other.gpkg"), layers=["parcels"], layerName="parcels",
                         accessMode="overwrite")
    own.refresh()
    works.check_tables(own)
    works.by_ogr(own.path, random.Random(6), 4)
    own.refresh()
    works.check_tables(own)


def test_a_layer_that_is_gone_is_named_and_nothing_is_changed(tmp_path: Path) -> None:
    own = land(tmp_path / "land.gpkg", 6)
    works.by_sql(own.path, random.Random(6), 4)
    before = own.table("pz")
    store = gdal.OpenEx(str(own.path), gdal.OF_VECTOR | gdal.OF_UPDATE)
    store.ExecuteSQL("DROP TABLE zones")
    del store
    with pytest.raises(Refused, match="zones: no such layer"):
        own.refresh()
    assert own.table("pz") == before


X, Y = works.EAST + 5, works.NORTH + 5
ODD = {
    "empty": "POLYGON EMPTY", "no polygon": f"LINESTRING({X} {Y},{X + 9} {Y})",
    "curved": f"CURVEPOLYGON(CIRCULARSTRING({X} {Y},{X + 9} {Y},{X} {Y}))",
    "heights are not looked at": f"POLYGON Z(({X} {Y} 1,{X + 9} {Y} 2,{X} {Y + 9} 3,{X} {Y} 1))",
    "off the grid": f"POLYGON(({X}.00041 {Y},{X + 9} {Y},{X} {Y + 9},{X}.00041 {Y}))",
    "crosses itself": f"POLYGON(({X} {Y},{X + 9} {Y + 9},{X + 9} {Y},{X} {Y + 9},{X} {Y}))",
    "its rings enclose nothing": f"POLYGON(({X} {Y},{X + 9} {Y},{X + 5} {Y},{X} {Y}))",
    "nothing is left of it on the grid": f"POLYGON(({X} {Y},{X}.0001 {Y},{X} {Y}.0001,{X} {Y}))",
    "out of range": "POLYGON((-1e15 -1e15,1e15 -1e15,0 1e15,-1e15 -1e15))",
}
RAW = {"unreadable": b"\x01\x03\0\0\0\x01\0\0\0\x09\0\0\0", "no geometry": None}
COUNTS = {"heights are not looked at", "off the grid", "crosses itself"}


@pytest.mark.parametrize("what", [*ODD, *RAW])
def test_odd_shapes_are_told_and_hold_up_nothing(tmp_path: Path, what: str) -> None:
    own = land(tmp_path / "land.gpkg", 7)
    shape = bytes(ogr.CreateGeometryFromWkt(ODD[what]).ExportToIsoWkb()) if what in ODD else RAW[what]
    value = None if shape is None else works.blob(shape) if what in ODD else works.blob_of(shape, 25832, (X, Y, X, Y))
    writer = GeoPackage(str(own.path), writes_layers=True)
    writer.ask("INSERT INTO parcels (geom, nr) VALUES (?, 'odd')", value)
    works.by_sql(own.path, random.Random(7), 3)
    own.refresh()
    ((fid,),) = own.ask("SELECT fid FROM parcels WHERE nr = 'odd'")
    assert (fid, what) in own.ask("SELECT fid, what FROM overlay_problem WHERE layer = 'parcels'")
    assert bool(own.ask("SELECT 1 FROM overlay_result_pz WHERE a = ?", fid)) <= (what in COUNTS)
    if what in COUNTS:
        works.check_tables(own)
    assert all(one.is_right() for one in audit(own.register, own.program))
    writer.ask("DELETE FROM parcels WHERE fid = ?", fid)
    own.refresh()
    assert not own.ask("SELECT 1 FROM overlay_problem WHERE fid = ?", fid)
    works.check_tables(own)


def test_a_feature_over_too_many_cells_is_left_out_of_these_alone(tmp_path: Path) -> None:
    own = land(tmp_path / "land.gpkg", 7)
    west, south, east, north = works.EAST - 2000, works.NORTH - 2000, works.EAST + 2000, works.NORTH + 2000
    ring = [(west, south), (east, south), (east, north), (west, north), (west, south)]
    writer = GeoPackage(str(own.path), writes_layers=True)
    writer.ask("INSERT INTO zones (geom, nr) VALUES (?, 'wide')", works.blob(works.polygon(ring)))
    own.refresh()
    ((fid,),) = own.ask("SELECT fid FROM zones WHERE nr = 'wide'")
    problem = ("zones", fid, "over too many cells", "rest")
    assert own.ask("SELECT layer, fid, what, kept FROM overlay_problem") == [problem]
    assert own.ask("SELECT count(*) FROM overlay_result_pz WHERE b = ?", fid) == own.ask("SELECT count(*) FROM parcels")
    works.check_tables(own, (PAIRS, CHECK))
    writer.ask("DELETE FROM zones WHERE fid = ?", fid)
    own.refresh()
    works.check_tables(own)


def test_a_save_that_changes_nothing_costs_no_answer(tmp_path: Path) -> None:
    own = land(tmp_path / "land.gpkg", 9)
    writer = GeoPackage(str(own.path), writes_layers=True)
    before = own.table("pz")
    writer.ask("UPDATE parcels SET geom = CAST(geom || x'' AS BLOB)")
    writer.ask("REPLACE INTO parcels SELECT * FROM parcels")
    assert own.refresh() == 9
    assert own.table("pz") == before  # with the same numbers of rows


def test_one_process_answers_all_refreshes_and_is_begun_anew_where_it_has_ended(tmp_path: Path) -> None:
    own = land(tmp_path / "land.gpkg", 13)
    line = Lasting()
    asked = Land(own.path, own.register, Program(dataclasses.replace(own.program.ask, runs=line), own.program.factor))
    for seed in range(4):
        works.by_sql(own.path, random.Random(seed), 4)
        asked.refresh()
        works.check_tables(own)
        if seed == 2:
            line.close()
    assert line.replies is not None
    with pytest.raises(BlockRefused):
        line.reply(own.program.ask.program, b"\x10" + bytes(15))
    assert line.replies is None
    works.by_sql(own.path, random.Random(9), 4)
    asked.refresh()
    works.check_tables(own)
    line.close()


def test_a_full_and_a_locked_database_lose_nothing(tmp_path: Path) -> None:
    own = land(tmp_path / "land.gpkg", 9, parcels=40)
    writer = GeoPackage(str(own.path), writes_layers=True)
    writer.ask("UPDATE parcels SET geom = (SELECT geom FROM parcels WHERE fid = 1)")
    own.ask("VACUUM")
    ((pages,),) = own.ask("PRAGMA page_count")
    own.ask(f"PRAGMA max_page_count = {pages}")
    with pytest.raises(sqlite3.OperationalError, match="full"):
        own.refresh()
    own.ask("PRAGMA max_page_count = 1073741823")
    assert own.ask("SELECT count(*) FROM overlay_pending")[0][0] == 39
    writer.ask("BEGIN IMMEDIATE")
    short = Land(own.path, Register(GeoPackage(str(own.path), patience=0.2)), own.program)
    with pytest.raises(sqlite3.OperationalError, match="locked"):
        short.refresh()
    writer.ask("COMMIT")
    assert own.refresh() == 39
    works.check_tables(own, (PAIRS, CHECK))
    assert (None, None) in own.ask("SELECT area, bound FROM overlay_result_rest")  # 40 features over one place


def test_a_write_into_a_log_that_was_taken_away_is_not_acknowledged(tmp_path: Path) -> None:
    """GDAL that closes the file as well takes SQLite's locks from this process; another one that closes it then is the
    last to SQLite, and takes the log away."""
    own, text = land(tmp_path / "land.gpkg", 9, ()), "import sqlite3, sys; sqlite3.connect(sys.argv[1]).execute('{}')"
    writer = GeoPackage(str(own.path), writes_layers=True)
    with writer.writing():
        writer.ask("DELETE FROM parcels WHERE fid = 1")
    gdal.OpenEx(str(own.path), gdal.OF_VECTOR)
    words = [sys.executable, "-c", text.format("SELECT count(*) FROM parcels"), str(own.path)]
    subprocess.run(words, check=True, timeout=SECONDS)
    with pytest.raises(sqlite3.DatabaseError, match="-wal was taken away"), writer.writing():
        writer.ask("DELETE FROM parcels WHERE fid = 2")
    for engine in (writer, own.register.engine):
        engine.close()
    again = GeoPackage(str(own.path), writes_layers=True)
    with again.writing():
        again.ask("DELETE FROM parcels WHERE fid = 3")
    assert works.rows_of(own.path, "SELECT fid FROM parcels") == [(fid,) for fid in (2, *range(4, 10))]


def test_an_audit_names_rows_that_are_missing_and_wrong(tmp_path: Path) -> None:
    own = land(tmp_path / "land.gpkg", 10)
    own.ask("DELETE FROM overlay_result_pz WHERE id = (SELECT min(id) FROM overlay_result_pz)")
    for name, what in (("shared", "area = area + 0.01"), ("rest", "j = j + 5000")):
        own.ask(f"UPDATE overlay_result_{name} SET {what} WHERE id = (SELECT min(id) FROM overlay_result_{name})")
    told = {one.name: (len(one.missing), len(one.wrong)) for one in audit(own.register, own.program)}
    assert told == {"pz": (1, 0), "shared": (0, 1), "rest": (1, 1)}
    sampled = [audit(own.register, own.program, 4, random.Random(seed)) for seed in range(12)]
    assert {one.name: one.is_right() for found in sampled for one in found if not one.is_right()} == \
        {"pz": False, "shared": False, "rest": False}
    assert any(one.is_right() for found in sampled for one in found if one.name == "pz")


def test_layers_come_and_go(tmp_path: Path) -> None:
    own = land(tmp_path / "land.gpkg", 11, (PAIRS,))
    before = set(works.rows_of(works.made(tmp_path / "bare.gpkg", random.Random(11)), "SELECT name FROM sqlite_master"))
    with pytest.raises(Refused, match="zones is needed by pz"):
        own.register.remove("zones")
    with pytest.raises(Refused, match="PZ is kept already"):
        keep(own.register, Kept("PZ", Kind.CHECK, "parcels", "parcels"), own.program)
    works.check_tables(own, (PAIRS,))
    own.register.unkeep("pz")
    with pytest.raises(Refused, match="pz: not kept"):
        own.register.unkeep("pz")
    for name in ("zones", "parcels"):
        own.register.remove(name)
    left = set(own.ask("SELECT name FROM sqlite_master")) - before
    assert not {name for (name,) in left if "parcels" in name or "zones" in name or "result" in name}
    works.by_sql(own.path, random.Random(1), 3)
    assert own.ask("SELECT count(*) FROM overlay_pending") == [(0,)]
    with pytest.raises(Refused, match="parcels: no layer of the register"):
        keep(own.register, CHECK, own.program)
    own.register.adopt("parcels", "nr")
    keep(own.register, CHECK, own.program)
    works.check_tables(own, (CHECK,))


def test_triggers_of_others_are_named(tmp_path: Path) -> None:
    own = land(tmp_path / "land.gpkg", 11, ())
    own.ask("CREATE TRIGGER tidy AFTER UPDATE ON zones BEGIN DELETE FROM overlay_log; END")
    assert [line for line in standing(own.register) if "trigger" in line] == [
        "layer zones: 3 changes pending; it has other triggers: tidy"]


def test_layers_without_a_whole_key_are_refused_by_name(tmp_path: Path) -> None:
    own = land(tmp_path / "land.gpkg", 11, ())
    own.ask("CREATE TABLE texts (code TEXT PRIMARY KEY, geom BLOB)")
    own.ask("INSERT INTO gpkg_contents (table_name, data_type) VALUES ('texts', 'features')")
    own.ask("INSERT INTO gpkg_geometry_columns VALUES ('texts', 'geom', 'POLYGON', 25832, 0, 0)")
    for name, told in (("texts", r"texts: its key .* but is code \(TEXT\)"), ("woods", "no such layer"),
                       ("overlay_log", "without geometry"), ("parcels", "already")):
        with pytest.raises(Refused, match=told):
            own.register.adopt(name)
    own.register.remove("zones")
    with pytest.raises(Refused, match="no column code; there are fid, geom, nr"):
        own.register.adopt("zones", "code")


@pytest.mark.parametrize("expression, told", [
    ("parcels &", "no expression"), ("woods", "woods: no layer"), ("", "no exp"), ("parcels - (zones", "no expression"),
    ("parcels + zones", "no layer"),
])
def test_expressions_that_are_none_are_refused(tmp_path: Path, expression: str, told: str) -> None:
    own = land(tmp_path / "land.gpkg", 11, ())
    with pytest.raises(Refused, match=told):
        keep(own.register, Kept("odd", Kind.DERIVE, expression=expression), own.program)
    assert own.register.kept() == []


def test_a_cell_is_about_a_feature_wide(tmp_path: Path) -> None:
    own = land(tmp_path / "land.gpkg", 12, ())
    keep(own.register, Kept("gaps", Kind.DERIVE, expression="zones - parcels"), own.program)
    (kept,) = own.register.kept()
    assert kept.cell in (4096, 8192)
    works.check_tables(own, (kept,))


def test_words_of_expressions() -> None:
    assert names_in('(flood | "a b") - Straße & flood') == ["Straße", "a b", "flood"]
    assert spelled('(a|"b c")-a', {"a": "A", "b c": "B"}) == "( A | B ) - A"
