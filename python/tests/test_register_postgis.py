"""Registers in PostGIS, by a server of their own: tables beside fractions after edits by SQL and OGR, and stops."""

from __future__ import annotations

import importlib
import importlib.util
import os
import random
import shutil
import subprocess
import tempfile
import threading
from collections.abc import Iterator
from fractions import Fraction
from pathlib import Path
from typing import Any

import pytest
from osgeo import gdal

from overlayd.kernel import Ask
from overlayd.register.answers import Program
from overlayd.register.auditing import audit
from overlayd.register.filling import keep
from overlayd.register.model import Must, Refused
from overlayd.register.postgis import PostGis
from overlayd.register.refreshing import refresh
from overlayd.register.registers import Register
from overlayd.register.ruling import add_rule
from overlayd.register.transacting import Breaks, Change, What, transact, undo
from overlayd.register.violation_rows import listed
from overlayd.register.watching import Watching

from . import register_works as works
from .common import OVERLAY, SECONDS, Programs
from .register_works import ALL, PAIRS, Land
from .test_register import COUNTS, ODD
from .test_register_front import client_of

BINARIES = sorted(Path("/usr/lib/postgresql").glob("*/bin/initdb"))
IS_THERE = bool(BINARIES) and importlib.util.find_spec("psycopg2") is not None and \
    bool([*Path("/usr/share/postgresql").glob("*/extension/postgis.control")])
pytestmark = [pytest.mark.features, pytest.mark.skipif(not IS_THERE, reason="no PostGIS, or no python3-psycopg2")]


def ran(*words: object) -> None:
    """A program of PostgreSQL, which does not run as root."""
    own = ["runuser", "-u", "postgres", "--"] if os.geteuid() == 0 else []
    subprocess.run([*own, *map(str, words)], check=True, capture_output=True, timeout=SECONDS)


@pytest.fixture(scope="module")
def server() -> Iterator[str]:
    """The folder of a server's socket."""
    folder = Path(tempfile.mkdtemp(prefix="pg"))
    if os.geteuid() == 0:
        shutil.chown(folder, "postgres")
    binaries, data = BINARIES[-1].parent, folder / "data"
    ran(binaries / "initdb", "-D", data, "-A", "trust", "-U", "land", "-N", "-E", "UTF8", "--locale=C.UTF-8")
    options = f"-k {folder} -c listen_addresses= -c fsync=off -c jit=off"
    ran(binaries / "pg_ctl", "-D", data, "-l", folder / "log", "-w", "-o", options, "start")
    yield str(folder)
    ran(binaries / "pg_ctl", "-D", data, "-m", "immediate", "stop")
    shutil.rmtree(folder)


@pytest.fixture
def words(server: str, request: pytest.FixtureRequest) -> Iterator[str]:
    """A database with PostGIS, as GDAL and the register name it."""
    name = f"db{abs(hash(request.node.name))}"
    own = database(server, name)
    connection(own).cursor().execute("CREATE EXTENSION postgis")
    yield own


def database(server: str, name: str) -> str:
    """An empty database."""
    words = f"host={server} user=land dbname="
    connection(f"{words}postgres").cursor().execute(f"CREATE DATABASE {name}")
    return f"PG:{words}{name}"


def connection(words: str) -> Any:
    """A connection that commits each statement."""
    store = importlib.import_module("psycopg2").connect(words.removeprefix("PG:"))
    store.autocommit = True
    return store


def filled(words: str, folder: Path, seed: int, name: str = "land") -> None:
    """Brings two layers into a database, by GDAL."""
    source = works.made(folder / f"{name}.gpkg", random.Random(seed))
    for layer in ("parcels", "zones"):
        options = gdal.VectorTranslateOptions(layers=[layer], accessMode="overwrite", layerCreationOptions=[
            "FID=fid", "GEOMETRY_NAME=geom"])
        gdal.VectorTranslate(words, str(source), options=options)


def land(words: str, folder: Path, seed: int) -> Land:
    """A register with tables."""
    filled(words, folder, seed)
    register = Register(PostGis(words))
    register.begin(Fraction(works.GRID))
    register.adopt("parcels", "nr")
    register.adopt("zones")
    assert Programs.features is not None
    own = Land(words, register, Program(Ask(Programs.features), Fraction(works.GRID)))
    for one in ALL:
        keep(register, one, own.program)
    return own


def by_sql(words: str, draw: random.Random, edits: int) -> None:
    """Edits by SQL, several a transaction."""
    store = connection(words)
    store.autocommit = False
    for _ in range(edits):
        with store, store.cursor() as cursor:
            for _ in range(draw.choice((1, 1, 3))):
                edit(cursor, draw.choice(("parcels", "parcels", "zones")), draw)
    store.close()


def edit(cursor: Any, name: str, draw: random.Random) -> None:
    """One edit."""
    cursor.execute(f"SELECT fid, ST_AsBinary(geom) FROM {name}")
    rows = cursor.fetchall()
    fid, was = draw.choice(rows)
    shape = works.drawn(draw, 9) if was is None else works.shaken(draw, bytes(was))
    texts = [
        (8, f"UPDATE {name} SET geom = ST_GeomFromWKB(%s, 25832) WHERE fid = %s", (shape, fid)),
        (2 if len(rows) > 3 else 0, f"DELETE FROM {name} WHERE fid = %s", (fid,)),
        (2, f"INSERT INTO {name} (geom, nr) VALUES (ST_GeomFromWKB(%s, 25832), 'new')", (shape,)),
        (1, f"UPDATE {name} SET nr = %s WHERE fid = %s", (f"n{draw.randrange(99)}", fid)),
        (1, f"UPDATE {name} SET fid = (SELECT max(fid) + 1000 FROM {name}) WHERE fid = %s", (fid,)),
        (0.5, f"UPDATE {name} SET geom = NULL WHERE fid = %s", (fid,)),
    ]
    (chosen,) = draw.choices(texts, [weight for weight, _, _ in texts])
    cursor.execute(chosen[1], chosen[2])


@pytest.mark.parametrize("seed", range(2))
def test_tables_follow_sql_and_ogr(words: str, tmp_path: Path, seed: int) -> None:
    own, draw = land(words, tmp_path, seed), random.Random(seed)
    works.check_tables(own)
    for writer in (by_sql, works.by_ogr, by_sql):
        writer(words, draw, draw.randint(2, 6))
        own.refresh(before_write=lambda: by_sql(words, draw, 1))
        own.refresh()
        works.check_tables(own)
        assert own.refresh() == 0
    assert all(one.is_right() and one.rows for one in audit(own.register, own.program))


def test_a_change_that_commits_late_is_not_lost(words: str, tmp_path: Path) -> None:
    own = land(words, tmp_path, 3)
    late, early = connection(words), connection(words)
    late.autocommit = False
    text = "UPDATE parcels SET geom = ST_Translate(geom, 1, 0) WHERE fid = %s"
    cursor = late.cursor()
    cursor.execute(text, (1,))  # takes the lower number
    early.cursor().execute(text, (2,))
    assert own.refresh() == 1
    late.commit()
    assert own.refresh() == 1
    works.check_tables(own)


def test_what_bypasses_triggers_is_found(words: str, tmp_path: Path) -> None:
    own, told = land(words, tmp_path, 4), []
    store = connection(words)
    cursor = store.cursor()
    cursor.execute("SET session_replication_role = replica")
    cursor.execute("UPDATE parcels SET geom = ST_Translate(geom, 1, 0) WHERE fid < 4")
    cursor.execute("SET session_replication_role = origin")
    assert own.refresh() == 3
    works.check_tables(own)
    cursor.execute("ALTER TABLE parcels DISABLE TRIGGER overlay_mark")
    by_sql(words, random.Random(4), 8)
    cursor.execute("ALTER TABLE parcels ENABLE TRIGGER overlay_mark")
    own.refresh(say=told.append)
    works.check_tables(own)
    assert any("unseen" in text for text in told)
    with pytest.raises(Exception, match="not truncated"):
        cursor.execute("TRUNCATE zones")
    for text in ("ADD COLUMN owner TEXT", "DROP COLUMN owner"):
        cursor.execute(f"ALTER TABLE parcels {text}")
        by_sql(words, random.Random(5), 2)
        own.refresh()
    works.check_tables(own)


def test_a_layer_that_is_written_over_is_looked_through(words: str, tmp_path: Path) -> None:
    own = land(words, tmp_path, 5)
    filled(words, tmp_path, 50, "other")
    own.refresh()
    works.check_tables(own)
    connection(words).cursor().execute("DROP TABLE zones")
    with pytest.raises(Refused, match="zones: no such layer"):
        own.refresh()


def test_odd_shapes_are_edited_and_told(words: str, tmp_path: Path) -> None:
    own = land(words, tmp_path, 6)
    cursor = connection(words).cursor()
    cursor.execute("ALTER TABLE parcels ALTER geom TYPE geometry")
    wanted = {(999, "no geometry"), *((fid, what) for fid, what in enumerate(ODD, 1000))}
    for fid, text in ((999, None), *((fid, f"SRID=25832;{text}") for fid, text in enumerate(ODD.values(), 1000))):
        cursor.execute("INSERT INTO parcels (fid, geom, nr) VALUES (%s, ST_GeomFromEWKT(%s), 'odd')", (fid, text))
    for name in ("odd", "edited"):
        cursor.execute("UPDATE parcels SET nr = %s WHERE fid >= 999", (name,))
        own.refresh()
        assert wanted <= {*own.ask("SELECT fid, what FROM overlay_problem WHERE layer = 'parcels'")}
        assert {*own.ask("SELECT a FROM overlay_result_pz WHERE a >= 999")} <= {
            (fid,) for fid, what in wanted if what in COUNTS}
    assert all(one.is_right() for one in audit(own.register, own.program))
    cursor.execute("DELETE FROM parcels WHERE fid >= 999")
    own.refresh()
    assert not own.ask("SELECT 1 FROM overlay_problem")
    works.check_tables(own)


FORGED = [
    *(f"{text} overlay.{name}" for name in ("overlay_log", "overlay_pending", "overlay_result_pz", "overlay_state",
      "overlay_violation", "overlay_layer") for text in ("DELETE FROM", "TRUNCATE")),
    "UPDATE overlay.overlay_log SET who = 'bert'", "UPDATE overlay.overlay_violation SET who = 'bert'",
    "INSERT INTO overlay.overlay_log (at, layer, fid, what) VALUES ('2026', 'parcels', 1, 'update')",
    "CREATE FUNCTION overlay.st_asbinary(geometry) RETURNS bytea LANGUAGE sql AS 'SELECT NULL::bytea'",
    "CREATE TEMP TABLE own (fid INT, geom geometry); CREATE TRIGGER forged AFTER INSERT ON own FOR EACH ROW EXECUTE"
    " FUNCTION overlay.overlay_mark('parcels', 'fid', 'geom', '')",
    "ALTER TABLE parcels DISABLE TRIGGER overlay_mark", "DROP TRIGGER overlay_mark ON parcels", "TRUNCATE parcels",
    "SET session_replication_role = replica", "CREATE TRIGGER other AFTER INSERT ON parcels FOR EACH ROW EXECUTE"
    " FUNCTION suppress_redundant_updates_trigger()",
]


def test_roles_may_what_they_are_for_and_nothing_else(words: str, tmp_path: Path) -> None:
    """The owner is no superuser; an editor edits without rights on the log, and cannot forge it."""
    filled(words, tmp_path, 7)
    superuser = connection(words).cursor()
    by: dict[str, Land] = {}
    for role in ("owner", "editor", "reader", "refresher"):
        superuser.execute(f"DO $$ BEGIN CREATE ROLE a_{role} LOGIN; EXCEPTION WHEN duplicate_object THEN NULL; END $$")
    superuser.execute(f"GRANT CREATE ON DATABASE {words.rpartition('=')[2]} TO a_owner")
    for layer in ("parcels", "zones"):
        superuser.execute(f"ALTER TABLE {layer} OWNER TO a_owner")
    assert Programs.features is not None
    for role in ("owner", "editor", "reader", "refresher"):
        own = words.replace("user=land", f"user=a_{role}")
        by[role] = Land(own, Register(PostGis(own)), Program(Ask(Programs.features), Fraction(works.GRID)))
    owner = by["owner"]
    owner.register.begin(Fraction(works.GRID))
    for layer in ("parcels", "zones"):
        owner.register.adopt(layer, "nr" if layer == "parcels" else None)
    keep(owner.register, PAIRS, owner.program)
    for role in ("editor", "reader", "refresher"):
        done = subprocess.run([*OVERLAY, "register", "grant", str(owner.path), f"a_{role}", role], check=False,
                              capture_output=True, text=True, timeout=SECONDS)
        assert (done.returncode, done.stderr) == (0, "")
    for one in ALL[1:]:
        keep(owner.register, one, owner.program)  # after they have got their rights

    editor = connection(str(by["editor"].path)).cursor()
    for text in ("UPDATE parcels SET geom = ST_Translate(geom, 1, 0) WHERE fid = 1",
                 "DELETE FROM parcels WHERE fid = 2",
                 "INSERT INTO parcels (geom, nr) SELECT geom, 'new' FROM zones WHERE fid = 1"):
        editor.execute(text)
    transact(by["editor"].register, owner.program, [Change(What.UPDATE, "parcels", 3, None, {"nr": "c"})],
             "bert by a_owner/QGIS")
    for text in FORGED:
        with pytest.raises(Exception, match="permission denied|must be owner"):
            editor.execute(text)
    with pytest.raises(Exception, match="permission denied"):
        connection(str(by["reader"].path)).cursor().execute("UPDATE parcels SET nr = 'x'")
    assert by["refresher"].refresh() == 4
    for text in ("UPDATE parcels SET nr = 'x'", "DELETE FROM overlay.overlay_log"):
        with pytest.raises(Exception, match="permission denied"):
            connection(str(by["refresher"].path)).cursor().execute(text)
    works.check_tables(Land(words, by["reader"].register, owner.program))
    assert by["reader"].ask("SELECT who, what FROM overlay_log ORDER BY id") == [
        ("a_editor/", "update"), ("a_editor/", "delete"), ("a_editor/", "insert"),
        ("bert by a_ownerQGIS by a_editor/", "update")]


def test_kills_of_a_backend_leave_tables_of_one_state(words: str, tmp_path: Path) -> None:
    own, draw = land(words, tmp_path, 8), random.Random(8)
    killer = connection(words).cursor()
    for number in range(6):
        by_sql(words, draw, 4)
        before = {one.name: own.table(one.name) for one in ALL}
        victim = Land(words, Register(PostGis(words)), own.program)
        ((process,),) = victim.ask("SELECT pg_backend_pid()")

        def kill() -> None:
            killer.execute("SELECT pg_terminate_backend(%s)", (process,))

        with pytest.raises(Exception, match="terminat|closed|connection"):
            victim.refresh(before_write=kill)
        assert {one.name: own.table(one.name) for one in ALL} == before
        own.refresh()
        works.check_tables(own)


def test_watch_wakes_when_somebody_commits(words: str, tmp_path: Path) -> None:
    own = land(words, tmp_path, 9)
    looks = iter(range(6))

    def goes_on() -> bool:
        number = next(looks, None)
        if number == 2:
            by_sql(words, random.Random(9), 2)
        return number is not None

    Watching(lambda: PostGis(words), own.program).run(goes_on)
    assert not own.ask("SELECT 1 FROM overlay_pending")
    works.check_tables(own)


def test_layers_and_words_that_are_refused(words: str, tmp_path: Path) -> None:
    own = land(words, tmp_path, 10)
    cursor = connection(words).cursor()
    cursor.execute("CREATE VIEW seen AS SELECT * FROM parcels")
    cursor.execute("CREATE TABLE texts (code TEXT PRIMARY KEY, geom geometry)")
    cursor.execute("CREATE SCHEMA cadastre CREATE TABLE plots (id INT PRIMARY KEY, shape public.geometry)")
    for name, told in (("seen", "a view"), ("texts", r"is code \(text\)"), ("woods", "no such layer"),
                       ("parcels", "already"), ("overlay.overlay_log", "without geometry")):
        with pytest.raises(Refused, match=told):
            own.register.adopt(name)
    own.register.adopt("cadastre.plots")
    own.register.remove("cadastre.plots")
    with pytest.raises(Refused, match="a password is not taken"):
        PostGis("PG:dbname=land password=secret")
    done = subprocess.run([*OVERLAY, "register", "status", words], capture_output=True, text=True, timeout=SECONDS,
                          check=True)
    assert "layer zones: 0 changes pending" in done.stdout


def test_a_dump_that_is_restored_goes_on(server: str, words: str, tmp_path: Path) -> None:
    own, file, other = land(words, tmp_path, 6), Path(server, "land.dump"), database(server, "restored")
    by_sql(words, random.Random(6), 5)
    for program, *options in (("pg_dump", "-Fc", "-f", file, "-d", words), ("pg_restore", "-e", file, "-d", other)):
        ran(BINARIES[-1].parent / program, *(str(one).removeprefix("PG:") for one in options))
    copy = Land(other, Register(PostGis(other)), own.program)
    assert own.refresh() and own.ask("SELECT count(*) FROM overlay_log") == copy.ask("SELECT count(*) FROM overlay_log")
    for seed in range(3):
        assert copy.refresh() > 0  # first of what was pending in the dump
        works.check_tables(copy)
        by_sql(other, random.Random(seed), 5)
    assert own.refresh() == 0
    works.check_tables(own)


def test_rules_hold_where_two_change_at_once(words: str, tmp_path: Path) -> None:
    """Each looks, then writes; without a lock both would be taken."""
    filled(words, tmp_path, 1)
    store = connection(words)
    store.cursor().execute("DELETE FROM parcels")
    register = Register(PostGis(words))
    register.begin(Fraction(works.GRID))
    register.adopt("parcels", "nr")
    assert Programs.features is not None
    program = Program(Ask(Programs.features), Fraction(works.GRID))
    rule = add_rule(register, Must.NOT_OVERLAP, "parcels", None, program)
    told: list[object] = []

    def work(number: int) -> None:
        own, shape = Register(PostGis(words)), works.drawn(random.Random(5), 9)
        try:
            done = transact(own, program, [Change(What.INSERT, "parcels", None, shape, {"nr": f"n{number}"})], "anna")
            told.append(done.number)
        except Breaks as fault:
            told.append(fault)

    threads = [threading.Thread(target=work, args=(number,)) for number in range(3)]
    for one in threads:
        one.start()
    for one in threads:
        one.join()
    (number,) = [one for one in told if isinstance(one, int)]
    assert sum(isinstance(one, Breaks) for one in told) == 2
    refresh(register, program)
    assert listed(register.engine, " WHERE rule = ?", rule.number) == []
    assert register.engine.ask("SELECT * FROM overlay_violation_map") == []
    assert register.engine.ask("SELECT type, srid FROM geometry_columns WHERE f_table_name = 'overlay_violation_map'") \
        == [("MULTIPOLYGON", 25832)]
    ((who, change),) = register.engine.ask("SELECT who, change FROM overlay_log WHERE what = 'insert'")
    assert (who.startswith("anna by land/"), change) == (True, number)
    (fid,) = [row[0] for row in register.engine.ask("SELECT fid FROM parcels")]
    moved = transact(register, program, [Change(What.UPDATE, "parcels", fid, works.drawn(random.Random(6), 9))])
    undo(register, program, moved.number)
    undo(register, program, number)
    assert register.engine.ask("SELECT count(*) FROM parcels") == [(0,)]


def test_the_front_serves_a_register_in_postgis(words: str, tmp_path: Path) -> None:
    """Pages, a box, a change with its digest, a refusal, undo."""
    own = land(words, tmp_path, 3)
    add_rule(own.register, Must.NOT_OVERLAP, "parcels", None, own.program)
    client = client_of(words, "X-Remote-User")
    named = {"HTTP_X_REMOTE_USER": "anna"}
    found = {one["id"]: one for one in client.get("/collections")["collections"]}
    assert {*found} == {"parcels", "zones", *(one.table() for one in ALL), "overlay_violation"}
    rows = own.register.engine.ask("SELECT fid, nr FROM parcels ORDER BY fid")
    page = client.get("/collections/parcels/items?limit=100")["features"]
    assert [(one["id"], one["properties"]) for one in page] == [(fid, {"nr": nr}) for fid, nr in rows]
    fid, nr = rows[0]
    box = ",".join(map(str, own.register.engine.ask("SELECT ST_XMin(geom), ST_YMin(geom), ST_XMax(geom), ST_YMax(geom)"
                                                    " FROM parcels WHERE fid = ?", fid)[0]))
    path = f"/collections/parcels/items?bbox={box}&bbox-crs=http://www.opengis.net/def/crs/EPSG/0/25832"
    assert fid in [one["id"] for one in client.get(path)["features"]]
    item = client.ask(f"/collections/parcels/items/{fid}")
    match = {**named, "HTTP_IF_MATCH": item.headers["ETag"]}
    told = client.ask(f"/collections/parcels/items/{fid}", "PATCH", {"properties": {"nr": "new"}}, match)
    assert (told.status, told.value["properties"]) == (200, {"nr": "new"})
    assert client.ask(f"/collections/parcels/items/{fid}", "DELETE", None, match).status == 412
    change = client.get(f"/collections/parcels/items/{fid}/history")["changes"][0]
    assert change["who"].startswith("anna by land/")
    assert client.ask(f"/changes/{change['change']}/undo", "POST", None, named).status == 200
    assert client.get(f"/collections/parcels/items/{fid}")["properties"] == {"nr": nr}
    copied = {**item.value, "properties": {"nr": "twin"}}
    told = client.ask("/collections/parcels/items", "POST", copied, named)
    assert told.status == 409 and fid in [one["id"] for one in told.value["broken"][0]["features"]]
