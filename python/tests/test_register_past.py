"""Layers as they were, beside what they were then, after edits of all kinds; what is purged; copies of a file."""

import random
import subprocess
import time
from pathlib import Path

import pytest
from osgeo import gdal

from overlayd.register.auditing import audit
from overlayd.register.model import Refused
from overlayd.register.package import GeoPackage
from overlayd.register.past import Past, moment, purge
from overlayd.register.registers import Register, now
from overlayd.register.tables import Table

from . import register_works as works
from .common import OVERLAY, SECONDS
from .register_works import PAIRS, Land, land
from .test_register_front import client_of

pytestmark = pytest.mark.features
State = dict[int, tuple[bytes | None, object]]


def edited(engine: GeoPackage, draw: random.Random) -> None:
    """One edit of a few features, so that keys are used again: what a row can be done to."""
    fid, other = draw.randint(1, 7), draw.randint(1, 7)
    ((count, there),) = engine.ask("SELECT count(*), max(fid = ?) FROM parcels", other)
    new = works.blob(works.drawn(draw, 9))
    texts: list[tuple[str, tuple[object, ...]]] = [
        ("UPDATE parcels SET geom = ? WHERE fid = ?", (new, fid)), ("DELETE FROM parcels WHERE fid = ?", (fid,)),
        ("UPDATE parcels SET nr = ? WHERE fid = ?", (f"n{draw.randrange(99)}", fid)),
        ("UPDATE parcels SET geom = NULL WHERE fid = ?", (fid,)),
        *([] if there else [("UPDATE parcels SET fid = ? WHERE fid = ?", (other, fid)),
                            ("INSERT INTO parcels (fid, geom, nr) VALUES (?, ?, 'new')", (other, new))])]
    text, values = draw.choice(texts)
    engine.ask(text, *values)


def state(own: Land) -> State:
    """The features of parcels."""
    table = Table(own.register.engine, own.register.layer("parcels"))
    return {one.fid: (one.shape, one.values["nr"]) for one in table.page(-1, 1000)}


@pytest.mark.parametrize("seed", range(3))
def test_a_layer_is_as_it_was_at_each_time(tmp_path: Path, seed: int) -> None:
    own, draw = land(tmp_path / "land.gpkg", seed, (), parcels=5), random.Random(seed)
    engine = GeoPackage(str(own.path), writes_layers=True)
    states = []
    for _ in range(25):
        time.sleep(0.003)  # the log's time is of a millisecond
        states.append((now(), state(own)))
        time.sleep(0.003)
        for _ in range(draw.randint(1, 3)):
            edited(engine, draw)
    assert len({str(one) for _, one in states}) > 15
    for at, wanted in states:
        past = Past(own.register.engine, own.register.layer("parcels"), at)
        found = [*past.all()]
        assert {one.fid: (one.shape, one.values["nr"]) for one in found} == wanted
        for limit in (1, 2, 3):
            pages, after = list[int](), -1
            while some := past.page(after, limit):
                pages += [one.fid for one in some]
                after = pages[-1]
            assert pages == sorted(wanted)
    middle = states[12][0]
    count = own.ask("SELECT count(*) FROM overlay_log WHERE at < ?", middle)[0][0]
    assert purge(own.register, middle) == count > 0
    for at, wanted in states:
        if at < middle:
            with pytest.raises(Refused, match=f"parcels: its history begins at {middle}"):
                Past(own.register.engine, own.register.layer("parcels"), at)
        else:
            items = Past(own.register.engine, own.register.layer("parcels"), at).all()
            assert {one.fid: (one.shape, one.values["nr"]) for one in items} == wanted


def test_times() -> None:
    assert moment("2026-12-01") == "2026-12-01T00:00:00.000Z"
    assert moment("2026-12-01T10:00:00.5+01:00") == "2026-12-01T09:00:00.500Z"
    with pytest.raises(Refused, match="yesterday: no time"):
        moment("yesterday")


def run(*words: object) -> subprocess.CompletedProcess[str]:
    return subprocess.run([*OVERLAY, "register", *map(str, words)], check=False, capture_output=True, text=True,
                          timeout=SECONDS)


def test_the_command_and_the_front_give_a_layer_as_it_was(tmp_path: Path) -> None:
    own = land(tmp_path / "land.gpkg", 3, (PAIRS,))
    began, before = now(), works.features_in(own.path, "parcels")
    time.sleep(0.01)
    engine = GeoPackage(str(own.path), writes_layers=True)
    for text in ("DELETE FROM parcels WHERE fid < 4", "UPDATE parcels SET nr = 'x' WHERE fid = 5"):
        engine.ask(text)
    assert run("past", own.path, began, tmp_path / "then.gpkg").stdout == "parcels: 9 features\nzones: 3 features\n"
    assert works.features_in(tmp_path / "then.gpkg", "parcels") == before
    store = gdal.OpenEx(str(tmp_path / "then.gpkg"))
    assert store.GetLayerByName("parcels").GetFeature(5)["nr"] == "p4"
    client = client_of(own.path)
    path = "/collections/parcels/items"
    assert [one["id"] for one in client.get(path)["features"]] == [*range(4, 10)]
    for word in (began, f"../{began}"):
        assert [one["id"] for one in client.get(f"{path}?datetime={word}")["features"]] == [*range(1, 10)]
    (page,) = client.get(f"{path}?datetime={began}&limit=1&after=4")["features"]
    assert (page["id"], page["properties"]["nr"]) == (5, "p4")
    assert client.get(f"{path}/5?datetime={began}")["properties"] == {"nr": "p4"}
    for word, told in ((f"{path}?datetime=2001-01-01T00:00:00Z", "history begins at"),
                       (f"{path}?datetime=2001-02-30T00:00:00Z", "datetime"),
                       (f"/collections/overlay_result_pz/items?datetime={began}", "layers have a past")):
        found = client.ask(word)
        assert found.status == 400 and told in str(found.value)
    assert run("purge", own.path, began).stdout == "0 rows\n"
    assert "no time" in run("purge", own.path, "soon").stderr


def test_a_file_is_copied_while_others_edit_it_and_the_copy_goes_on(tmp_path: Path) -> None:
    own = land(tmp_path / "land.gpkg", 3, (PAIRS,))
    writer = GeoPackage(str(own.path), writes_layers=True)
    writer.ask("BEGIN IMMEDIATE")
    writer.ask("DELETE FROM parcels")
    done = run("backup", own.path, tmp_path / "copy.gpkg")
    assert (done.returncode, done.stderr, sorted(one.name for one in tmp_path.iterdir() if "copy" in one.name)) == (
        0, "", ["copy.gpkg"])
    writer.ask("COMMIT")
    copy = Land(tmp_path / "copy.gpkg", Register(GeoPackage(str(tmp_path / "copy.gpkg"))), own.program)
    assert copy.ask("SELECT count(*) FROM parcels") == [(9,)]
    assert all(one.is_right() for one in audit(copy.register, own.program))
    works.by_sql(copy.path, random.Random(3), 6)
    assert copy.refresh() > 0
    works.check_tables(copy, (PAIRS,))
    assert "is there already" in run("backup", own.path, tmp_path / "copy.gpkg").stderr
