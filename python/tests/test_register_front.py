"""The front over a register: its pages, changes of one feature and of several, what is refused, and history."""

import contextlib
import json
import socket
import sqlite3
import subprocess
import threading
import time
import urllib.request
from collections.abc import Iterator
from pathlib import Path
from typing import Any

import pytest
from osgeo import gdal, ogr

from overlayd.register.model import Must
from overlayd.register.package import GeoPackage
from overlayd.register.registers import Register
from overlayd.register.ruling import add_rule
from overlayd.web import opened_registers
from overlayd.web.front import of_register
from overlayd.web.opened_registers import OpenedRegisters
from overlayd.web.register_api import RegisterApi, scale_of
from overlayd.web.schemas import ref
from overlayd.web.systems import Systems, by_pyproj

from . import register_works as works
from .common import OVERLAY, SECONDS, SOURCES, Programs
from .register_works import PAIRS, Land, land
from .test_openapi import Document
from .test_register_transactions import box, parcels
from .testing import Client, Told

pytestmark = pytest.mark.features
UTM = "http://www.opengis.net/def/crs/EPSG/0/25832"
Place = tuple[Land, Client]


def client_of(path: Path | str, who: str | None = None, writable: bool = True) -> Client:
    """A front over a register."""
    assert Programs.features is not None
    registers = OpenedRegisters(str(path), Programs.features)
    scale = scale_of(registers)
    return Client(of_register(RegisterApi(registers, Systems(scale, by_pyproj(str(scale.crs))), writable, who)))


@pytest.fixture
def place(tmp_path: Path) -> Iterator[Place]:
    """Two rows of parcels over a zone, and a front over them."""
    own = land(tmp_path / "land.gpkg", 1, (PAIRS,), parcels=0, zones=0)
    engine = GeoPackage(str(own.path), writes_layers=True)
    for number, (x, y) in enumerate([(x, y) for y in (0, 10) for x in (0, 10, 20)], 1):
        engine.ask("INSERT INTO parcels (geom, nr) VALUES (?, ?)", works.blob(box(x, y, x + 10, y + 10)), f"p{number}")
    engine.ask("INSERT INTO zones (geom) VALUES (?)", works.blob(box(0, 0, 30, 20)))
    own.register.engine.close()
    own.register = Register(engine)
    own.refresh()
    add_rule(own.register, Must.NOT_OVERLAP, "parcels", None, own.program)
    yield own, client_of(own.path)


def feature(shape: bytes, **properties: object) -> dict[str, Any]:
    """A feature of GeoJSON by OGR."""
    geometry = json.loads(ogr.CreateGeometryFromWkb(shape).ExportToJson(["COORDINATE_PRECISION=15"]))
    return {"type": "Feature", "geometry": geometry, "properties": properties}


OWN = {"HTTP_CONTENT_CRS": f"<{UTM}>"}


def ask(client: Client, path: str, method: str, body: object = None, **headers: str) -> Told:
    """A question with coordinates of the register."""
    return client.ask(path, method, body, {**OWN, **headers})


def test_layers_results_and_violations_are_collections(place: Place) -> None:
    own, client = place
    found = {one["id"]: one for one in client.get("/collections")["collections"]}
    assert [*found] == ["parcels", "zones", "overlay_result_pz", "overlay_violation"]
    assert found["parcels"]["box"] == [works.EAST, works.NORTH, works.EAST + 30, works.NORTH + 20]
    assert found["parcels"]["storageCrs"] == UTM
    rows = client.get("/collections/overlay_result_pz/items")["features"]
    assert len(rows) == 6 and {one["properties"]["relation"] for one in rows} == {"within"}
    assert [one["href"].rpartition("/collections/")[2] for one in rows[0]["links"]] == [
        f"parcels/items/{rows[0]['properties']['a']}", "zones/items/1"]
    assert client.get("/collections/overlay_violation/items")["features"] == []
    assert client.ask("/collections/fields/items").status == 404
    assert "http://www.opengis.net/spec/ogcapi-features-4/1.0/conf/update" in client.get("/conformance")["conformsTo"]


def test_the_description_is_one_of_openapi_and_answers_are_as_it_says(place: Place) -> None:
    own, client = place
    own.register.engine.ask("UPDATE parcels SET geom = ? WHERE fid = 2", works.blob(box(8, 0, 20, 10)))
    own.refresh()
    described = Document(client.get("/api"))
    assert [*described.faults()] == []
    for path, name in (("/status", "registerStatus"), ("/collections", "collections"), ("/changes", "history"), (
            "/collections/parcels", "collection"), ("/collections/parcels/items?limit=2", "rowCollection"), (
            "/collections/overlay_violation/items", "rowCollection"), ("/collections/parcels/items/1", "rowItem"), (
            "/collections/overlay_result_pz/items", "rowCollection"), (
            f"/collections/parcels/locate?x={works.EAST + 1}&y={works.NORTH + 1}", "registerLocated")):
        assert described.against(client.get(path), ref(name)) == [], path


def test_items_come_page_by_page(place: Place) -> None:
    own, client = place
    path, seen = f"/collections/parcels/items?limit=4&crs={UTM}", []
    while path:
        page = client.get(path)
        seen += page["features"]
        path = next((one["href"] for one in page["links"] if one["rel"] == "next"), "")
    assert [(one["id"], one["properties"]) for one in seen] == [(n, {"nr": f"p{n}"}) for n in range(1, 7)]
    assert seen[0]["geometry"] == feature(box(0, 0, 10, 10))["geometry"]
    degrees = client.get("/collections/parcels/items/1")["geometry"]["coordinates"][0][0]
    assert degrees == pytest.approx([9.0, 48.7538], abs=1e-3)


@pytest.mark.parametrize("low, high, wanted", [((1, 1), (2, 2), [1]), ((10, 5), (10, 5), [1, 2]),
                                               ((9, 9), (11, 11), [1, 2, 4, 5]), ((31, 0), (40, 9), []),
                                               ((-9, -9), (99, 99), [1, 2, 3, 4, 5, 6])])
def test_a_box_has_what_meets_it_changes_that_wait_too(place: Place, low: tuple[int, int], high: tuple[int, int],
                                                       wanted: list[int]) -> None:
    own, client = place
    edges = ",".join(str(base + axis) for one in (low, high) for base, axis in zip((works.EAST, works.NORTH), one))
    path = f"/collections/parcels/items?limit=2&bbox={edges}&bbox-crs={UTM}"
    assert ids(client, path) == wanted
    own.register.engine.ask("UPDATE parcels SET geom = ? WHERE fid = 6", works.blob(box(0.5, 0.5, 12, 12)))
    assert ids(client, path) == sorted({*wanted} - {6} | ({6} if wanted else set()))


def ids(client: Client, path: str) -> list[int]:
    """The numbers of all items, page by page."""
    found: list[int] = []
    while path:
        page = client.get(path)
        found += [one["id"] for one in page["features"]]
        path = next((one["href"] for one in page["links"] if one["rel"] == "next"), "")
    return found


def test_a_feature_is_made_changed_and_taken_out(place: Place) -> None:
    own, client = place
    made = ask(client, "/collections/parcels/items", "POST", feature(box(30, 0, 40, 10), nr="p7"))
    assert (made.status, made.value["id"], made.headers["Location"].rpartition("/")[2]) == (201, 7, "7")
    tag = made.headers["ETag"]
    patched = ask(client, "/collections/parcels/items/7", "PATCH", {"properties": {"nr": "seven"}}, HTTP_IF_MATCH=tag)
    assert (patched.status, patched.value["properties"]) == (200, {"nr": "seven"})
    assert parcels(own)[7] == (box(30, 0, 40, 10), "seven")
    for method, body in (("PATCH", {"properties": {"nr": "x"}}), ("PUT", feature(box(0, 0, 1, 1))), ("DELETE", None)):
        assert ask(client, "/collections/parcels/items/7", method, body, HTTP_IF_MATCH=tag).status == 412
    put = ask(client, "/collections/parcels/items/7", "PUT", feature(box(30, 0, 39, 10)),
              HTTP_IF_MATCH=patched.headers["ETag"])
    assert (put.status, put.value["properties"]) == (200, {"nr": None})
    assert client.ask("/collections/parcels/items/7", headers={"HTTP_IF_NONE_MATCH": put.headers["ETag"]}).status == 304
    assert ask(client, "/collections/parcels/items/7", "DELETE", HTTP_IF_MATCH=put.headers["ETag"]).status == 200
    assert client.ask("/collections/parcels/items/7").status == 404


def test_what_breaks_a_rule_is_409_with_pairs_areas_and_outlines(place: Place) -> None:
    own, client = place
    before = parcels(own)
    told = ask(client, "/collections/parcels/items/2", "PATCH", feature(box(8, 0, 20, 10)))
    assert told.status == 409
    (one,) = told.value["broken"]
    assert (one["rule"], one["area"], [(own["id"], own["name"]) for own in one["features"]]) == (
        "parcels must not overlap", pytest.approx(20), [(1, "p1"), (2, "p2")])
    assert one["geometry"]["type"] == one["new"]["geometry"]["type"] == "Polygon"
    assert parcels(own) == before


def test_a_transaction_is_one_change_and_is_undone_whole(place: Place) -> None:
    own, client = place
    before = parcels(own)
    changes = [{"update": "parcels", "id": 1, "feature": feature(box(0, 0, 4, 10), nr="a"),
                "etag": client.ask("/collections/parcels/items/1").headers["ETag"].strip('"')},
               {"insert": "parcels", "feature": feature(box(4, 0, 10, 10), nr="b")}, {"delete": "parcels", "id": 6}]
    told = ask(client, "/transaction", "POST", {"changes": changes})
    assert told.status == 200
    assert [(one["collection"], one["id"], one["etag"] is None) for one in told.value["features"]] == [
        ("parcels", 1, False), ("parcels", 7, False), ("parcels", 6, True),
        ("parcels", 4, False), ("zones", 1, False)]  # these have the new corners on their borders
    assert ask(client, "/transaction", "POST", {"changes": changes}).status == 409  # it is another one now
    number = told.value["change"]
    log = client.get("/collections/parcels/items/1/history")["changes"]
    assert (log[0]["change"], log[0]["what"]) == (number, "update")
    assert len([one for one in client.get("/changes")["changes"] if one["change"] == number]) == 5
    assert client.change(f"/changes/{number}/undo", "POST")["change"] > number
    assert parcels(own) == before
    assert client.ask(f"/changes/{number}/undo", "POST").status == 409


def test_who_asks_comes_from_the_header_that_is_named(place: Place) -> None:
    own, _ = place
    client = client_of(own.path, "X-Remote-User")
    path, body = "/collections/parcels/items/1", {"properties": {"nr": "x"}}
    assert client.ask(path, "PATCH", body).status == 403
    assert client.ask(path, "PATCH", body, {"HTTP_X_REMOTE_USER": "anna"}).status == 200
    assert client.get(f"{path}/history")["changes"][0]["who"] == "anna"
    reader = client_of(own.path, writable=False)
    assert reader.ask(path, "PATCH", body).status == 403 and reader.get(path)["properties"] == {"nr": "x"}


def test_a_violation_is_listed_and_accepted(place: Place) -> None:
    own, client = place
    own.register.engine.ask("UPDATE parcels SET geom = ? WHERE fid = 2", works.blob(box(8, 0, 20, 10)))
    own.refresh()
    (one,) = client.get("/collections/overlay_violation/items")["features"]
    assert (one["properties"]["area"], one["properties"]["a_id"]) == (pytest.approx(20), "p1")
    assert client.ask(f"/violations/{one['id']}/accept", "POST", {"why": ""}).status == 400
    assert client.change(f"/violations/{one['id']}/accept", "POST", {"why": "a wall"}) == {"accepted": one["id"]}
    (one,) = client.get("/collections/overlay_violation/items")["features"]
    assert one["properties"]["why"] == "a wall" and one["properties"]["who"]


def test_a_point_is_told_by_the_features_that_have_it(place: Place) -> None:
    own, client = place
    for x, y, wanted in ((1, 1, [(1, "in")]), (10, 5, [(1, "edge"), (2, "edge")]), (99, 1, [])):
        found = client.get(f"/collections/parcels/locate?x={works.EAST + x}&y={works.NORTH + y}")
        assert [(one["id"], one["place"]) for one in found["features"]] == wanted


def deep(levels: int) -> bytes:
    """Coordinates in so many lists."""
    return b'{"geometry": {"type": "Polygon", "coordinates": ' + b"[" * levels + b"]" * levels + b"}}"


@pytest.mark.parametrize("body, status", [
    (feature(works.polygon([])), 422), (b"[", 400),
    ({"type": "Feature", "geometry": {"type": "Polygon", "coordinates": []}, "properties": {}}, 422),
    ({"type": "Feature", "geometry": {"type": "Point", "coordinates": [1, 2]}, "properties": {}}, 422),
    ({"type": "Feature", "geometry": {"type": "Polygon", "coordinates": [[[1, "x"]]]}, "properties": {}}, 422),
    ({"type": "Feature", "geometry": {"type": "Polygon", "coordinates": [[[1e30, 0], [1, 1], [0, 1], [1e30, 0]]]},
      "properties": {}}, 422),
    ({"type": "Feature", "geometry": None, "properties": {"owner": 1}}, 400), ([], 400), (b'{"a": NaN}', 400),
    (deep(500), 422), (deep(100_000), 400), (b" " * (1 << 21), 413),
    ({"type": "Feature", "geometry": None, "properties": {"nr": 2**70}}, 400),
], ids=[*map(str, range(13))])
def test_what_cannot_be_is_refused_by_name_and_nothing_stops(place: Place, body: object, status: int) -> None:
    own, client = place
    before = parcels(own)
    told = ask(client, "/collections/parcels/items", "POST", body)
    assert told.status == status and told.value["description"], told
    assert parcels(own) == before
    assert ask(client, "/collections/parcels/items", "POST", feature(box(50, 0, 60, 10))).status == 201


def test_a_full_disk_and_a_locked_file_are_told_and_nothing_is_lost(place: Place,
                                                                    monkeypatch: pytest.MonkeyPatch) -> None:
    own, client = place
    before = parcels(own)
    engine = own.register.engine
    (pages,), = engine.ask("PRAGMA page_count"),
    real = opened_registers.engine_of

    def full(name: str, *words: Any) -> Any:
        made = real(name, *words)
        made.ask(f"PRAGMA max_page_count = {pages[0]}")
        return made

    monkeypatch.setattr(opened_registers, "engine_of", full)
    many = {"changes": [{"insert": "parcels", "feature": feature(box(100 + 2 * x, 0, 101 + 2 * x, 1), nr="x" * 4000)}
                        for x in range(40)]}
    told = ask(client, "/transaction", "POST", many)
    assert told.status == 503 and "full" in told.value["description"] and "Retry-After" in told.headers
    monkeypatch.undo()
    assert parcels(own) == before and engine.ask("PRAGMA integrity_check") == [("ok",)]
    monkeypatch.setattr(opened_registers, "PATIENCE", 0.2)
    other = sqlite3.connect(own.path, isolation_level=None)
    other.execute("BEGIN IMMEDIATE")
    told = ask(client_of(own.path), "/collections/parcels/items", "POST", feature(box(50, 0, 60, 10)))
    assert told.status == 503 and "locked" in told.value["description"]
    assert client.get("/collections/parcels/items/1")["id"] == 1  # who reads does not wait
    other.execute("ROLLBACK")
    assert ask(client, "/transaction", "POST", many).status == 200


def test_changes_at_once_wait_for_each_other(place: Place) -> None:
    own, client = place
    told: list[int] = []

    def work(number: int) -> None:
        for part in range(4):
            told.append(ask(client, "/collections/parcels/items", "POST",
                            feature(box(100 + number, 0, 101 + number, 1), nr=f"{number} {part}")).status)

    threads = [threading.Thread(target=work, args=(number,)) for number in range(4)]
    for one in threads:
        one.start()
    for one in threads:
        one.join()
    assert sorted(told) == [201] * 4 + [409] * 12  # of four in one place the rule takes one
    own.refresh()
    assert own.ask("SELECT count(*) FROM overlay_violation") == [(0,)]


SLOW = 900


def test_the_command_answers_beside_slow_connections_and_keeps_tables_current(place: Place) -> None:
    """Nine hundred connections by which a request does not come to its end."""
    own, _ = place
    assert Programs.features is not None
    words = [*OVERLAY, "serve", str(own.path), "--writable", "--port", "0", "--program", Programs.features]
    run = subprocess.Popen(words, stdout=subprocess.PIPE, text=True, env=SOURCES)
    assert run.stdout is not None
    try:
        address = run.stdout.readline().strip()
        host, port = address.removeprefix("http://").rstrip("/").split(":")
        with contextlib.ExitStack() as links:
            for _ in range(SLOW):
                link = links.enter_context(socket.create_connection((host, int(port)), timeout=SECONDS))
                link.sendall(b"GET /status HTTP/1.1\r\nHost: 127.0.0.1\r\nX: ")
            body = json.dumps(feature(box(25, 0, 35, 10), nr="over")).encode()
            head = {"Content-Type": "application/geo+json", "Content-Crs": f"<{UTM}>"}
            asked = urllib.request.Request(f"{address}collections/zones/items", body.replace(b"over", b"z"), head)
            with urllib.request.urlopen(asked, timeout=SECONDS) as told:
                assert told.status == 201
            end = time.monotonic() + SECONDS
            while own.ask("SELECT count(*) FROM overlay_result_pz WHERE b = 2") == [(0,)] and time.monotonic() < end:
                time.sleep(0.1)
        assert own.ask("SELECT a, relation FROM overlay_result_pz WHERE b = 2 AND area > 0") == [(3, "overlaps")]
    finally:
        run.terminate()
        assert run.wait(SECONDS) == 0


def test_a_file_that_takes_the_place_of_another_is_opened(place: Place, tmp_path: Path) -> None:
    own, client = place
    assert client.get("/collections/parcels/items/1")["properties"] == {"nr": "p1"}
    own.register.engine.settle()
    copy = tmp_path / "copy.gpkg"
    with sqlite3.connect(copy) as other:
        sqlite3.connect(own.path).backup(other)
    other.close()
    engine = GeoPackage(str(copy), writes_layers=True)
    engine.ask("UPDATE parcels SET nr = 'new' WHERE fid = 1")
    engine.close()
    own.register.engine.close()
    copy.rename(own.path)
    assert client.get("/collections/parcels/items/1")["properties"] == {"nr": "new"}


def test_gdal_and_owslib_read_a_register_by_its_front(place: Place, tmp_path: Path) -> None:
    own, _ = place
    assert Programs.features is not None
    words = [*OVERLAY, "serve", str(own.path), "--port", "0", "--program", Programs.features]
    run = subprocess.Popen(words, stdout=subprocess.PIPE, text=True, env=SOURCES)
    assert run.stdout is not None
    try:
        address = run.stdout.readline().strip()
        copy = str(tmp_path / "copy.gpkg")
        done = subprocess.run(["ogr2ogr", "-t_srs", f"EPSG:{works.SYSTEM}", copy, f"OAPIF:{address}", "parcels"],
                              capture_output=True, text=True, timeout=SECONDS, check=False)
        assert (done.returncode, done.stderr) == (0, "")
        store = gdal.OpenEx(copy)
        found = {one["nr"]: one.GetGeometryRef().GetEnvelope() for one in store.GetLayer(0)}
        assert found.keys() == {f"p{number}" for number in range(1, 7)}
        assert found["p2"] == pytest.approx((works.EAST + 10, works.EAST + 20, works.NORTH, works.NORTH + 10), abs=1e-3)
        owslib: Any = pytest.importorskip("owslib.ogcapi.features")
        features = owslib.Features(address)
        assert {*features.feature_collections()} == {"parcels", "zones", "overlay_result_pz", "overlay_violation"}
        page = features.collection_items("parcels", limit=4)
        assert (page["numberReturned"], features.collection_item("parcels", "3")["properties"]["nr"]) == (4, "p3")
    finally:
        run.terminate()
        run.wait(timeout=SECONDS)
