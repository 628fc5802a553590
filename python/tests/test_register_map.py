"""What the page with the map asks of a register: tiles, shades, violations, pairs, corners, what has changed."""

from pathlib import Path
from typing import Any

import pytest

from overlayd.register.model import Must
from overlayd.register.ruling import add_rule
from overlayd.web import register_map

from . import register_works as works
from . import test_register_postgis as postgis
from .common import TOP
from .test_register_front import Place, ask, client_of, feature, place
from .test_register_postgis import server, words
from .test_register_transactions import box, parcels
from .test_vector_tiles import read

__all__ = ["place", "server", "words"]
pytestmark = pytest.mark.features
E, N = works.EAST, works.NORTH


def rows(found: dict[str, Any]) -> list[dict[str, Any]]:
    """Rows of columns as objects."""
    return [dict(zip(found["columns"], row)) for row in found["rows"]]


def test_a_tile_has_the_features_in_its_box_and_their_names(place: Place) -> None:
    own, client = place
    layers = {one["name"]: one for one in client.get("/map")["layers"]}
    assert (layers["parcels"]["count"], layers["parcels"]["first"], layers["zones"]["first"]) == (6, 0, -2)
    assert layers["parcels"]["box"] == [E, N, E + 30, N + 20]
    for z, name in ((0, None), (3, "p1")):  # a unit has 2^z dots, a tile 512
        told = client.ask(f"/tiles/parcels/{z}/{E * 2**z // 512}/{-(N + 5) * 2**z // 512}.mvt")
        assert (told.status, told.headers["Content-Type"]) == (200, register_map.TILE)
        assert read(told.value)[0][:2] == (1, name)
    path = f"/tiles/parcels/0/{E // 512}/{-(N + 5) // 512}.mvt"
    tag = client.ask(path).headers["ETag"]
    assert client.ask(path, headers={"HTTP_IF_NONE_MATCH": tag}).status == 304
    own.register.engine.ask("DELETE FROM parcels WHERE fid = 1")
    own.refresh()
    told = client.ask(path, headers={"HTTP_IF_NONE_MATCH": tag})
    assert told.status == 200 and [number for number, _, _ in read(told.value)] == [2, 3, 4, 5, 6]
    assert client.ask("/tiles/parcels/0/0/0.mvt").value == b""


def test_what_a_tile_takes_is_bounded(place: Place, monkeypatch: pytest.MonkeyPatch) -> None:
    path = f"/tiles/parcels/0/{E // 512}/{-(N + 5) // 512}.mvt"
    for wrong in ("parcels/33/0/0", "parcels/0/1234567890123/0", "parcels/0/0/x", "fields/0/0/0", "overlay_log/0/0/0"):
        assert place[1].ask(f"/tiles/{wrong}.mvt").status == 404, wrong
    assert place[1].ask(path).status == 200
    for name, most in (("FEATURES_MOST", 5), ("BYTES_MOST", 400)):
        with monkeypatch.context() as one:
            one.setattr(register_map, name, most)
            assert place[1].ask(path).status == 413


def test_a_shade_counts_where_features_have_their_middle(place: Place) -> None:
    found = place[1].get("/collections/parcels/shade")
    assert sum(found["counts"]) == 6 and len(found["counts"]) == found["width"] * found["height"]
    assert found["x"] <= E and found["x"] + found["width"] * found["side"] >= E + 30


def test_violations_are_listed_by_area_rule_box_and_acceptance(place: Place) -> None:
    own, client = place
    engine = own.register.engine
    engine.ask("UPDATE parcels SET geom = ? WHERE fid = 2", works.blob(box(8, 0, 20, 10)))
    engine.ask("UPDATE parcels SET geom = ? WHERE fid = 3", works.blob(box(19.5, 0, 30, 10)))
    engine.ask("UPDATE parcels SET geom = ? WHERE fid = 5", works.blob(box(11, 10, 20, 20)))
    add_rule(own.register, Must.NOT_HAVE_GAPS, "parcels", None, own.program)
    add_rule(own.register, Must.BE_COVERED, "zones", "parcels", own.program)
    own.refresh()
    all_of = client.get("/violations")
    assert [one["area"] for one in rows(all_of)] == pytest.approx([20, 10, 5]) and all_of["count"] == 3
    for asked, wanted in (("least=6", [20, 10]), ("limit=1", [20]), ("rule=1", [20, 5]), ("rule=3", [10]), (
            f"bbox={E},{N},{E + 15},{N + 9}", [20]), (f"bbox={E + 15},{N},{E + 40},{N + 9}&outlines=1", [5])):
        assert [one["area"] for one in rows(client.get(f"/violations?{asked}"))] == pytest.approx(wanted), asked
    (one,) = rows(client.get("/violations?least=15&outlines=1"))
    assert one["outline"]["type"] == "Polygon" and (one["a_id"], one["b_id"]) == ("p1", "p2")
    client.change(f"/violations/{one['id']}/accept", "POST", {"why": "<b>a wall"})
    assert [len(rows(client.get(f"/violations?accepted={flag}"))) for flag in (0, 1)] == [2, 3]
    for wrong in ("bbox=1,2,3", "bbox=a,b,c,d", "least=x", "accepted=2x", "other=1"):
        assert client.ask(f"/violations?{wrong}").status == 400, wrong


def test_a_feature_is_told_with_what_it_overlaps_and_breaks(place: Place) -> None:
    own, client = place
    own.register.engine.ask("UPDATE parcels SET geom = ? WHERE fid = 2", works.blob(box(8, 0, 20, 10)))
    own.refresh()
    found = client.get("/collections/zones/items/1/results")
    first = found["tables"][0]["rows"][0]
    assert [first[name] for name in ("collection", "name", "relation", "area")] == [
        "parcels", "p2", "within", pytest.approx(120)]
    for fid in (1, 2):
        (one,) = rows(client.get(f"/collections/parcels/items/{fid}/results")["violations"])
        assert (one["a_id"], one["b_id"], one["area"]) == ("p1", "p2", pytest.approx(20))
    assert client.ask("/collections/overlay_log/items/1/results").status == 404


@pytest.mark.parametrize("text, wanted", [("p3", [("parcels", 3, "p3")]),
                                          ("p", [("parcels", number, f"p{number}") for number in range(1, 7)]),
                                          ("1", [("zones", 1, "1")]), ("", []), ("%", []), ("'; --", [])])
def test_features_are_found_by_how_their_names_begin(place: Place, text: str, wanted: list[Any]) -> None:
    found = place[1].get(f"/find?text={text}")["features"]
    assert [(one["collection"], one["id"], one["name"]) for one in found] == wanted


def test_a_corner_is_moved_for_all_that_share_it_up_to_the_corners_on_its_borders(place: Place) -> None:
    """(10, 10) is a corner of four; parcel 1 is split so that (10, 5) lies on a border that parcel 2 has in one."""
    own, client = place
    own.register.engine.ask("UPDATE parcels SET geom = ? WHERE fid = 1", works.blob(box(0, 5, 10, 10)))
    own.register.engine.ask("INSERT INTO parcels (geom, nr) VALUES (?, 'p7')", works.blob(box(0, 0, 10, 5)))
    own.refresh()
    found = client.get(f"/collections/parcels/corner?x={E + 10}&y={N + 10}")["features"]
    assert [(one["id"], one["name"], one["added"]) for one in found] == [
        (1, "p1", 0), (2, "p2", 1), (4, "p4", 0), (5, "p5", 0)]
    assert [E + 10, N + 5] in found[1]["geometry"]["coordinates"][0]
    before = parcels(own)

    def changes(to: list[float], *keys: int) -> dict[str, Any]:
        made = []
        for one in found:
            ring = [to if place == [E + 10, N + 10] else place for place in one["geometry"]["coordinates"][0]]
            made.append({"update": "parcels", "id": one["id"], "etag": one["etag"], "feature": {
                "type": "Feature", "geometry": {"type": "Polygon", "coordinates": [ring]}}})
        return {"changes": [one for one in made if not keys or one["id"] in keys]}

    told = ask(client, "/transaction", "POST", changes([E + 11, N + 11], 1))
    assert told.status == 409 and told.value["broken"]
    ring = told.value["broken"][0]["new"]["geometry"]["coordinates"][0]
    assert all(E <= x <= E + 30 and N <= y <= N + 20 for x, y in ring)  # in the system of the question
    told = ask(client, "/transaction", "POST", changes([E + 11, N + 11]))
    assert told.status == 200 and len(told.value["features"]) == 4
    assert ask(client, "/transaction", "POST", changes([E + 12, N + 11])).status == 409  # they are others by now
    own.refresh()
    assert own.ask("SELECT count(*) FROM overlay_violation") == [(0,)]
    client.change(f"/changes/{told.value['change']}/undo", "POST")
    assert parcels(own) == before
    assert client.get(f"/collections/parcels/corner?x={E + 3}&y={N + 3}")["features"] == []


def test_what_has_changed_comes_with_boxes_until_results_have_it(place: Place) -> None:
    own, client = place
    last = client.get("/map")["last"]
    assert client.get(f"/map/changes?after={last}")["changes"] == []
    patched = ask(client, "/collections/parcels/items/6", "PATCH", feature(box(20, 10, 40, 20)))
    assert patched.status == 200
    found = client.get(f"/map/changes?after={last}")
    assert (found["pending"], [one["id"] for one in found["changes"]]) == (True, [6])
    own.refresh()
    found = client.get(f"/map/changes?after={last}")
    assert not found["pending"] and found["changes"][0]["boxes"] == [
        [E + 20, N + 10, E + 40, N + 20], [E + 20, N + 10, E + 30, N + 20]]


def test_the_page_and_its_files_are_sent_with_a_policy(place: Place) -> None:
    told = client_of(place[0].path).ask("/", headers={"HTTP_ACCEPT": "text/html"})
    assert told.status == 200 and b'src="register.js"' in told.value
    assert "script-src 'self'" in told.headers["Content-Security-Policy"]
    for path in (TOP / "python/src/overlayd/web/page").glob("*.js"):
        assert "innerHTML" not in path.read_text(), path
        assert place[1].ask(f"/{path.name}").status == 200


@pytest.mark.skipif(not postgis.IS_THERE, reason="no PostGIS, or no python3-psycopg2")
def test_postgis_answers_as_a_geopackage_does(words: str, tmp_path: Path) -> None:
    places = (postgis.land(words, tmp_path, 3), works.land(tmp_path / "own.gpkg", 3))
    for own in places:
        add_rule(own.register, Must.NOT_OVERLAP, "parcels", None, own.program)
    at = f"{E * 2**5 // 512}/{-(N + 4) * 2**5 // 512}"
    x, y = (axis / works.GRID for axis in works.features_in(places[1].path, "parcels")[1][0][0])
    paths = ("/collections/parcels/shade", "/find?text=p", f"/collections/parcels/corner?x={x}&y={y}")
    seen = []
    for client in (client_of(own.path) for own in places):
        found = client.get("/violations?outlines=1")
        broken = [(one["a_id"], one["b_id"], one["area"], one["outline"]) for one in rows(found)]
        tiles = [client.ask(f"/tiles/{name}/5/{at}.mvt").value for name in ("parcels", "zones")]
        pairs = client.get("/collections/parcels/items/2/results")["tables"]
        layers = [(one["name"], one["count"], one["first"]) for one in client.get("/map")["layers"]]
        seen.append((found["count"], broken, tiles, pairs, layers, *map(client.get, paths)))
    assert seen[0] == seen[1] and seen[0][0] > 3 and all(seen[0][2]) and len(seen[0][-1]["features"]) == 1
