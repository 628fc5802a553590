"""Tests of the front as a function: from the landing page to items, boxes against brute force, tiles, changes."""

import random
import re
import unittest.mock
from decimal import Decimal
from fractions import Fraction
from typing import Any

import pytest

from overlayd.geometry.plane import Box
from overlayd.grid import limits
from overlayd.store.world import rings as rings_of
from overlayd.web.ogc_pages import PAGE
from overlayd.web.views import View
from . import testing
from .test_shapes import Place, meets

from .common import TOP
from .testing import BAR, SHIFTED, SQUARE, TRIANGLE, FrontCase

pytestmark = pytest.mark.live

ROOT = f"http://{testing.HOST}"


def path_of(href: str) -> str:
    if not href.startswith(ROOT):
        raise AssertionError(href)
    return href[len(ROOT) :]


def linked(value: Any, rel: str) -> str:
    """The one link of a kind."""
    (found,) = [link["href"] for link in value["links"] if link["rel"] == rel]
    return path_of(found)


def exact_area(polygon: list[list[Place]]) -> Fraction:
    return (
        sum((a[0] * b[1] - b[0] * a[1] for ring in polygon for a, b in zip(ring, ring[1:] + ring[:1])), Fraction(0)) / 2
    )


def put_lines() -> list[str]:
    """The two outlines of Iceland, as overlay import wrote them."""
    text = (TOP / "python/tests/fixtures/iceland.txt").read_text(encoding="utf-8")
    return [line for line in text.splitlines() if line.startswith("PUT ")]


class Iceland(FrontCase):
    lines = (*put_lines(), "DEFINE both = iceland_110m & iceland_50m", "DEFINE one = iceland_110m ^ iceland_50m",
             "DEFINE none = one & both")
    scale = {"title": "Iceland", "factor": 42262, "factor_y": 100000, "origin": [-19, 65], "unit": "degree",
             "crs": "OGC:CRS84", "digits": 7}

    def polygons(self, name: str) -> list[list[list[Place]]]:
        """The polygons of a derived layer in the world, by the client."""
        with self.server.session() as one:
            rings = rings_of(one, name)
        return [[[(x / 42262 - 19, y / 100000 + 65) for x, y in ring] for ring in polygon] for polygon in rings]

    def test_from_the_landing_page_to_an_item(self) -> None:
        landing = self.client.get("/")
        assert landing["title"] == "Iceland"
        assert self.client.ask(linked(landing, "service-desc")).headers["Content-Type"] == \
            "application/vnd.oai.openapi+json;version=3.0"
        conformance = self.client.get(linked(landing, "conformance"))["conformsTo"]
        assert [one.rsplit("/", 1)[1] for one in conformance] == ["core", "geojson", "oas30"]
        collections = self.client.get(linked(landing, "data"))["collections"]
        assert [one["id"] for one in collections] == ["iceland_110m", "iceland_50m", "both", "one", "none"]
        for one in collections:
            assert self.client.get(linked(one, "self")) == one
            assert (one["itemType"], one["crs"], one["storageCrs"]) == ("feature", one["crs"], one["crs"][0])
            answer = self.client.ask(linked(one, "items"))
            assert answer.headers["Content-Type"] == "application/geo+json"
            items = answer.value
            assert (items["type"], items["revision"]) == ("FeatureCollection", one["revision"])
            assert items["numberMatched"] == len(items["features"])
            for feature in items["features"][:2]:
                item = self.client.get(f"{linked(one, 'self')}/items/{feature['id']}")
                assert {key: item[key] for key in feature} == feature
                assert linked(item, "collection") == linked(one, "self")

    def test_pages_of_items_are_all_of_them(self) -> None:
        whole = self.client.get("/collections/one/items")
        found, path, pages = [], "/collections/one/items?limit=7", 0
        while path:
            page = self.client.get(path)
            assert (page["numberMatched"], page["numberReturned"]) == (whole["numberMatched"], len(page["features"]))
            found += page["features"]
            pages += 1
            path = linked(page, "next") if any(link["rel"] == "next" for link in page["links"]) else ""
        assert found == whole["features"]
        assert pages == -(-len(found) // 7)
        assert linked(page, "prev").count("offset=") == 1

    def test_geometry_is_the_exact_one_rounded(self) -> None:
        for name in ("both", "one", "none"):
            polygons, features = self.polygons(name), self.client.get(f"/collections/{name}/items")["features"]
            assert len(polygons) == len(features)
            for polygon, feature in zip(polygons, features):
                rings = feature["geometry"]["coordinates"]
                assert [len(ring) for ring in rings] == [len(ring) + 1 for ring in polygon]
                for ring, corners in zip(rings, polygon):
                    assert ring[0] == ring[-1]
                    for position, corner in zip(ring, corners):
                        for given, right in zip(position, corner):
                            assert abs(Fraction(Decimal(repr(given))) - right) <= Fraction(1, 2 * 10**7)
                area = Fraction(Decimal(repr(feature["properties"]["area"])))
                assert abs(area - exact_area(polygon)) <= Fraction(1, 2 * 10**7)

    def test_a_base_layer_is_its_rings(self) -> None:
        rings = self.client.get("/collections/iceland_110m/items")["features"][0]["geometry"]["coordinates"]
        with self.server.session() as one:
            text = one.layers()[0].text or ""
        corners = [tuple(map(int, pair.split())) for pair in text.strip("MULTIPOYGN() ").split(", ")][:-1]
        right = {(round(x / 42262 - 19, 7), round(y / 100000 + 65, 7)) for x, y in corners}
        assert {tuple(position) for position in rings[0]} == right
        assert len(rings) == 1

    def test_boxes_against_brute_force(self) -> None:
        polygons, source = self.polygons("one"), random.Random(5)
        sizes = set()
        for number in range(20):
            x, y = source.uniform(-25, -13), source.uniform(63, 67)
            width = source.choice((0, 0.02, 0.5, 3))
            words = [f"{n:.{number % 6}f}" for n in (x, y, x + width, y + width / 2)]
            right = [place for place, polygon in enumerate(polygons, 1) if meets(polygon, Box(*map(Fraction, words)))]
            found = self.client.get(f"/collections/one/items?bbox={','.join(words)}")
            assert [one["id"] for one in found["features"]] == right, words
            assert found["numberMatched"] == len(right)
            sizes.add(len(right))
        assert len(sizes) > 3

    def test_a_box_by_a_corner_in_fractions_is_exact(self) -> None:
        """The least corner of each polygon, most of them crossings, as a box of one point; and a
        box that ends before it."""
        tried = 0
        for number, polygon in enumerate(self.polygons("one"), 1):
            x, y = polygon[0][0]
            before = x - Fraction(1, 10**18)
            words = [f"{n.numerator}/{n.denominator}" for n in (x, y, x, y)]
            if all(len(word) < 40 for word in words):
                found = self.client.get(f"/collections/one/items?bbox={','.join(words)}")["features"]
                assert number in [one["id"] for one in found]
                tried += 1
            words = ["-30", "60", f"{Decimal(before.numerator) / Decimal(before.denominator):.18f}", "70"]
            found = self.client.get(f"/collections/one/items?bbox={','.join(words)}")["features"]
            assert number not in [one["id"] for one in found]
        assert tried > 5

    def test_a_box_over_the_180th_meridian(self) -> None:
        assert self.client.get("/collections/one/items?bbox=170,60,-170,70")["numberMatched"] == 0
        everything = self.client.get("/collections/one/items")["numberMatched"]
        assert self.client.get("/collections/one/items?bbox=170,60,-1,70")["numberMatched"] == everything

    def test_a_box_with_heights(self) -> None:
        assert self.client.get("/collections/one/items?bbox=-20,63,0,-18,64,9")["features"] == \
            self.client.get("/collections/one/items?bbox=-20,63,-18,64")["features"]

    def test_an_extent_is_the_box_of_the_layer(self) -> None:
        self.wait_for("both", "one", "none")
        for name in ("both", "one"):
            corners = [corner for polygon in self.polygons(name) for ring in polygon for corner in ring]
            xs, ys = zip(*corners)
            right = [float(round(n, 7)) for n in (min(xs), min(ys), max(xs), max(ys))]
            assert self.client.get(f"/collections/{name}")["extent"]["spatial"]["bbox"] == [right]
        assert "extent" not in self.client.get("/collections/none")

    def test_points(self) -> None:
        found = self.client.get("/locate?x=-19&y=65")
        assert found == {
                "places": {"iceland_110m": "in", "iceland_50m": "in", "both": "in", "one": "out", "none": "out"},
                "asked": [0, 0, 1], "point": [-19, 65], "exact": True,
            }
        assert self.client.get("/collections/one/locate?x=-19&y=65")["place"] == "out"
        # The first corner of the coarse outline, as it is stored, and what lies a hair beside it.
        corner = f"x={189812 - 19 * 42262}/42262&y={145589 + 65 * 100000}/100000"
        assert self.client.get(f"/locate?{corner}")["places"]["iceland_110m"] == "edge"
        found = self.client.get(f"/locate?x={189812 - 19 * 42262}/42262&y=66.455890001")
        assert (found["exact"], found["asked"][2]) == (False, 1024)
        assert found["places"]["iceland_110m"] == "edge"

    def test_tiles_are_the_pieces_of_columns(self) -> None:
        self.wait_for("both")
        found = self.client.get("/collections/both/tiles")
        assert [tile["column"] for tile in found["tiles"]] == list(range(limits.COLUMNS))
        with self.server.session() as one:
            columns = one.columns("both")
        for tile, pieces in zip(found["tiles"], columns):
            assert tile["lines"] == [[self.store.scale.position(end) for end in piece] for piece in pieces or ()]
        some = self.client.get("/collections/both/tiles?columns=14,3,14")["tiles"]
        assert some == [found["tiles"][3], found["tiles"][14]]

    def test_what_has_not_changed_is_not_sent_again(self) -> None:
        first = self.client.ask("/collections/both/items")
        again = self.client.ask("/collections/both/items", headers={"HTTP_IF_NONE_MATCH": first.headers["ETag"]})
        assert (again.status, again.value) == (304, b"")
        assert "Content-Length" not in again.headers

    def test_headers(self) -> None:
        answer = self.client.ask("/collections/both/items?limit=1")
        assert answer.headers["Content-Crs"] == "<http://www.opengis.net/def/crs/OGC/1.3/CRS84>"
        for path in ("/", "/nowhere", "/status"):
            headers = self.client.ask(path).headers
            assert headers["X-Content-Type-Options"] == "nosniff"
            assert "default-src 'none'" in headers["Content-Security-Policy"]
            assert "Access-Control-Allow-Origin" not in headers
        head = self.client.ask("/status", "HEAD")
        assert (head.status, head.value) == (200, b"")
        assert head.headers["Content-Length"] == self.client.ask("/status").headers["Content-Length"]

    def test_the_page_is_for_browsers(self) -> None:
        accept = {"HTTP_ACCEPT": "text/html,application/xhtml+xml"}
        for page in (self.client.ask("/", headers=accept), self.client.ask("/?f=html")):
            assert (page.status, page.headers["Content-Type"]) == (200, "text/html; charset=utf-8")
        assert self.client.ask("/?f=json", headers=accept).headers["Content-Type"] == "application/json"
        names = [path.name for path in PAGE.iterdir() if path.suffix != ".html"]
        assert len(names) > 4
        for name in names:
            assert self.client.ask(f"/{name}").status == 200, name
        for file in PAGE.iterdir():
            self.assertNotRegex(file.read_text(encoding="utf-8"), "https?:", file.name)

    def test_a_file_that_has_not_changed_is_not_sent_again_and_a_part_may_be_asked(self) -> None:
        for path in ("/map.js", "/leaflet/leaflet.js", "/?f=html"):
            whole = self.client.ask(path)
            assert whole.status == 200, path
            for name, word in (("HTTP_IF_NONE_MATCH", "ETag"), ("HTTP_IF_MODIFIED_SINCE", "Last-Modified")):
                again = self.client.ask(path, headers={name: whole.headers[word]})
                assert (again.status, again.value) == (304, b""), (path, word)
                assert "default-src 'none'" in again.headers["Content-Security-Policy"]
            some = self.client.ask(path, headers={"HTTP_RANGE": "bytes=3-9"})
            assert (some.status, some.value) == (206, whole.value[3:10]), path
            assert some.headers["Content-Range"] == f"bytes 3-9/{len(whole.value)}"
            beyond = self.client.ask(path, headers={"HTTP_RANGE": f"bytes={len(whole.value)}-"})
            assert (beyond.status, beyond.value["code"]) == (416, "416")
            assert beyond.headers["Content-Range"] == f"bytes */{len(whole.value)}"
        assert self.client.ask("/map.js").headers["Cache-Control"] == "no-cache"
        assert "max-age=86400" in self.client.ask("/leaflet/leaflet.js").headers["Cache-Control"]

    def test_what_is_refused_is_told_beside_it(self) -> None:
        """Each form of the page, and its head, has a place of its own for what is reported, and the
        scripts know these."""
        folder = PAGE
        parts = re.split(r"<(?=section|header|footer)", (folder / "map.html").read_text(encoding="utf-8"))
        places = {place: part for part in parts for place in re.findall(r'id="(told[a-z-]*)"', part)}
        for place, beside in (("told", 'id="status"'), ("told-layers", 'id="layers"'), ("told-define", 'id="define"'),
                              ("told-asking", 'id="asking"')):
            assert beside in places[place]
        script = "".join(file.read_text(encoding="utf-8") for file in folder.glob("*.js"))
        assert set(re.findall(r'"(told[a-z-]*)"', script)) - set(places) == set()
        assert {"told-define", "told-asking", "told-layers"} <= set(re.findall(r'"(told[a-z-]+)"', script))


class Changes(FrontCase):
    """A front that is writable, of a plane with two numbers after the point."""

    scale = {"title": "Plane", "factor": 100, "origin": [500, 0], "unit": "m", "crs": "EPSG:32633", "digits": 4}
    square = {"type": "Polygon", "coordinates": [[[500, 0], [500.1, 0], [500.1, 0.1], [500, 0.1], [500, 0]]]}

    def setUp(self) -> None:
        with self.server.session() as one:
            for layer in reversed(one.layers()):
                self.client.change(f"/collections/{layer.name}", "DELETE")
        self.began = self.store.version

    def test_layers_are_put_defined_and_dropped(self) -> None:
        made = self.client.change("/collections/A", "PUT", self.square)
        assert made == {"version": self.began + 1, "durable": None, "moved": 0.0}
        made = self.client.change(
            "/collections/B",
            "PUT",
            {
                "type": "Feature",
                "geometry": self.square | {"coordinates": [[[500.05, 0.051], [501, 0.05], [501, 1], [500.05, 0.051]]]},
            },
        )
        self.assertAlmostEqual(made["moved"], 0.001)
        self.client.change("/collections/I", "PUT", {"definition": " A & B"})
        status = self.client.get("/status")
        assert (status["version"], status["durable"], status["layers"]) == (self.began + 3, None, 3)
        assert self.client.get("/collections/I")["definition"] == "A & B"
        assert self.client.get("/locate?x=500.08&y=0.07")["places"] == {"A": "in", "B": "in", "I": "in"}
        assert self.client.get("/locate?x=500.1&y=0.02")["places"]["I"] == "edge"
        self.client.change("/collections/I", "DELETE")
        assert self.client.ask("/collections/I").status == 404

    def test_a_batch_is_one_version_or_none(self) -> None:
        commands = [{"put": "A", "geometry": self.square}, {"put": "B", "geometry": self.square},
                    {"define": "I", "definition": "A - B"}]
        assert self.client.change("/batch", "POST", {"commands": commands})["version"] == self.began + 1
        refused = self.client.ask("/batch", "POST", {"commands": [{"drop": "I"}, {"drop": "Z"}]})
        assert (refused.status, refused.value["code"], refused.value["command"]) == (404, "10", 1)
        assert [one["id"] for one in self.client.get("/collections")["collections"]] == ["A", "B", "I"]
        assert self.client.change("/batch", "POST", {"commands": [{"drop": "I"}]})["version"] == self.began + 2

    def test_a_layer_without_rings_can_be_put(self) -> None:
        for kind in ("Polygon", "MultiPolygon"):
            self.client.change("/collections/E", "PUT", {"type": kind, "coordinates": []})
            with self.server.session() as one:
                assert {layer.name: layer.text for layer in one.layers()}["E"] == "MULTIPOLYGON EMPTY"
            assert self.client.get("/collections/E/items")["features"] == []
            self.client.change("/collections/E", "DELETE")

    def test_a_change_of_one_layer_leaves_the_revision_of_another(self) -> None:
        self.client.change("/collections/A", "PUT", self.square)
        self.client.change("/collections/I", "PUT", {"definition": "A"})
        before = self.client.get("/collections/I")["revision"]
        self.client.change("/collections/B", "PUT", self.square)
        assert self.client.get("/collections/I")["revision"] == before
        self.client.change("/collections/A", "PUT", self.square | {"coordinates": []})
        after = self.client.get("/collections/I")
        assert after["revision"] != before
        assert "extent" not in after
        assert self.client.get("/collections/I/items")["features"] == []
        self.client.change("/collections/A", "PUT", self.square)
        assert self.client.get("/collections/I")["revision"] == before

    def test_pages_go_on_with_their_revision(self) -> None:
        two = {"type": "MultiPolygon",
               "coordinates": [self.square["coordinates"], [[[502, 0], [503, 0], [503, 1], [502, 0]]]]}
        self.client.change("/collections/A", "PUT", two)
        page = self.client.get("/collections/A/items?limit=1")
        self.client.change("/collections/A", "PUT", self.square)
        rest = self.client.get(linked(page, "next"))
        assert (rest["numberMatched"], rest["features"][0]["id"]) == (2, 2)
        assert self.client.get("/collections/A/items")["numberMatched"] == 1
        assert self.client.ask("/collections/A/items?revision=0123").status == 409

    def test_tiles_that_are_pending_are_null(self) -> None:
        lines = [
            f"PUT {name} {testing.star(440, x, y)}"
            for name, x, y in (("A", -150_000, 0), ("B", 170_000, 60_000), ("C", 0, -190_000))
        ]
        self.store.change([*lines, "DEFINE D = (A ^ B) & C"])
        seen = [tile["lines"] for tile in self.client.get("/collections/D/tiles?columns=31,32")["tiles"]]
        self.client.get("/collections/D")  # its extent, though it may be pending
        self.wait_for("D")
        built = [tile["lines"] for tile in self.client.get("/collections/D/tiles?columns=31,32")["tiles"]]
        assert None not in built
        assert all(one in (None, right) for one, right in zip(seen, built))

    def extent(self, name: str) -> Box | None:
        with self.store.view() as view:
            return view.extent(name)

    def test_of_a_layer_that_is_not_built_the_extent_is_that_of_what_it_reaches(self) -> None:
        self.store.change([f"PUT A {SQUARE}", f"PUT B {SHIFTED}", f"PUT C {BAR}", "DEFINE I = A & B"])
        self.wait_for("I")
        assert self.extent("I") == Box(*map(Fraction, (5, 5, 10, 10)))
        self.store.change([f"PUT A {SQUARE.replace('10', '11')}"])
        with unittest.mock.patch.object(View, "columns", return_value=[None]):
            assert self.extent("I") == Box(*map(Fraction, (0, 0, 15, 15)))
        self.wait_for("I")
        assert self.extent("I") == Box(*map(Fraction, (5, 5, 11, 11)))

    def test_corners_are_written_with_the_digits_of_the_scale(self) -> None:
        self.store.change([f"PUT T {TRIANGLE}", f"PUT S {BAR}", "DEFINE I = T & S"])
        ring = self.client.get("/collections/I/items")["features"][0]["geometry"]["coordinates"][0]
        assert ring == [[500.01, 0.0033], [500.02, 0.0067], [500.02, 0.0133], [500.01, 0.0167], [500.01, 0.0033]]
        assert self.client.get("/conformance") == {"conformsTo": []}
        assert self.client.get("/collections/I")["storageCrs"] == "http://www.opengis.net/def/crs/EPSG/0/32633"
