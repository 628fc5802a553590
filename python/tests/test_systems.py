"""Tests of the coordinate systems of answers: a store in a projected system, in longitude and
latitude and in its own."""

import unittest
from typing import Any

import pytest

from overlayd.grid import scale as scales
from overlayd.web.map_scale import CRS84, MapScale
from overlayd.web.systems import Projection, Systems, Unplaced, Unprojected, by_pyproj
from .testing import FrontCase, map_scale

pytestmark = pytest.mark.live

OWN = "http://www.opengis.net/def/crs/EPSG/0/30169"
EAST = [[10, 0], [20, 0], [20, 10], [10, 10], [10, 0]]


def to_degrees(xs: Any, ys: Any) -> tuple[list[float], list[float]]:
    """A projection that is easily worked out: x / 8 is the longitude, 30 + y / 16 the latitude."""
    if any(x > 1000 for x in xs):
        raise Unplaced("too far")
    return [x / 8 for x in xs], [30 + y / 16 for y in ys]


def from_degrees(xs: Any, ys: Any) -> tuple[list[float], list[float]]:
    if any(y > 1000 for y in ys):
        raise Unplaced("too far")
    return [x * 8 for x in xs], [(y - 30) * 16 for y in ys]


def degrees(ring: list[list[int]]) -> list[list[float]]:
    return [[x / 8, 30 + y / 16] for x, y in ring]


def swapped(ring: list[list[int]]) -> list[list[int]]:
    return [[y, x] for x, y in ring]


CITY = """PROJCRS["A city's own",BASEGEOGCRS["unknown",DATUM["Unknown based on Airy 1830 ellipsoid",ELLIPSOID[\
"Airy 1830",6377563.396,299.3249646]]],CONVERSION["unknown",METHOD["Transverse Mercator"],PARAMETER[\
"Latitude of natural origin",51.5],PARAMETER["Longitude of natural origin",-0.1],PARAMETER[\
"Scale factor at natural origin",1],PARAMETER["False easting",50000],\
PARAMETER["False northing",50000]],CS[Cartesian,2],AXIS["(E)",east],AXIS["(N)",north],LENGTHUNIT["metre",1]]"""


class Names(unittest.TestCase):
    def test_coordinates_of_another_authority_are_served_as_they_are(self) -> None:
        assert MapScale(scales.Scale(crs="EPSG:25832")).crs == "EPSG:25832"
        other = MapScale(scales.Scale(crs="ESRI:102003"))
        assert (other.crs, other.uri(), other.is_geographic()) == (None, None, False)
        for name in ("nonsense", "EPSG:", "a b:1"):
            with self.assertRaisesRegex(scales.ScaleFault,
                                        "an authority and its code, as EPSG:25832, or Well-Known Text, and not "
                                        f"{name}"):
                MapScale(scales.Scale(crs=name))


class Projected(FrontCase):
    lines = ("PUT plan MULTIPOLYGON (((0 0, 5 0, 5 10, 0 10, 0 0)), ((10 0, 20 0, 20 10, 10 10, 10 0)), "
             "((30 0, 34 0, 34 4, 30 0)))",)
    scale = {"factor": 1, "crs": "EPSG:30169"}
    projection = Projection(to_degrees, from_degrees, y_first=True)

    def ring(self, words: str = "", layer: str = "plan") -> Any:
        told = self.client.ask(f"/collections/{layer}/items/2{words}")
        return told.headers["Content-Crs"], told.value["geometry"]["coordinates"][0]

    def test_items_are_in_longitude_and_latitude_or_in_the_stores_own_system(self) -> None:
        self.client.change("/collections/land", "PUT", {"definition": "plan"})
        self.wait_for("land")
        for layer in ("plan", "land"):
            assert self.ring("", layer) == (f"<{CRS84}>", degrees(EAST))
            assert self.ring(f"?crs={CRS84}", layer) == (f"<{CRS84}>", degrees(EAST))
            assert self.ring(f"?crs={OWN}", layer) == (f"<{OWN}>", swapped(EAST))
        for words in ("", f"?crs={OWN}"):
            page = self.client.ask(f"/collections/plan/items{words}")
            assert page.value["features"][1]["geometry"]["coordinates"] == [self.ring(words)[1]]
            assert page.headers["Content-Crs"] == self.ring(words)[0]
        assert self.client.ask("/collections/plan/items?crs=http://elsewhere").status == 400

    def test_collections_tell_their_systems_and_where_they_lie(self) -> None:
        found = self.client.get("/collections/plan")
        assert (found["crs"], found["storageCrs"]) == ([CRS84, OWN], OWN)
        assert found["extent"]["spatial"] == {"bbox": [[0, 30, 34 / 8, 30 + 10 / 16]], "crs": CRS84}
        assert found["box"] == [0, 0, 34, 10]
        classes = self.client.get("/conformance")["conformsTo"]
        assert "http://www.opengis.net/spec/ogcapi-features-1/1.0/conf/core" in classes
        assert "http://www.opengis.net/spec/ogcapi-features-2/1.0/conf/crs" in classes
        status = self.client.get("/status")
        assert (status["storage"], status["y_first"], status["geographic"]) == (OWN, True, False)

    def test_boxes_are_of_the_system_that_is_said(self) -> None:
        for words, wanted in (
            ("bbox=0,30,0.125,30.0625", [1]), ("bbox=2.4,30.1,3,40", [2]), ("bbox=0.7,30.2,1,30.3", []),
            ("bbox=-180,-90,180,90", [1, 2, 3]), ("bbox=4.2,30.2,4.3,30.3", [3]), ("bbox=3.75,30.2,3.9,30.3", []),
            (f"bbox=0,0,1,1&bbox-crs={OWN}", [1]), (f"bbox=0,30,4,34&bbox-crs={OWN}", [3]),
            (f"bbox=30,0,34,4&bbox-crs={OWN}", []), ("bbox=170,-90,0.5,90", [1]), ("bbox=-540,-99,540,99", [1, 2, 3]),
        ):
            found = self.client.get(f"/collections/plan/items?{words}")["features"]
            assert [one["id"] for one in found] == wanted, words
        assert self.client.ask(f"/collections/plan/items?bbox=5,5,4,4&bbox-crs={OWN}").status == 400
        for box in ("480000,5400000,480100,5400100", "400,30,500,31", "0,91,1,92", "0,-92,1,-91"):
            told = self.client.ask(f"/collections/plan/items?bbox={box}")
            assert (told.status, told.value["description"]) == \
                (400, f"bbox: it is in degrees where bbox-crs names nothing else, as {OWN}")

    def test_a_point_is_of_the_stores_own_system_and_one_out_of_the_plane_is_told_so(self) -> None:
        assert self.client.get("/locate?x=33&y=3")["point"] == [33, 3]
        for page in ("/locate", "/collections/plan/locate"):
            told = self.client.ask(f"{page}?x=139.7&y=3e7")
            assert (told.status, told.value["code"], told.value["description"]) == (
                400, "20",
                f"error 20 point out of range: it is out of the plane; x and y, in this order, are those of {OWN}")

    def test_a_place_that_the_projection_lacks_is_told(self) -> None:
        self.client.change("/collections/far", "PUT", {
            "type": "Polygon", "coordinates": [[[2000, 1000], [2000, 1009], [2009, 1009], [2000, 1000]]]})
        told = self.client.ask("/collections/far/items/1")
        assert (told.status, told.value["description"]) == (409, "too far")


class Unchanged(FrontCase):
    """Without a projection a store in another system is answered as it is, x first."""

    lines = ("PUT A POLYGON ((0 0, 4 0, 4 2, 0 0))",)
    scale = {"factor": 1, "crs": "EPSG:30169"}

    def test_nothing_is_transformed(self) -> None:
        told = self.client.ask("/collections/A/items")
        assert told.value["features"][0]["geometry"]["coordinates"] == [[[0, 0], [4, 0], [4, 2], [0, 0]]]
        assert told.headers["Content-Crs"] == f"<{OWN}>"
        assert self.client.get("/conformance") == {"conformsTo": []}
        told = self.client.ask(f"/collections/A/items?crs={CRS84}")
        assert (told.status, "nothing is transformed" in told.value["description"]) == (400, True)


class OfAnotherAuthority(FrontCase):
    lines = ("PUT A POLYGON ((0 0, 4 0, 4 2, 0 0))",)
    scale = {"factor": 1, "crs": "ESRI:102003"}

    def test_a_point_out_of_the_plane_is_told_the_system(self) -> None:
        told = self.client.ask("/locate?x=3e7&y=0")
        assert told.value["description"].endswith("are those of ESRI:102003"), told.value
        assert self.client.get("/status")["crs"] == "ESRI:102003"


class OfNoAuthority(FrontCase):
    lines = ("PUT A POLYGON ((0 0, 4 0, 4 2, 0 0))",)
    scale = {"factor": 1, "crs": CITY}

    def test_its_text_is_told_and_coordinates_are_as_they_are(self) -> None:
        assert self.client.get("/status")["crs"] == CITY
        told = self.client.ask("/collections/A/items")
        assert told.value["features"][0]["geometry"]["coordinates"] == [[[0, 0], [4, 0], [4, 2], [0, 0]]]
        told = self.client.ask("/locate?x=3e7&y=0")
        assert told.value["description"].endswith('are those of "A city\'s own"'), told.value


class OfAnUnknownSystem(FrontCase):
    lines = ("PUT A POLYGON ((0 0, 4 0, 4 2, 0 0))",)
    scale = {"factor": 1, "crs": None}

    def test_nothing_is_told_of_it(self) -> None:
        assert (self.client.get("/status")["crs"], self.client.get("/status")["geographic"]) == (None, False)


class ByPyproj(unittest.TestCase):
    def test_places_are_those_of_gdal(self) -> None:
        """By GDAL 3.6.2: gdaltransform -s_srs .. -t_srs EPSG:4326, x and y of the system in the order east, north."""
        for crs, place, wanted in (("EPSG:30169", (-6000.0, -35000.0), (139.76380208249523, 35.68771508765569)),
                                   ("EPSG:32119", (640000.0, 230000.0), (-78.66357278493733, 35.82287411802312)),
                                   ("EPSG:25832", (500000.0, 5500000.0), (9.0, 49.65254292355683))):
            projection = by_pyproj(crs)
            [x], [y] = projection.forward([place[0]], [place[1]])
            self.assertAlmostEqual(x, wanted[0], 9)
            self.assertAlmostEqual(y, wanted[1], 9)
            assert projection.y_first == (crs == "EPSG:30169")
            [x], [y] = projection.inverse([x], [y])
            self.assertAlmostEqual(x, place[0], 6)
            self.assertAlmostEqual(y, place[1], 6)

    def test_what_is_no_system_is_told(self) -> None:
        with self.assertRaises(Unprojected):
            by_pyproj("EPSG:999999")
        projection = by_pyproj("EPSG:30169")
        systems = Systems(map_scale(crs="EPSG:30169"), projection)
        with self.assertRaises(Unplaced):
            systems.geometry({"type": "Polygon", "coordinates": [[[1e12, 1e12]]]}, CRS84)
