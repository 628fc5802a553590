"""Tests of the questions over maps by their words: tables of small maps, and what is refused."""

import csv
import json
import os
import pathlib
import subprocess
from dataclasses import replace
from typing import Any
from unittest import mock

import numpy as np
import pytest
from osgeo import gdal

from overlayd.api.pieces import Pieces
from overlayd.commands import check, derive, pairs, pieces
from overlayd.files import writing
from .common import InFolder, Programs, outcome

pytestmark = pytest.mark.features
Position = list[float]


def square(x: float, y: float, side: float) -> list[Position]:
    return [[x, y], [x + side, y], [x + side, y + side], [x, y + side], [x, y]]


QUESTIONS = {"pairs": pairs, "check": check, "derive": derive, "pieces": pieces}


class WithMaps(InFolder):
    def map(self, name: str, rings: dict[str, Any], crs: str | None = None) -> pathlib.Path:
        """A map of polygons of one ring each, or of what else has a geometry's form."""
        features = [{"type": "Feature", "properties": {"nr": called}, "geometry": of if isinstance(of, dict) else
                     {"type": "Polygon", "coordinates": [of]}} for called, of in rings.items()]
        whole: dict[str, Any] = {"type": "FeatureCollection", "features": features}
        if crs:
            whole["crs"] = {"type": "name", "properties": {"name": crs}}
        return self.file(f"{name}.geojson", json.dumps(whole))

    def asked(self, question: str, *words: object) -> tuple[int, list[list[str]], str]:
        """The status, the rows of the table, and what was reported."""
        words = *words, "--program", Programs.features, "--processes", 1
        status, output, errors = outcome(QUESTIONS[question], *words)
        return status, list(csv.reader(output.splitlines())), errors

    def refused(self, question: str, *words: object) -> str:
        """The line of a refusal."""
        status, rows, errors = self.asked(question, *words)
        assert (status, rows) == (2, []), errors
        assert errors.count("\n") == errors.strip().count("\n") + 1
        return errors.strip().splitlines()[-1]


def short(rows: list[list[str]]) -> list[list[object]]:
    """Of each row below the heads its features, its relation and its area."""
    return [[*(row[rows[0].index(head)] for head in ("a", "b", "relation")), float(row[rows[0].index("area")])]
            for row in rows[1:]]


class Tables(WithMaps):
    def test_pairs(self) -> None:
        a = self.map("a", {"P1": square(0, 0, 10), "P2": square(10, 0, 10), "P3": [[30, 0], [33, 1], [30, 2], [30, 0]]})
        b = self.map("b", {"Z1": square(5, -5, 10), "Z2": square(20, -3, 5),
                           "Z3": [[29, 0], [30.5, 0], [30.5, 2], [29, 0]]})
        words = "pairs", a, b, "--factor", 10, "--a-id", "nr", "--b-id", "nr"
        status, rows, errors = self.asked(*words)
        # With u = x - 30 from 0 to 1/2 between u / 3 and the less of 2 - u / 3 and 4 (u + 1) / 3.
        wanted = [["P1", "Z1", "overlaps", 25.0], ["P2", "Z1", "overlaps", 25.0], ["P3", "Z3", "overlaps", 47 / 60],
                  ["P2", "Z2", "touches", 0.0]]
        assert (status, short(rows)) == (0, [[*row[:3], own[3]] for row, own in zip(wanted, short(rows))])
        for row, own in zip(rows[1:], wanted):
            assert abs(float(row[3]) - float(str(own[3]))) <= float(row[4])
        assert "3 pairs overlap, 1 touch; areas sum to 50.7833333333, off by at most " in errors
        assert "nothing is rounded: all coordinates lie on the grid of 0.1 degree\n" in errors
        assert self.asked(*words[:3], "--grid", "1/10", *words[5:])[:2] == (0, rows)

    def test_widths_and_fractions(self) -> None:
        a = self.map("a", {"P1": square(0, 0, 10), "P3": [[30, 0], [33, 1], [30, 2], [30, 0]]})
        b = self.map("b", {"Z1": square(5, -5, 10), "Z3": [[29, 0], [30.5, 0], [30.5, 2], [29, 0]]})
        status, rows, _ = self.asked("pairs", a, b, "--factor", 10, "--exact", "--width")
        assert (status, rows[0][-2:]) == (0, ["width", "area_exact"])
        assert [(f"{float(row[-2]):.4g}", row[-1]) for row in rows[1:]] == [("1.25", "25"), ("0.1822", "47/60")]

    def test_tables_of_other_forms(self) -> None:
        a, b = self.map("a", {"P": square(0, 0, 10)}), self.map("b", {"Z": square(5, 0, 10)})
        assert self.asked("pairs", a, b, "--out", self.folder / "t.npy")[0] == 0
        found = np.load(self.folder / "t.npy")
        assert (found["a"].tolist(), found["b"].tolist(), found["area"].tolist()) == ([0], [0], [50.0])
        assert self.asked("pairs", a, b, "--out", self.folder / "t.gpkg", "--a-id", "nr")[0] == 0
        file = gdal.OpenEx(str(self.folder / "t.gpkg"), gdal.OF_VECTOR)
        assert [(one["a"], one["b"], one["area"]) for one in file.GetLayer(0)] == [("P", "1", 50.0)]
        assert "--out t.dbf: tables are written as .csv, .npy, .gpkg" in self.asked("pairs", a, b, "--out", "t.dbf")[2]

    def test_features_are_chosen(self) -> None:
        a = self.map("a", {"P1": square(0, 0, 10), "P2": square(10, 0, 10)})
        b = self.map("b", {"Z1": square(5, -5, 10), "Z2": square(20, -3, 5)})
        words = "pairs", a, b, "--a-id", "nr", "--b-id", "nr"
        for where, names in (("--where", ["P2", "P2"]), ("--a-where", ["P2", "P2"])):
            rows = self.asked(*words, where, "nr = 'P2'")[1]
            assert [row[0] for row in rows[1:]] == names
        assert short(self.asked(*words, "--b-where", "nr = 'Z2'")[1]) == [["P2", "Z2", "touches", 0.0]]
        assert "a.geojson: " in self.refused(*words, "--where", "no = 1")

    def test_a_table_of_pieces_is_not_written_into_a_file_of_shapes(self) -> None:
        a, b = self.map("a", {"P": square(0, 0, 10)}), self.map("b", {"Q": square(5, 5, 10)})
        for name in ("pieces.gpkg", "pieces.geojson"):
            status, _, errors = self.asked("pieces", a, b, "--out", self.folder / name)
            assert (status, (self.folder / name).exists()) == (2, False)
            assert f"say --pieces {self.folder / name} for the shapes" in errors

    def test_pieces(self) -> None:
        a, b = self.map("a", {"P": square(0, 0, 10)}), self.map("b", {"Z": square(5, 0, 10), "Y": square(5, 5, 10)})
        shapes = self.folder / "pieces.geojson"
        words = "pieces", a, b, "--factor", 1, "--a-id", "nr", "--b-id", "nr"
        status, rows, errors = self.asked(*words, "--pieces", shapes)
        whole = [["", "Y", "alone", 75.0], ["P", "Z", "overlaps", 50.0], ["P", "", "alone", 50.0],
                 ["", "Z", "alone", 50.0], ["P", "Y", "overlaps", 25.0]]
        assert (status, short(rows)) == (0, whole)
        assert [row[4] for row in rows] == ["width", "1.875", "1.667", "1.667", "1.667", "1.25"]
        assert "audit: 1 of 1 features of a are the sum of their pieces" in errors
        assert "audit: 2 of 2 features of b are the sum of their pieces" in errors
        found = json.loads(shapes.read_text())["features"]
        assert sorted((one["properties"]["a"], one["properties"]["b"], one["properties"]["area"]) for one in found) == \
            [("", "Y", 75.0), ("", "Z", 50.0), ("P", "", 50.0), ("P", "Y", 25.0), ("P", "Z", 50.0)]
        common = next(one["geometry"] for one in found if one["properties"] == {"a": "P", "b": "Y", "area": 25.0})
        assert set(map(tuple, common["coordinates"][0][0])) == {(5, 5), (5, 10), (10, 5), (10, 10)}
        for how, places in (("intersection", (1, 4)), ("identity", (1, 2, 4)), ("difference", (2,)),
                            ("symmetric_difference", (0, 2, 3))):
            assert short(self.asked(*words, "--how", how)[1]) == [whole[place] for place in places]

    def test_check(self) -> None:
        whole = self.map("a", {"left": [[0, 0], [4, 0], [4, 9], [0, 9], [0, 0]],
                               "right": [[6, 0], [9, 0], [9, 9], [6, 9], [6, 0]],
                               "low": [[3, 0], [7, 0], [7, 3], [3, 3], [3, 0]],
                               "top": [[4, 7], [6, 7], [6, 9], [4, 9], [4, 7]]})
        status, rows, errors = self.asked("check", whole, "--factor", 1, "--a-id", "nr")
        assert (status, short(rows)) == (0, [[one, "low", "overlaps", 3.0] for one in ("left", "right")])
        assert "2 pairs overlap, and sum to 6, " in errors
        assert "audit: what is covered (73) and what is open are the whole frame, and areas less overlaps\n" in errors
        gaps = self.folder / "gaps.geojson"
        status, _, errors = self.asked("check", whole, "--factor", 1, "--a-id", "nr", "--gaps", gaps)
        assert [one["properties"]["area"] for one in json.loads(gaps.read_text())["features"]] == [8.0]
        assert "1 gaps, and sum to 8; the largest has 8" in errors

    def test_derive(self) -> None:
        flood = self.map("f", {"F": square(0, 0, 10)})
        slide = self.map("s", {"S": square(5, 0, 10), "T": square(6, 1, 2)})
        parks = self.map("p", {"P": square(0, 5, 20)})
        maps = [f"flood={flood}", f"slide={slide}", f"parks={parks}"]
        status, rows, errors = self.asked("derive", "(flood | slide) - parks", *maps)
        assert (status, rows[0], float(rows[1][0])) == (0, ["area", "bound"], 75.0), errors
        assert "no map woods; say one of: flood, parks, slide" in self.refused("derive", "flood - woods", *maps)
        assert "a map is named as NAME=FILE" in self.asked("derive", "flood", str(flood))[2]
        out = self.folder / "d.geojson"
        assert self.asked("derive", "(flood | slide) - parks", *maps, "--out", out)[0] == 0
        assert [one["properties"] for one in json.loads(out.read_text())["features"]] == [{"area": 75.0}]

    def test_three_features_on_each_other_and_one_that_crosses_itself(self) -> None:
        whole = self.map("a", {"A": square(0, 0, 6), "B": square(2, 2, 6), "C": square(4, 0, 6),
                               "bow": [[20, 0], [24, 4], [24, 0], [20, 4], [20, 0]]})
        status, rows, errors = self.asked("check", whole, "--factor", 1, "--a-id", "nr")
        assert (status, [[*row[:2], row[3]] for row in short(rows)]) == \
            (0, [["A", "B", 16.0], ["B", "C", 16.0], ["A", "C", 12.0]])
        assert "overlaps, and 8 lies in three features or more\n" in errors

    def test_a_wrong_answer_fails_the_audit(self) -> None:
        a, b = self.map("a", {"P": square(0, 0, 10)}), self.map("b", {"Z": square(5, 0, 10)})
        right = pieces.all_pieces

        def wrong(*words: Any) -> Pieces:
            found = right(*words)
            assert found.first is not None
            rows = found.first.rows.copy()
            rows["both"]["low"] += np.uint64(2**45)
            return replace(found, first=replace(found.first, rows=rows))

        with mock.patch.object(pieces, "all_pieces", wrong):
            status, _, errors = self.asked("pieces", a, b, "--factor", 1, "--a-id", "nr", "--b-id", "nr")
        assert "audit: 1 features of a are NOT the sum of their pieces: P\n" in errors
        assert status == 1

    def test_a_feature_that_stands_twenty_times(self) -> None:
        ring = square(2, 2, 5)[:-1]
        turned = [ring[at % 4 :] + ring[: at % 4] for at in range(20)]
        b = self.map("b", {f"Z{at}": [*own, own[0]] for at, own in enumerate(turned)})
        status, rows, errors = self.asked("pieces", self.map("a", {"P": square(0, 0, 10)}), b, "--factor", 1)
        assert [row[3] for row in short(rows) if row[2] == "alone"] == [75.0]
        assert "audit: 1 of 1 features of a are the sum of their pieces\n" in errors
        assert "audit: 20 of 20 features of b are the sum of their pieces\n" in errors
        assert status == 0

    def test_an_island_in_a_hole_and_long_edges(self) -> None:
        ring = {"type": "Polygon", "coordinates": [square(0, 0, 3000), square(1000, 1000, 1000)]}
        a = self.map("a", {"frame": ring, "island": square(1200, 1200, 100)})
        b = self.map("b", {"all": square(-10, -10, 4000)})
        status, rows, errors = self.asked("pairs", a, b, "--factor", 1000, "--bend", "--a-id", "nr", "--b-id", "nr")
        assert short(rows) == [["frame", "all", "within", 8e6], ["island", "all", "within", 1e4]]
        assert "12 long edges bent at 60 places, by at most half a unit of the grid" in errors
        assert status == 0


class Refusals(WithMaps):
    """Each in one line with the file, the feature and what to do; nothing is written."""

    def setUp(self) -> None:
        super().setUp()
        self.good = self.map("good", {"G": square(0, 0, 10)})

    def line(self, file: pathlib.Path, *words: object) -> str:
        out = self.folder / "out.csv"
        told = self.refused("pairs", self.good, file, "--factor", 1000, *words, "--out", out)
        assert {path.suffix for path in self.folder.iterdir()} - {".geojson", ".json"} == set()
        return told.replace(f"{self.folder}/", "")

    def test_a_property_that_is_not_there(self) -> None:
        assert self.line(self.map("b", {"Z": square(0, 0, 1), "Y": square(2, 0, 1)}), "--b-id", "code") == \
            "b.geojson, feature 1: no property code; say one of: nr"
        empty = self.map("c", {"Z": square(0, 0, 1), "Y": square(2, 0, 1)})
        empty.write_text(empty.read_text().replace('"Y"', "null"))
        assert self.line(empty, "--b-id", "nr") == \
            "c.geojson, feature 2: no nr; say another property, that each feature has"

    def test_a_ring_that_is_not_closed(self) -> None:
        assert self.line(self.map("b", {"Z": [[0, 0], [1, 0], [1, 1], [0, 1]]})) == \
            "b.geojson, feature 1: a ring whose last point is not its first, 0 0; mend it there"
        rings = {str(k): square(2 * k, 0, 1)[: 4 + (k == 1)] for k in range(13)}
        self.assertEqual(self.line(self.map("c", rings)),
                         "c.geojson, feature 1: a ring whose last point is not its first, 0 0; mend it there; 11 more "
                         f"to be mended: {', '.join(f'feature {k}' for k in range(3, 13))}, ..")

    def test_a_coordinate_that_is_none(self) -> None:
        ring: list[Any] = [[0, 0], [1, 0], [1, "x"], [0, 0]]
        assert "b.geojson, feature 1: a coordinate that is no number: 'x'; mend it" in \
            self.line(self.map("b", {"Z": ring}))
        assert "c.geojson, feature 1: coordinate 1000000000000000.0 is beyond 2^41 units; say --grid 1000, or " in \
            self.line(self.map("c", {"Z": [[0, 0], [1, 0], [1e15, 1], [0, 0]]}))
        assert "coordinates of another form" in self.line(self.map("d", {"Z": {"type": "Polygon", "coordinates": 5}}))

    def test_what_is_no_map(self) -> None:
        assert "b.json: " in self.line(self.file("b.json", "{"))
        assert "a map is GeoJSON" in self.line(self.file("b.json", "{"))
        assert "No such file" in self.refused("pairs", self.good, self.folder / "none.geojson", "--factor", 1)

    def test_numbers_that_are_no_degrees_are_not_taken_for_them(self) -> None:
        unnamed, utm = (self.map(name, {"Z": square(480000, 5400000, 1)}, crs)
                        for name, crs in (("u", None), ("v", "urn:ogc:def:crs:EPSG::25832")))
        for one, other in ((unnamed, utm), (utm, unnamed), (unnamed, unnamed)):
            status, rows, errors = self.asked("pairs", one, other, "--factor", 1)
            assert (status, [float(row[3]) for row in rows[1:]]) == (0, [1]), errors
        degrees = self.map("w", {"Z": square(480000, 5400000, 1)}, "urn:ogc:def:crs:OGC:1.3:CRS84")
        assert "w.geojson has coordinates of OGC:CRS84" in self.refused("pairs", degrees, utm, "--factor", 1)

    def test_a_text_s_srid_is_its_system(self) -> None:
        text = "SRID={};POLYGON ((0 0, 1 0, 0 1, 0 0))\n"
        utm, parted, degrees, none = (self.file(f"{name}.wkt", "".join(map(text.format, numbers)))
                                      for name, numbers in (
            ("utm", (25832, 25832)), ("parted", (25832, 25833)), ("degrees", (4326,)), ("none", (0, "00"))))
        for other, reason in ((self.good, f"{self.good} has coordinates of OGC:CRS84, {utm} of EPSG:25832"),
                              (degrees, f"{degrees} has coordinates of EPSG:4326, {utm} of EPSG:25832")):
            assert reason in self.refused("pairs", other, utm, "--factor", 1)
        assert f"{parted}: SRIDs 25832, 25833; bring" in self.refused("check", parted, "--factor", 1)
        for one, other in ((utm, utm), (degrees, self.good), (none, utm), (none, self.good)):
            assert self.asked("pairs", one, other, "--factor", 1)[0] == 0
        for odd in ("SRID=x;", "SRID=1.5;", "SRID 4;", "SRID=-1;"):
            file = self.file("odd.wkt", odd + "POLYGON ((0 0, 1 0, 0 1, 0 0))")
            assert "odd.wkt: " in self.refused("check", file, "--factor", 1)

    def test_degrees_by_either_name(self) -> None:
        file = self.map("b", {"Z": square(0, 0, 1)}, "urn:ogc:def:crs:EPSG::4326")
        assert self.asked("pairs", self.good, file, "--factor", 1000)[0] == 0

    def test_features_that_are_called_alike_are_told(self) -> None:
        rings = [[[x, 0], [x + 9, 0], [x, 9], [x, 0]] for x in (0, 10, 20, 30)]
        features = [{"type": "Feature", "properties": {"nr": name},
                     "geometry": {"type": "Polygon", "coordinates": [ring]}}
                    for name, ring in zip("ABAA", rings)]
        whole = self.file("a.json", json.dumps({"type": "FeatureCollection", "features": features}))
        for words, wanted in ((["--a-id", "nr"], True), ([], False)):
            status, _, errors = self.asked("check", whole, "--factor", 1, *words)
            assert (status, f"{whole}: the same nr several times, 1: A (3 times)\n" in errors) == (0, wanted), errors
            assert " of 0 tasks" not in errors

    def test_what_is_left_out_is_told(self) -> None:
        file = self.map("b", {"Z": square(0, 0, 1), "point": {"type": "Point", "coordinates": [0, 0]},
                              "thin": [[0, 0], [1e-5, 0], [0, 1e-5], [0, 0]]})
        status, rows, errors = self.asked("pairs", self.good, file, "--factor", 1000, "--b-id", "nr")
        assert (status, [row[1] for row in rows[1:]]) == (0, ["Z"])
        assert "left out, 1: " in errors
        assert "feature 2 (point): no polygon: POINT\n" in errors
        assert "; 1 rings collapsed\n" in errors
        self.assertRegex(errors, r"nothing is left on the grid of 1: .*b.geojson, feature 3 \(thin\)\n")
        assert "rounded to 0.001 degree: no border moves by more than 1e-05 an axis; " in errors

    def test_a_map_without_a_polygon(self) -> None:
        for text, reason in (
                ('{"features": 5}', "left out, 1: b.json: no polygon: NONE"),
                ('{"type": "FeatureCollection", "features": 5}', 'b.json: "features" that are no list; mend it there'),
                ('{"type": "FeatureCollection", "features": []}', "b.json: no polygon in it"),
                ("", "b.json: no polygon in it"),
                ('{"type": "Topology", "objects": {}}', "left out, 1: b.json: no polygon: TOPOLOGY"),
                (json.dumps({"type": "FeatureCollection", "features": [None] * 12}), "; and 2 more"),
                ('{"type": "Feature", "geometry": null}',
                 "1: b.json, feature 1: no polygon: a feature without a geom")):
            with self.subTest(text):
                file = self.file("b.json", text)
                assert reason in self.line(file)
                assert "b.json: " in self.refused("check", file, "--factor", 1)

    def test_a_collection_with_a_point_has_its_polygons(self) -> None:
        point: dict[str, Any] = {"type": "Point", "coordinates": [0, 0]}
        polygons = [{"type": "Polygon", "coordinates": [square(at, 0, 2)]} for at in (0, 5)]
        file = self.map("b",
                        {"two": {"type": "GeometryCollection", "geometries": [polygons[0], point, polygons[1], point]},
                         "none": {"type": "GeometryCollection", "geometries": [point, point]},
                         "last": square(8, 0, 1)})
        status, rows, errors = self.asked("pairs", self.good, file, "--factor", 1)
        assert (status, [[row[1], float(row[3])] for row in rows[1:]]) == (0, [["1", 8], ["3", 1]])
        assert "left out, 4: " in errors
        assert "feature 1, member 2: no polygon: POINT; " in errors

    def test_maps_go_by_their_content_and_not_by_their_names(self) -> None:
        text = self.good.read_text()
        for name in ("a.gpkg", "a.txt", "a.shp", "a", "a.csv", "a.GEOJSON", ".json"):
            status, rows, errors = self.asked("pairs", self.file(name, f" \n{text}"), self.good, "--factor", 1)
            assert (status, [float(row[3]) for row in rows[1:]]) == (0, [100]), (name, errors)
            utm = self.file("utm.wkt", "SRID=25832;POLYGON ((0 0, 1 0, 0 1, 0 0))")
            assert "has coordinates of OGC:CRS84" in self.refused("pairs", self.folder / name, utm, "--factor", 1)
        for name in ("a.geojson", "a.json", "a.wkt", "a"):
            for begin in (b"SQLite format 3\0", b"fgb\3", b"\0\0\x27\x0a"):
                told = self.refused("check", self.file(name, begin + b"\0" * 200), "--factor", 1)
                assert "a map is GeoJSON" not in told
        assert "and Well-Known Text have no layers" in self.refused("check", self.good, "--factor", 1, "--a-layer", "x")

    def test_a_name_of_no_letter_and_a_folder(self) -> None:
        for words in (("", self.good), (self.good, "")):
            assert self.refused("pairs", *words, "--factor", 1) == \
                "a map is named by a word without a letter; say a file"
        assert f"{self.folder}: " in self.refused("check", self.folder, "--factor", 1)

    def test_what_has_no_polygon_takes_a_number_all_the_same(self) -> None:
        one = {"type": "Feature", "properties": {}, "geometry": {"type": "Polygon", "coordinates": [square(0, 0, 10)]}}
        empty = {"type": "GeometryCollection", "geometries": []}
        features = [None, None, {**one, "geometry": empty}, {**one, "geometry": None}, {**one, "geometry": {**empty,
                    "geometries": [empty, one["geometry"]]}}, 5, one]
        file = self.file("odd.geojson", json.dumps({"type": "FeatureCollection", "features": features}))
        status, rows, errors = self.asked("pairs", file, self.good, "--factor", 1)
        assert (status, [[*row[:2], float(row[3])] for row in rows[1:]]) == \
            (0, [["5", "1", 100], ["7", "1", 100]]), errors
        assert "left out, 6: " in errors
        text = "GEOMETRYCOLLECTION EMPTY\nPOLYGON EMPTY\nPOLYGON ((0 0, 10 0, 10 10, 0 10, 0 0))\n"
        status, rows, errors = self.asked("pairs", self.file("odd.wkt", text), self.good, "--factor", 1)
        assert (status, [[*row[:2], float(row[3])] for row in rows[1:]]) == (0, [["3", "1", 100]]), errors

    def test_an_id_is_quoted_where_it_has_a_mark_that_ends_a_line(self) -> None:
        odd = "a\rb\n,\"c"
        file, out = self.map("b", {odd: square(0, 0, 1)}), self.folder / "out.csv"
        assert self.asked("pairs", file, self.good, "--factor", 1, "--a-id", "nr", "--out", out)[0] == 0
        with out.open(newline="") as table:
            assert list(csv.reader(table))[1][:2] == [odd, "1"]

    def test_a_program_that_is_none(self) -> None:
        status, output, errors = outcome(pairs, self.good, self.good, "--factor", 1, "--program",
                                         self.folder / "none", "--jobs", 1)
        assert (status, output) == (1, "")
        assert "none: No such file" in errors

    def test_a_table_that_cannot_be_written(self) -> None:
        out = self.folder / "no folder" / "out.csv"
        status, _, errors = self.asked("pairs", self.good, self.good, "--factor", 1, "--out", out)
        assert (status, errors) == (2, f"--out {out}: no folder {out.parent}\n")


class Outputs(WithMaps):
    """What is written over nothing that it must not: told at once, before a map is read."""

    def setUp(self) -> None:
        super().setUp()
        self.whole = self.map("a", {"A": square(0, 0, 10), "B": square(5, 0, 10)})
        self.before = self.whole.read_bytes()

    def check(self, *words: object) -> str:
        status, rows, errors = self.asked("check", self.whole, "--factor", 1, *words)
        assert (status, rows, self.whole.read_bytes()) == (2, [], self.before)
        return errors.replace(f"{self.folder}/", "").strip()

    def test_what_must_not_be_written_over_is_refused(self) -> None:
        link, hard, out = self.folder / "link", self.folder / "hard", self.folder / "o.csv"
        link.symlink_to(self.whole)
        hard.hardlink_to(self.whole)
        for path in (self.whole, link, hard, self.folder / "x" / ".." / "a.geojson"):
            (self.folder / "x").mkdir(exist_ok=True)
            for word in ("--out", "--gaps"):
                assert ": this is the map a.geojson; take another name" in self.check(word, path)
        assert self.check("--out", out, "--gaps", out) == "--gaps o.csv: this is --out too; take another name"
        store = self.file("o.db", b"\0" * 16 + b"OVLSTORE")
        assert self.check("--out", store) == "--out o.db: a store of layers; take another name"
        self.file("p.gpkg-journal", b"pages")
        self.assertEqual(self.check("--gaps", self.folder / "p.gpkg"),
                         "--gaps p.gpkg: p.gpkg-journal has changes of it "
                         "that a program has in hand; end that one, or take another name")
        assert "no name of a file" in self.check("--out", "")
        assert self.check("--gaps", self.folder / "x") == "--gaps x: a folder; say a file in it"
        assert "is no folder" in self.check("--gaps", self.whole / "gaps.geojson")
        assert not out.exists()

    def test_a_link_and_a_neighbour_stay(self) -> None:
        real, link, gaps = self.file("real.csv", "before", 0o640), self.folder / "o.csv", self.folder / "g.geojson"
        link.symlink_to(real)
        own = [self.file(name, "mine") for name in ("o.csv.new", "real.csv.new", "g.geojson.new")]
        status, _, errors = self.asked("check", self.whole, "--factor", 1, "--out", link, "--gaps", gaps)
        assert (status, link.is_symlink(), real.stat().st_mode & 0o777) == (0, True, 0o640), errors
        assert "1,2,overlaps,50.0," in real.read_text()
        assert {file.read_text() for file in own} == {"mine"}
        assert {file.name for file in self.folder.iterdir()} == \
            {"a.geojson", "real.csv", "o.csv", "g.geojson", *(file.name for file in own)}

    def test_a_pipe_is_written_to(self) -> None:
        pipe = self.folder / "pipe"
        os.mkfifo(pipe)
        with subprocess.Popen(["timeout", "60", "cat", pipe], stdout=subprocess.PIPE, text=True) as reader:
            assert self.asked("check", self.whole, "--factor", 1, "--out", pipe)[0] == 0
            assert "1,2,overlaps,50.0," in reader.communicate(timeout=60)[0]
        assert pipe.is_fifo()

    def test_what_is_broken_off_leaves_what_was_there(self) -> None:
        before = self.file("o.csv", "before")
        with self.assertRaises(KeyboardInterrupt), writing.whole(before) as file:
            file.write("half")
            raise KeyboardInterrupt
        assert {one.name: one.read_bytes() for one in self.folder.iterdir()} == \
            {"o.csv": b"before", "a.geojson": self.before}
