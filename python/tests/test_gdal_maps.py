"""Tests of reading and writing maps by GDAL, and of the tool over such a map."""

import csv
import io
import json
import os
import pathlib
import resource
import struct
import sys
from collections.abc import Iterator, Sequence

import pytest
from osgeo import gdal, ogr, osr

from overlayd.commands import check, map_words
from overlayd.ending import Unusable
from overlayd.files import gdal_writing, map_columns
from overlayd.files.arrow_reading import ReadingFault
from overlayd.files.map_columns import MapColumn
from overlayd.kernel.shapes import shapes
from .common import InFolder, Programs, in_python, outcome

RING = [(0, 0), (10, 0), (10, 10), (0, 10), (0, 0)]
HOLE = [(2, 2), (2, 4), (4, 4), (4, 2), (2, 2)]


def text_of(*rings: Sequence[tuple[float, float]]) -> str:
    return "(" + ", ".join("(" + ", ".join(f"{x} {y}" for x, y in ring) + ")" for ring in rings) + ")"


class WithFiles(InFolder):
    def made(self, *shapes: str | None, suffix: str = "gpkg", layers: tuple[str, ...] = ("parcels",), crs: int = 25832
             ) -> str:
        """A file with these shapes in each of its layers, called p0, p1, .. by the property nr."""
        gdal.UseExceptions()
        system = osr.SpatialReference()
        system.ImportFromEPSG(crs)
        path = str(self.folder / f"map.{suffix}")
        driver = {"gpkg": "GPKG", "fgb": "FlatGeobuf", "shp": "ESRI Shapefile"}[suffix]
        store = gdal.GetDriverByName(driver).Create(path, 0, 0, 0)
        for name in layers:
            layer = store.CreateLayer(name, system, ogr.wkbUnknown if suffix != "shp" else ogr.wkbPolygon)
            layer.CreateField(ogr.FieldDefn("nr", ogr.OFTString))
            for number, shape in enumerate(shapes):
                feature = ogr.Feature(layer.GetLayerDefn())
                feature["nr"] = f"p{number}"
                if shape is not None:
                    feature.SetGeometry(ogr.CreateGeometryFromWkt(shape))
                layer.CreateFeature(feature)
        return path


class Reading(WithFiles):
    def read(self, path: str, id_field: str | None = "nr", layer: str | None = None) -> MapColumn:
        return map_columns.read(path, id_field, layer)

    def refused(self, pattern: str, path: str, *words: str | None, **more: str | None) -> None:
        with self.assertRaisesRegex(ReadingFault, pattern):
            self.read(path, *words, **more)

    def test_files_of_three_kinds_are_one_map(self) -> None:
        corner = [(20, 0), (30, 0), (20, 9), (20, 0)]
        given = f"POLYGON {text_of(RING, HOLE)}", f"MULTIPOLYGON ({text_of(RING)}, {text_of(corner)})"
        for suffix in ("gpkg", "fgb", "shp"):
            read = self.read(self.made(*given, suffix=suffix))
            found = shapes(read.column)
            points = {*zip(found.x.tolist(), found.y.tolist())}
            assert (read.system, sorted(read.names.tolist()), len(found.x)) == ("EPSG:25832", ["p0", "p1"], 15)
            assert points == {*RING, *HOLE, *corner}

    def test_a_file_is_what_it_has_whatever_it_is_called(self) -> None:
        for suffix in ("gpkg", "fgb"):
            made = pathlib.Path(self.made(f"POLYGON {text_of(RING)}", suffix=suffix))
            for name in ("map.json", "map.csv", "map.shp", "map"):
                other = made.rename(self.folder / name)
                assert (self.read(str(other)).names.tolist(), map_words.form_of(str(other)) is None) == (["p0"], False)
                made = other
        for name in ("a.csv", "a.txt", "a.geojson", "a"):
            table = self.file(name, f'"nr",WKT\np0,"POLYGON {text_of(RING)}"\n')
            assert (self.read(str(table)).names.tolist(), map_words.form_of(str(table)) is None) == (["p0"], False)

    def test_a_third_coordinate_is_left_out(self) -> None:
        read = self.read(self.made("POLYGON Z ((0 0 7, 4 0 7, 0 4 7, 0 0 7))",
                                   "POLYGON ZM ((0 0 1 2, 4 0 1 2, 0 4 1 2, 0 0 1 2))"))
        found = shapes(read.column)
        assert [*zip(found.x, found.y)] == [(0, 0), (4, 0), (0, 4)] * 2

    def test_what_is_no_polygon_is_left_out_and_told(self) -> None:
        path = self.made("POINT (1 1)", f"POLYGON {text_of(RING)}", None, "LINESTRING (0 0, 1 1)",
                         "CURVEPOLYGON (CIRCULARSTRING (0 0, 1 1, 2 0, 1 -1, 0 0))")
        read = self.read(path)
        assert read.names.tolist() == ["p1"]
        assert [one.removeprefix(f"{path}, ") for one in read.left_out] == [
            "feature 1 (p0): a Point, no polygon", "feature 3 (p2): a feature without a geometry",
            "feature 4 (p3): a Line String, no polygon", "feature 5 (p4): a Curve Polygon, no polygon"]

    def test_features_are_called_by_a_property_or_by_number(self) -> None:
        path = self.made(*[f"POLYGON {text_of(RING)}"] * 2)
        assert self.read(path).names.tolist() == ["p0", "p1"]
        assert self.read(path, id_field=None).names.tolist() == ["1", "2"]
        self.refused("no property code; say one of: nr", path, id_field="code")

    def test_a_name_that_is_no_utf_8_is_refused_before_anything_is_asked(self) -> None:
        table = self.file("latin.csv", f'nr,WKT\np\u00e4,"POLYGON {text_of(RING)}"\n'.encode("latin-1"))
        self.refused("latin.csv: .*its texts are no UTF-8; iconv", str(table), id_field="nr")

    def test_nothing_is_written_beside_a_map(self) -> None:
        path = str(self.folder / "map.gml")
        gdal.VectorTranslate(path, self.made(f"POLYGON {text_of(RING)}"), format="GML")
        (self.folder / "map.xsd").unlink()
        before = sorted(self.folder.iterdir())
        assert self.read(path).names.tolist() == ["p0"]
        assert sorted(self.folder.iterdir()) == before

    def test_several_layers_have_to_be_named(self) -> None:
        path = self.made(f"POLYGON {text_of(RING)}", layers=("parcels", "zones"))
        self.refused("2 layers, parcels, zones; name one by --a-layer", path)
        assert len(self.read(path, layer="zones")) == 1
        self.refused("no layer roads; say one of: parcels, zones", path, layer="roads")

    def test_what_is_no_map_is_refused(self) -> None:
        self.refused("nowhere.gpkg: ", str(self.folder / "nowhere.gpkg"))
        self.refused("odd.gpkg: ", str(self.file("odd.gpkg", "no map")))

    def test_a_file_that_was_cut_is_refused_with_a_reason(self) -> None:
        cut = pathlib.Path(self.made(*["POLYGON ((0 0, 10 0, 10 10, 0 10, 0 0))"] * 1000, suffix="shp",
                                     layers=("map",)))
        cut.write_bytes(cut.read_bytes()[:100_000])
        self.refused(r"map.shp: \w", str(cut))


class Writing(InFolder):
    def pieces(self, count: int) -> Iterator[tuple[dict[str, object], bytes]]:
        for k in range(count):
            ring = [number for x, y in RING for number in (float(x + 20 * k), float(y))]
            wkb = struct.pack("<BII", 1, 6, 1) + struct.pack("<BIII10d", 1, 3, 1, 5, *ring)
            yield {"a": f"p{k}", "b": "" if k % 2 else "z", "area": 100.0}, wkb

    def features(self, name: str) -> list[tuple[str, str | None, float, str]]:
        file = gdal.OpenEx(str(self.folder / name), gdal.OF_VECTOR)
        layer = file.GetLayerByName("pieces")
        return sorted((f["a"], f["b"], f["area"], f.GetGeometryRef().ExportToWkt()) for f in layer)

    def test_pieces_are_read_back(self) -> None:
        for name in ("pieces.gpkg", "pieces.fgb"):
            assert gdal_writing.write(str(self.folder / name), self.pieces(3), "EPSG:25832") == 3
            found = self.features(name)
            assert [one[:3] for one in found] == [("p0", "z", 100.0), ("p1", None, 100.0), ("p2", "z", 100.0)]
            assert found[1][3] == "MULTIPOLYGON (((20 0,30 0,30 10,20 10,20 0)))"
        assert {one.name for one in self.folder.iterdir()} == {"pieces.gpkg", "pieces.fgb"}

    def test_pieces_of_a_map_without_a_system_are_of_a_plane(self) -> None:
        for name in ("pieces.gpkg", "pieces.fgb"):
            path = str(self.folder / name)
            gdal_writing.write(path, self.pieces(3), None)
            file = gdal.OpenEx(path, gdal.OF_VECTOR)
            assert file.GetLayer(0).GetSpatialRef().IsLocal()
            assert map_columns.read(path, None).system is None

    def test_many_go_into_parts_that_open_as_one(self) -> None:
        for suffix in ("gpkg", "fgb"):
            for old in self.folder.iterdir():
                old.unlink()
            gdal_writing.write(str(self.folder / f"pieces.{suffix}"), self.pieces(7), "EPSG:25832", 3)
            parts = [f"pieces-00{part}.{suffix}" for part in (1, 2, 3)]
            assert {one.name for one in self.folder.iterdir()} == {*parts, "pieces.vrt"}
            assert [len(self.features(part)) for part in parts] == [3, 3, 1]
            assert self.features("pieces.vrt") == sorted(one for part in parts for one in self.features(part))

    def test_exactly_one_part_is_one_file_and_none_is_one_without_features(self) -> None:
        for count in (0, 3):
            assert gdal_writing.write(str(self.folder / "pieces.gpkg"), self.pieces(count), None, 3) == count
            assert [one.name for one in self.folder.iterdir()] == ["pieces.gpkg"]
            if count:
                assert len(self.features("pieces.gpkg")) == count

    def test_what_fails_amid_pieces_leaves_what_was_there(self) -> None:
        before = self.file("pieces.gpkg", "as it was")

        def broken() -> Iterator[tuple[dict[str, object], bytes]]:
            yield from self.pieces(5)
            raise KeyboardInterrupt

        self.assertRaises(KeyboardInterrupt, gdal_writing.write, str(before), broken(), None, 2)
        assert [(one.name, one.read_text()) for one in self.folder.iterdir()] == [("pieces.gpkg", "as it was")]

    def test_a_full_disk_is_told_and_leaves_what_was_there(self) -> None:
        before = {self.file(f"pieces.{suffix}", "as it was").name for suffix in ("gpkg", "fgb")}
        hard = resource.getrlimit(resource.RLIMIT_FSIZE)[1]
        self.addCleanup(resource.setrlimit, resource.RLIMIT_FSIZE, (hard, hard))
        for name, room in ((name, room) for name in sorted(before) for room in (1000, 50_000, 900_000)):
            with self.subTest(name, room=room):
                resource.setrlimit(resource.RLIMIT_FSIZE, (room, hard))
                with self.assertRaisesRegex(Unusable, rf"{name}: [^ ]+ [^ ]+"):
                    gdal_writing.write(str(self.folder / name), self.pieces(5000), None)
                resource.setrlimit(resource.RLIMIT_FSIZE, (hard, hard))
                assert {one.name for one in self.folder.iterdir()} == before
                assert (self.folder / name).read_text() == "as it was"

    def test_a_link_its_file_s_mode_and_a_neighbour_stay(self) -> None:
        real, own = self.file("real.gpkg", "before", 0o640), self.file("new.real.gpkg", "mine")
        (self.folder / "pieces.gpkg").symlink_to(real)
        gdal_writing.write(str(self.folder / "pieces.gpkg"), self.pieces(3), None)
        assert (len(self.features("real.gpkg")), real.stat().st_mode & 0o777, own.read_text()) == (3, 0o640, "mine")
        assert (self.folder / "pieces.gpkg").is_symlink()
        os.mkfifo(self.folder / "pipe.gpkg")
        with self.assertRaisesRegex(ReadingFault, "pipe.gpkg: no file; "):
            gdal_writing.write(str(self.folder / "pipe.gpkg"), self.pieces(3), None)

    def test_another_suffix_is_refused(self) -> None:
        with self.assertRaisesRegex(ReadingFault, r"pieces\.dxf: pieces are written as \.gpkg, \.fgb or \.geojson"):
            gdal_writing.write(str(self.folder / "pieces.dxf"), [], None)


class Missing(WithFiles):
    def test_a_package_that_is_missing_is_named(self) -> None:
        words = [self.made(f"POLYGON {text_of(RING)}"), "--factor", "1", "--program", sys.executable]
        for module, package in (("numpy", "python3-numpy"), ("osgeo", "python3-gdal")):
            text = (f"import sys; sys.modules['{module}'] = None; from overlayd import cli; "
                    "cli.main(['check', *sys.argv[1:]])")
            done = in_python(text, *words)
            assert (done.returncode, done.stdout, done.stderr) == (
                1, "", f"overlay check: {package} is missing: apt-get install {package}, and run this by "
                "/usr/bin/python3\n")


@pytest.mark.features
class OverTool(WithFiles):
    """The tool over a small map by GDAL, beside the same map as GeoJSON."""

    def test_a_map_by_gdal_has_the_table_of_its_geojson(self) -> None:
        rings = [[(x + 7 * (k % 4), y + 7 * (k // 4)) for x, y in RING] for k in range(16)]
        geojson = self.file("map.geojson", json.dumps({"type": "FeatureCollection", "features": [
            {"type": "Feature", "properties": {"nr": f"p{k}"}, "geometry": {"type": "Polygon", "coordinates": [ring]}}
            for k, ring in enumerate(rings)]}))
        tables = []
        for path in (geojson, self.made(*[f"POLYGON {text_of(ring)}" for ring in rings], crs=4326)):
            words = ["--factor", "1", "--a-id", "nr", "--program", Programs.features, "--jobs", "1"]
            status, table, told = outcome(check, path, *words, "--gaps", self.folder / "gaps.gpkg")
            assert status == 0, told
            tables.append(table)
        assert tables[0] == tables[1]
        # A square overlaps its neighbours to the right and above by 3 x 10, and those across by 3 x 3: 12, 12, 9 and 9.
        areas = sorted(float(row["area"]) for row in csv.DictReader(io.StringIO(tables[0])))
        assert areas == [9.0] * 18 + [30.0] * 24
        assert (self.folder / "gaps.gpkg").is_file()
