"""Tests of maps of other forms than GeoJSON and Well-Known Text, which GDAL reads and writes."""

import gzip
import json
import os
import pathlib
import re
import sqlite3
import unittest.mock
from fractions import Fraction

from overlayd.commands import export as to_geojson, import_ as to_script
from overlayd.commands import map_words
from overlayd.files import coordinate_systems, gdal_files, map_reading, text_columns, writing
from overlayd.files.arrow_reading import ReadingFault
from .common import SQUARE, InFolder, on_file, outcome
from .test_maps import COUNTIES, area_of_script

FEATURE = '{{"type": "Feature", "properties": {{"n": "{}"}}, "geometry": {{"type": "Polygon", "coordinates": [{}]}}}}'
FIRST = FEATURE.format("a", "[[0, 0], [9, 0], [0, 9.5], [0, 0]]")
DRIVERS = {".gpkg": "GPKG", ".shp": "ESRI Shapefile", ".fgb": "FlatGeobuf", ".gml": "GML", ".csv": "CSV"}
SECOND = FEATURE.format("b", "[[10, 0], [19, 0], [10, 9], [10, 0]]")


class WithGdal(InFolder):
    """A test of files that GDAL makes."""

    def made(self, name: str, source: str, *words: str) -> pathlib.Path:
        """A file that GDAL makes of another one, by words of ogr2ogr."""
        file = self.folder / name
        with gdal_files.by_gdal() as gdal:
            gdal.VectorTranslate(str(file), source, options=["-f", DRIVERS[file.suffix], *words])
        return file


class FilesOfGdal(WithGdal):
    def test_the_counties_come_of_each_form(self) -> None:
        words = ["--fit", "--split", "--name", "nc", "--output"]
        assert outcome(to_script, COUNTIES, *words, self.folder / "nc.txt")[0] == 0
        wanted = area_of_script((self.folder / "nc.txt").read_text())
        for name in ("a.gpkg", "a.shp", "a.gml", "a.csv"):
            file = self.made(name, COUNTIES, *(["-lco", "GEOMETRY=AS_WKT"] if name == "a.csv" else []))
            output = self.folder / f"{file.suffix[1:]}.txt"
            status, _, errors = outcome(to_script, file, *words, output)
            assert status == 0, errors
            assert "nothing is rounded" in errors
            assert area_of_script(output.read_text()) == wanted, name
            scale = json.loads(output.with_suffix(".scale.json").read_text())
            assert (scale["crs"], scale["factor"], name) == ("OGC:CRS84", 100000, name)
            assert [round(place) for place in scale["origin"]] == [-80, 35]

    def test_a_file_is_what_it_has_whatever_it_is_called(self) -> None:
        plan = str(self.file("plan.geojson", FIRST))
        wanted = outcome(to_script, plan, "--factor", 2, "--name", "a")[1]
        for made in (self.made("a.gpkg", plan), self.made("a.fgb", plan),
                     self.made("b.csv", plan, "-lco", "GEOMETRY=AS_WKT")):
            for name in ("odd.json", "odd.txt", "odd"):
                made = made.rename(self.folder / name)
                assert outcome(to_script, made, "--factor", 2, "--name", "a")[:2] == (0, wanted), made
        store = self.made("a.gpkg", plan).rename(self.folder / "odd.csv")
        assert outcome(to_script, store, "--factor", 2, "--name", "a")[:2] == (0, wanted)
        assert outcome(to_script, "")[0] == 2

    def test_nothing_is_written_beside_a_map(self) -> None:
        plan = str(self.file("plan.geojson", FIRST))
        for crs in ("EPSG:25832", "EPSG:4326"):
            file = self.made("a.gml", plan, "-a_srs", crs)
            (self.folder / "a.xsd").unlink()
            before = sorted(self.folder.iterdir())
            assert outcome(to_script, file, "--factor", 2)[0] == 0
            assert sorted(self.folder.iterdir()) == before
            file.unlink()

    def test_several_layers(self) -> None:
        plan = str(self.file("plan.geojson", FIRST))
        file = self.made("two.gpkg", plan, "-nln", "one")
        self.made("two.gpkg", plan, "-nln", "other", "-update")
        told = f"{file}: not read: it has 2 layers; say one of them by --source-layer: one, other\n"
        assert outcome(to_script, file) == (2, "", told)
        assert outcome(to_script, file, "--source-layer", "other", "--fit")[0] == 0
        assert "no layer x; it has one, other" in outcome(to_script, file, "--source-layer", "x")[2]
        assert "have no layers" in outcome(to_script, plan, "--source-layer", "x")[2]

    def test_files_that_are_none(self) -> None:
        for name, text in (("a.gpkg", "no store"), ("a.shp", ""), ("a.fgb", "fgb"), ("a.gml", "<a>"),
                           ("a.odd", "<?xml")):
            file = self.file(name, text)
            status, output, errors = outcome(to_script, file)
            assert (status, output, len(errors.splitlines())) == (2, "", 1), errors
            assert errors.startswith(f"{file}: not read: "), errors
        absent = self.folder / "absent.gpkg"
        assert outcome(to_script, absent) == (2, "", f"{absent}: not read: No such file or directory\n")

    def test_texts_that_are_no_utf_8_are_told_with_what_makes_them_so(self) -> None:
        plan = self.file("plan.geojson", FIRST.replace('"a"', '"ä"'))
        latin = self.file("latin.geojson", plan.read_text().encode("latin-1"))
        assert outcome(to_script, latin) == (
            2, "",
            f"{latin}: not read: no UTF-8, by its byte 0xe4; iconv -f ISO-8859-1 -t UTF-8 makes it of Latin-1\n")
        table = self.file("latin.csv", b'WKT,n\n"POLYGON ((0 0, 9 0, 0 9, 0 0))",\xe4\n')
        assert "no UTF-8; iconv -f ISO-8859-1" in outcome(to_script, table)[2]
        shape = self.made("latin.shp", str(plan), "-lco", "ENCODING=ISO-8859-1")
        assert outcome(to_script, shape, "--factor", 2, "--name-by", "n")[0] == 0
        shape.with_suffix(".cpg").unlink()
        database = bytearray(shape.with_suffix(".dbf").read_bytes())
        database[29] = 0  # nothing is said of its letters
        shape.with_suffix(".dbf").write_bytes(database)
        assert "no UTF-8: say in latin.cpg beside it what they are" in outcome(to_script, shape, "--factor", 2)[2]

    def test_a_layer_as_a_geopackage(self) -> None:
        script, output = self.file("plan.txt", f"PUT A {SQUARE}\n"), self.folder / "out.gpkg"
        self.file("plan.scale.json", '{"factor": 10, "origin": [500, -20], "crs": "EPSG:25832", "digits": 3}')
        program = self.model()
        assert outcome(to_geojson, "--store", script, "--program", program, "--output", output)[:2] == (0, "")
        with sqlite3.connect(output) as store:
            assert store.execute('SELECT layer, area FROM "out"').fetchall() == [("A", 1)]
            assert store.execute("SELECT srs_id FROM gpkg_geometry_columns").fetchall() == [(25832,)]
        back = json.loads(gdal_files.as_geojson(output))["features"][0]["geometry"]["coordinates"][0][0]
        assert sorted(map(tuple, back[:-1])) == [(500, -20), (500, -19), (501, -20), (501, -19)]
        assert sorted(file.name for file in self.folder.glob("*.new")) == []
        (self.folder / "plan.scale.json").unlink()
        plane = self.folder / "plane.gpkg"
        assert outcome(to_geojson, "--store", script, "--program", program, "--output", plane)[:2] == (0, "")
        assert json.loads(gdal_files.as_geojson(plane))["crs"]["properties"]["name"] == coordinate_systems.UNKNOWN


class OwnTexts(InFolder):
    """What is read without GDAL, and which outputs are refused."""

    def test_outputs_that_are_refused(self) -> None:
        script = self.file("plan.txt", f"PUT A {SQUARE}\n")
        ends = ": written are .geojson, .json, .gpkg, .fgb"
        for name, told in (("a.shp", ends), ("a.csv", ends), ("a.xyz", ends), ("a.json.dxf", ends),
                           ("a.geojson.gz", ends), (".", "is a folder")):
            status, _, errors = outcome(to_geojson, "--store", script, "--output", name)
            assert (status, told in errors) == (2, True), errors

    def piped(self, data: bytes) -> str:
        """The name of a pipe with these bytes in it."""
        end, begin = os.pipe()
        self.addCleanup(os.close, end)
        with os.fdopen(begin, "wb") as given:
            given.write(data)
        return f"/dev/fd/{end}"

    def test_a_map_of_a_pipe_is_read_from_its_begin(self) -> None:
        text = b"".join(b"POLYGON ((%d 0, %d 0, %d 1, %d 0))" % (at, at + 1, at, at) + b"\n" for at in range(1000))
        status, _, errors = outcome(to_script, self.piped(text), "--split", "--output", self.folder / "piped.txt")
        assert (status, "polygons 1000," in errors) == (0, True), errors

    def test_a_geopackage_that_a_program_has_in_hand_is_not_replaced(self) -> None:
        for end in ("-wal", "-journal"):
            with self.subTest(end):
                path, kept = self.folder / "n.gpkg", self.file(f"n.gpkg{end}", b"")
                assert writing.in_hand(path) is None
                kept.write_bytes(b"pages")
                with self.assertRaisesRegex(gdal_files.GdalFault, f"n.gpkg{end} has changes of it that a program"):
                    gdal_files.check_target(path)
                kept.unlink()

    def test_geojson_is_written_whole(self) -> None:
        script, output = self.file("plan.txt", f"PUT A {SQUARE}\n"), self.folder / "out.geojson"
        text = outcome(to_geojson, "--store", script, "--program", self.model())[1]
        assert outcome(to_geojson, "--store", script, "--program", self.model(), "--output", output)[:2] == (0, "")
        assert output.read_text() == text
        for name in ("plain", "out.json", "OUT.GeoJSON", ".hidden"):
            told = outcome(to_geojson, "--store", script, "--program", self.model(), "--output", self.folder / name)
            assert (told[:2], (self.folder / name).read_text()) == ((0, ""), text)
        told = outcome(to_geojson, "--store", script, "--program", self.model(),
                       "--output", self.folder / "absent" / "a.json")
        assert (told[0], told[2]) == (1, f"{self.folder / 'absent' / 'a.json'}: No such file or directory\n")

    def test_texts_of_our_own_need_no_gdal_whatever_their_name(self) -> None:
        for name, text in (("a.csv", SQUARE), ("b.csv", f" \nSRID=4326;{SQUARE.lower()}"), ("c.gml", "\ufeff" + FIRST),
                           ("d.zip", "MULTIPOLYGON Z (((0 0 1, 9 0 1, 0 9 1, 0 0 1)))")):
            assert outcome(to_script, self.file(name, text), "--factor", 2)[0] == 0, name

    def test_what_gzip_compressed_is_called_so_whatever_its_name(self) -> None:
        told = "it is compressed by gzip: unpack it first (gunzip)"
        for name, text in (("a.geojson.gz", FIRST), ("b.json", SECOND), ("c.gpkg", "SQLite format 3"),
                           ("d.wkt.gz", SQUARE)):
            file = self.file(name, gzip.compress(text.encode()))
            for words in ((), ("--source-layer", "one")):
                assert outcome(to_script, file, *words) == (2, "", f"{file}: not read: {told}\n")
            with self.assertRaisesRegex(ReadingFault, f"{name}: {re.escape(told)}$"):
                map_words.form_of(str(file))
        with unittest.mock.patch("sys.stdin") as given:
            given.buffer.read.return_value = gzip.compress(FIRST.encode())
            assert outcome(to_script, "-") == (2, "", f"-: not read: {told}\n")
        pipe = self.piped(gzip.compress(FIRST.encode()))
        assert outcome(to_script, pipe) == (2, "", f"{pipe}: not read: {told}\n")
        with self.assertRaisesRegex(ReadingFault, re.escape(told)):
            text_columns.read(str(self.piped(gzip.compress(FIRST.encode()))), None)

    def test_sequences_of_features(self) -> None:
        whole = f'{{"type": "FeatureCollection", "features": [{FIRST}, {SECOND}]}}'
        wanted = on_file(to_script, whole, "--name-by", "n", "--factor", 2)
        assert wanted[0] == 0
        for text in (f"{FIRST}\n{SECOND}\n", f"{FIRST}\r\n\r\n{SECOND}", f"\x1e{FIRST}\n\x1e{SECOND}\n",
                     "\x1e" + FIRST.replace(", ", ",\n") + f"\x1e{SECOND}"):
            assert on_file(to_script, text, "--name-by", "n", "--factor", 2) == wanted
        status, output, errors = on_file(to_script, f"{FIRST}\n{SECOND[:-3]}\n")
        assert (status, output, errors.startswith("FILE: not read: line 2: ")) == (2, "", True), errors

    def test_numbers_are_as_they_are_spelled(self) -> None:
        assert map_reading.object_of('{"a": 0.1}')["a"] == map_reading.Decimal("0.1")
        first = map_reading.object_of(f"{FIRST}\n{SECOND}")["features"][0]
        assert Fraction(first["geometry"]["coordinates"][0][2][1]) == Fraction(19, 2)


class StandardInput(InFolder):
    def test_other_forms_are_read_by_their_names(self) -> None:
        with unittest.mock.patch("sys.stdin") as given:
            given.buffer.read.return_value = b"SQLite format 3\0"
            told = "-: not read: a GeoPackage or SpatiaLite store is read by its name, and not from standard input\n"
            assert outcome(to_script, "-") == (2, "", told)
