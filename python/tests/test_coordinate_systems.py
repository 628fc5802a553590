"""Tests of what the coordinate systems of maps are called, by commands."""

import json
import pathlib
import zipfile
from typing import Any

import pytest

from overlayd.commands import check, derive, export as to_geojson, import_ as to_script, pairs, pieces
from overlayd.files import coordinate_systems
from .common import OVERLAY, Programs, outcome, ran
from .test_forms import WithGdal

SHAPE = "POLYGON ((1 1, 9.5 1, 9.5 9, 1 9, 1 1))"
USUAL = [f"EPSG:{code}" for code in (
    4258, 4269, 4267, 4674, 3857, 25832, 25833, 32618, 27700, 2154, 2056, 3035, 28992, 31370, 3006, 2263, 5070, 28355,
    2193, 31467, 5880, 3067, 31287)] + [f"ESRI:{code}" for code in (102003, 102008, 54009, 54030)]
# A map of Olinda as r-cran-sf has it, and what R and others write that is no authority's.
OLINDA = ('GEOGCS["GRS 1980(IUGG, 1980)",DATUM["D_unknown",SPHEROID["GRS80",6378137,298.257222101]],'
          'PRIMEM["Greenwich",0],UNIT["Degree",0.017453292519943295]]')
TRANSVERSE = "+proj=tmerc +units=m +no_defs +lat_0={} +lon_0={} +k={} +x_0={} +y_0={} {}"
NAMELESS = {
    "Britain by its ellipsoid": TRANSVERSE.format(49, -2, 0.9996012717, 400000, -100000, "+ellps=airy"),
    "Britain, a digit less": TRANSVERSE.format(49, -2, 0.999601272, 400000, -100000, "+datum=OSGB36"),
    "South America by its ellipsoid": "+proj=longlat +ellps=aust_SA +no_defs",
    "Brazil by its ellipsoid": "+proj=poly +lat_0=0 +lon_0=-54 +x_0=5000000 +y_0=10000000 +ellps=aust_SA +units=m "
                               "+no_defs",
    "a city": TRANSVERSE.format(51.5, -0.1, 1, 50000, 50000, "+ellps=airy"),
    "another city": TRANSVERSE.format(0, 33, 0.99995, -3500000, 200000, "+ellps=intl"),
    "Airy's degrees": "+proj=longlat +ellps=airy +no_defs",
    "a zone of the user's": TRANSVERSE.format(0, 10.5, 0.9996, 500000, 0, "+ellps=GRS80"),
}


UNITS = {  # of a system with a name, and of one that no authority has
    "degree": ("EPSG:4258", OLINDA), "metre": ("EPSG:25832", NAMELESS["a city"]),
    "US survey foot": ("EPSG:2263",
                       TRANSVERSE.replace("units=m", "units=us-ft").format(40, -74, 0.9999, 100000, 0, "+ellps=GRS80")),
}


def text_of(system: str, form: str = "WKT1_ESRI") -> str:
    """A system as programs write it."""
    return str(coordinate_systems.parsed(system).ExportToWkt([f"FORMAT={form}"]))


class WithSystems(WithGdal):
    def ran(self, tool: str, *words: object) -> str:
        """What a command says on standard error."""
        done = ran(*OVERLAY, tool, *words)
        assert done.returncode == 0, done.stderr
        return done.stderr

    def shapefile(self, system: str | None, name: str = "map", end: str = ".prj") -> pathlib.Path:
        """A Shapefile with this text as its .prj, or without one."""
        path = self.folder / f"{name}.shp"
        if not path.exists():
            self.made(path.name, str(self.file(f"{name}.geojson", json.dumps({
                "type": "Feature", "properties": {"nr": name},
                "geometry": {"type": "Polygon", "coordinates": [[[1, 1], [9.5, 1], [9.5, 9], [1, 9], [1, 1]]]}}))))
        path.with_suffix(".prj").unlink(missing_ok=True)
        if system is not None:
            path.with_suffix(end).write_text(system)
        return path

    def script(self, *given: object) -> tuple[str | None, str]:
        """The system in the scale of a script, and what was said."""
        made = self.folder / "out.txt"
        status, _, errors = outcome(to_script, *given, "--factor", 10, "--output", made)
        assert status == 0, errors
        return json.loads(made.with_suffix(".scale.json").read_text())["crs"], errors

    def written(self, end: str) -> Any:
        """The system of what overlay export writes of that script, as GDAL reads it."""
        path = self.folder / f"written{end}"
        words = ["--store", self.folder / "out.txt", "--program", self.model(), "--output", path]
        assert outcome(to_geojson, *words)[:2] == (0, "")
        return self.system(path)

    def system(self, path: pathlib.Path) -> Any:
        gdal, _ = coordinate_systems.modules()
        file = gdal.OpenEx(str(path), gdal.OF_VECTOR)
        return file.GetLayer(0).GetSpatialRef().Clone()

    def overlay(self, first: pathlib.Path, second: pathlib.Path, end: str) -> Any:
        """The system of the pieces of two maps."""
        path = self.folder / f"pieces{end}"
        words = [first, second, "--factor", 10, "--pieces", path, "--program", Programs.features, "--jobs", 1,
                 "--no-audit"]
        status, _, errors = outcome(pieces, *words)
        assert status == 0, errors
        return self.system(path)


class Named(WithSystems):
    def test_usual_systems_as_esri_writes_them_have_their_names(self) -> None:
        for name in USUAL:
            with self.subTest(name):
                assert self.script(self.shapefile(text_of(name)))[0] == name

    def test_longitude_and_latitude_of_wgs84_are_crs84_by_whatever_name(self) -> None:
        for name in ("EPSG:4326", "OGC:CRS84", "+proj=longlat +datum=WGS84 +no_defs"):
            for form in ("WKT1_ESRI", "WKT1_GDAL", "WKT2_2019"):
                with self.subTest(name, form=form):
                    assert self.script(self.shapefile(text_of(name, form)))[0] == "OGC:CRS84"

    def test_a_name_of_its_own_counts_where_the_system_is_that_one(self) -> None:
        for name in ("EPSG:31468", "EPSG:30169", "EPSG:25832", "ESRI:102003"):
            for form in ("WKT1_GDAL", "WKT2_2019"):
                with self.subTest(name, form=form):
                    assert self.script(self.shapefile(text_of(name, form)))[0] == name
        lied = text_of("EPSG:25832", "WKT1_GDAL").replace('"false_easting",500000', '"false_easting",400000')
        ours = text_of("EPSG:25832", "WKT2_2019").replace('ID["EPSG",25832]',
                                                          'ID["OURS",7]').replace("0.9996,", "0.9997,")
        for text in (lied, ours):
            found = self.script(self.shapefile(text))[0]
            assert found and found.startswith("PROJCRS["), found

    def test_a_zipped_shapefile_and_a_prj_in_capitals(self) -> None:
        path = self.shapefile(text_of("EPSG:2154"), "parcels", ".PRJ")
        assert self.script(path)[0] == "EPSG:2154"
        archive = self.folder / "both.zip"
        other = self.shapefile(text_of("EPSG:2056"), "zones")
        with zipfile.ZipFile(archive, "w") as zipped:
            for one in (*self.folder.glob("parcels.*"), *self.folder.glob("zones.*")):
                zipped.write(one, one.name)
        for layer, name in (("parcels", "EPSG:2154"), (other.stem, "EPSG:2056")):
            assert self.script(archive, "--source-layer", layer)[0] == name

    def test_other_forms(self) -> None:
        for name in ("EPSG:25832", "ESRI:102003", "EPSG:30169"):
            source = self.shapefile(text_of(name, "WKT1_GDAL"))
            for end in (".gpkg", ".fgb", ".gml"):
                with self.subTest(name, end=end):
                    assert self.script(self.made(f"other{end}", str(source), "-a_srs", name))[0] == name
                self.folder.joinpath(f"other{end}").unlink()
            self.script(source)
            assert coordinate_systems.called(self.written(".gpkg")) == name
            assert coordinate_systems.called(self.written(".geojson")) == name
            assert self.script(self.folder / "written.geojson")[0] == name


class Nameless(WithSystems):
    def test_a_system_that_resembles_one_with_a_name_has_none(self) -> None:
        texts = {"Olinda": OLINDA} | {name: text_of(system) for name, system in NAMELESS.items()}
        assert len(texts) == 9
        for name, text in texts.items():
            with self.subTest(name):
                found, errors = self.script(self.shapefile(text))
                assert found and coordinate_systems.is_text(found), found
                assert "unknown, as" not in errors
                assert coordinate_systems.is_same(self.written(".gpkg"), coordinate_systems.parsed(found))

    def test_its_text_goes_into_whatever_is_written_and_comes_back(self) -> None:
        found, _ = self.script(self.shapefile(text_of(NAMELESS["a city"])))
        for end in (".geojson", ".gpkg", ".fgb"):
            assert coordinate_systems.is_same(self.written(end), coordinate_systems.parsed(found)), end
            again, _ = self.script(self.folder / f"written{end}")
            assert coordinate_systems.are_one(again, found), again

    @pytest.mark.features
    def test_pieces_have_the_system_of_their_maps(self) -> None:
        first = self.shapefile(text_of(NAMELESS["a city"]), "first")
        second = self.made("second.gpkg", str(first), "-a_srs", NAMELESS["a city"])
        for end in (".gpkg", ".geojson"):
            found = self.overlay(first, second, end)
            assert coordinate_systems.are_one(found.ExportToWkt(), text_of(NAMELESS["a city"])), found

    def test_maps_of_different_systems_are_refused_by_their_names(self) -> None:
        first = self.shapefile(OLINDA, "first")
        second = self.shapefile(text_of("EPSG:4674"), "second")
        status, _, errors = outcome(pairs, first, second, "--factor", 1, "--program", self.model())
        assert (status, errors.splitlines()[-1]) == (
            2, f'{first} has coordinates of "GRS 1980(IUGG, 1980)", {second} of EPSG:4674: bring one to those of the '
               "other, as by ogr2ogr -t_srs")
        status, _, errors = outcome(to_script, first, second)
        assert (status, errors) == (2, (
            'files of different coordinates: EPSG:4674, "GRS 1980(IUGG, 1980)"; bring them to one, as by ogr2ogr '
            "-t_srs, or say by --crs which one all of them have\n"))


class Units(WithSystems):
    def test_areas_have_the_unit_of_the_system(self) -> None:
        for unit, systems in UNITS.items():
            for system in systems:
                file = self.shapefile(text_of(system))
                self.ran("import", file, "--factor", 10, "--output", self.folder / "out.txt")
                assert json.loads((self.folder / "out.scale.json").read_text())["unit"] == unit, system
                if Programs.features:
                    told = self.ran("check", file, "--factor", 10, "--program", Programs.features)
                    several = {"US survey foot": "US survey feet"}.get(unit, f"{unit}s")
                    assert f"areas are in square {several}, widths in {several}\n" in told, system
        self.ran("import", self.shapefile(None), "--factor", 10, "--output", self.folder / "out.txt")
        assert json.loads((self.folder / "out.scale.json").read_text())["unit"] == "1"

    @pytest.mark.features
    def test_square_metres_are_given_of_metres_alone_and_nothing_is_written_else(self) -> None:
        for unit, system in (("not known", None), *((unit, text_of(systems[0])) for unit, systems in UNITS.items())):
            file = self.shapefile(system)
            for question, end, maps in ((pairs, "csv", [file, file]), (pieces, "csv", [file, file]),
                                        (check, "csv", [file]), (derive, "geojson", ["a", f"a={file}"])):
                table = self.folder / f"table.{end}"
                status, output, errors = outcome(question, *maps, "--square-metres", "--out", table, "--factor", 10,
                                                 "--program", Programs.features)
                told = (f"no areas in square metres: the unit of the coordinates is {unit}; bring the maps to a system "
                        "in metres first, as by ogr2ogr -t_srs EPSG:6933, whose areas are true")
                if unit == "metre":
                    assert (status, table.exists()) == (0, True), errors
                else:
                    assert (status, output, errors.splitlines()[-1], table.exists()) == (2, "", told, False)
                table.unlink(missing_ok=True)


class Unknown(WithSystems):
    def test_a_shapefile_that_does_not_say_it_is_a_plane_and_no_degrees(self) -> None:
        for text in (None, "", "Projection UTM of somewhere", "PROJCS[broken"):
            with self.subTest(text):
                path = self.shapefile(text)
                found, errors = self.script(path)
                assert found is None
                assert "the coordinate system is unknown, as the file does not say it: --crs names it" in errors
        for end in (".geojson", ".gpkg", ".fgb"):
            assert self.written(end).IsLocal(), end
            again, errors = self.script(self.folder / f"written{end}")
            assert (again, "the coordinate system is unknown" in errors) == (None, True)
        assert self.script(path, "--crs", "EPSG:25832")[0] == "EPSG:25832"

    @pytest.mark.features
    def test_pieces_of_such_maps_are_of_a_plane(self) -> None:
        path = self.shapefile(None)
        for end in (".geojson", ".gpkg"):
            assert self.overlay(path, path, end).IsLocal(), end
        words = [path, path, "--factor", 1, "--program", Programs.features, "--jobs", 1]
        for text in (None, "PROJCS[broken"):
            status, _, errors = outcome(pairs, self.shapefile(text), *words[1:])
            told = f"{path}: its coordinate system is unknown, as the file does not say it\n"
            assert (status, told in errors) == (0, True), errors
        degrees = self.folder / "map.geojson"  # what GeoJSON without a name has stays
        assert coordinate_systems.called(self.overlay(degrees, degrees, ".geojson")) == "OGC:CRS84"
        assert '"crs"' not in (self.folder / "pieces.geojson").read_text()

    def test_geojson_without_a_name_has_degrees(self) -> None:
        self.shapefile(None)
        found, errors = self.script(self.folder / "map.geojson")
        assert (found, "unknown" in errors) == ("OGC:CRS84", False)
        assert coordinate_systems.called(self.written(".geojson")) == "OGC:CRS84"
        assert '"crs"' not in (self.folder / "written.geojson").read_text()

    def test_a_name_in_geojson_that_is_none_is_unknown(self) -> None:
        self.shapefile(None)
        value = json.loads((self.folder / "map.geojson").read_text())
        for name, wanted in (("My plan", None), ("PROJCS[broken", None),
                             ("urn:ogc:def:crs:ESRI::102003", "ESRI:102003"), (text_of("EPSG:2154"), "EPSG:2154")):
            crs = {"type": "name", "properties": {"name": name}}
            file = self.file("named.geojson",
                             json.dumps({"type": "FeatureCollection", "crs": crs, "features": [value]}))
            assert self.script(file)[0] == wanted, name
