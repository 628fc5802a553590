"""Tests that one polygon becomes the same whole numbers by every way in: scripts of texts and of files that GDAL reads,
maps of `overlay pieces`, requests of the front, and the client; and that LOCATE takes its numbers as they do."""

import json
import pathlib
from fractions import Fraction
from typing import Any

import pytest

from overlayd.commands import import_ as to_script, which
from overlayd.files import gdal_files
from overlayd.program import Server
from overlayd.store.world import World
from . import testing
from .common import OVERLAY, Programs, outcome, ran
from .testing import FrontCase

pytestmark = pytest.mark.live

Corners = tuple[tuple[str, str], ...]

HALVES: Corners = (("0.285", "-0.285"), ("10.125", "0.005"), ("10.135", "9.285"), ("-4.285", "7.015"))
LONG: Corners = (("0.28499999999999999998", "-0.2850000000000000001"),
                 ("10.124999999999999999999", "0.0050000000000000000001"),
                 ("10.13499999999999999999", "9.28499999999999999999"),
                 ("-4.28500000000000000001", "7.01499999999999999999"))
GIVEN = {"halves": HALVES, "long": LONG}
WHOLE = [[29, -28], [1013, 1], [1014, 929], [-428, 702], [29, -28]]
TEXT = "((" + ", ".join(f"{x} {y}" for x, y in WHOLE) + "))"
AREA = Fraction(sum(ax * by - bx * ay for (ax, ay), (bx, by) in zip(WHOLE, WHOLE[1:])), 2 * 100 * 100)


def geometry(corners: Corners) -> str:
    return ('{"type": "Polygon", "coordinates": [['
            + ", ".join(f"[{x}, {y}]" for x, y in (*corners, corners[0])) + "]]}")


def feature(corners: Corners) -> str:
    return '{"type": "Feature", "properties": {"name": "own"}, "geometry": ' + geometry(corners) + "}"


class OnePolygon(FrontCase):
    """Of a store in hundredths of the world's unit."""

    scale = {"factor": 100}

    def setUp(self) -> None:
        self.folder = self.enterContext(testing.folder())

    def file(self, name: str, text: str) -> pathlib.Path:
        made = self.folder / name
        made.write_text(text)
        return made

    def package(self, source: pathlib.Path) -> pathlib.Path:
        """The same map as a GeoPackage, by GDAL itself."""
        made = source.with_suffix(".gpkg")
        with gdal_files.by_gdal() as gdal:
            gdal.VectorTranslate(str(made), str(source), format="GPKG", dstSRS="EPSG:4326", reproject=False)
        return made

    def script(self, source: pathlib.Path) -> tuple[str, str]:
        status, output, errors = outcome(to_script, source, "--factor", "100")
        assert status == 0, errors
        return output, errors

    def test_by_scripts(self) -> None:
        for name, corners in GIVEN.items():
            source = self.file(f"{name}.geojson", feature(corners))
            ring = ", ".join(f"{x} {y}" for x, y in (*corners, corners[0]))
            for file in (source, self.file(f"{name}.wkt", f"POLYGON (({ring}))"), self.package(source)):
                output, errors = self.script(file)
                assert output == f"PUT {name} POLYGON {TEXT}\n", file.name
                count = 10 if name == "long" and file.suffix != ".gpkg" else 0
                assert (f", {count} coordinates of more digits than a double has" in errors) == (count > 0), errors

    def test_a_double_beside_a_half_is_that_double_of_a_file_too(self) -> None:
        corners = (("61.31499999999999", "0"), ("70.005", "0"), ("70.005", "9"), ("61.31499999999999", "9"))
        source = self.file("near.geojson", feature(corners))
        for file in (source, self.package(source)):
            assert "((6131 0, 7001 0, 7001 900, 6131 900, 6131 0))" in self.script(file)[0], file.name

    @pytest.mark.features
    def test_by_questions_over_maps(self) -> None:
        for name, corners in GIVEN.items():
            text = self.file(f"{name}.geojson", feature(corners))
            words = [*OVERLAY, "pieces", str(text), str(self.package(text)),
                     "--factor", "100", "--program", str(Programs.features)]
            done = ran(*words, timeout=60)
            assert done.returncode == 0, done.stderr
            _, row, *others = done.stdout.splitlines()
            assert (others, float(row.split(",")[2])) == ([], float(AREA)), done.stdout
            told = done.stderr.splitlines()
            assert ["of more digits than a double has" in line for line in told[:2]] == [name == "long", False], told

    def test_by_requests(self) -> None:
        for name, corners in GIVEN.items():
            told = self.client.ask(f"/collections/{name}", "PUT", geometry(corners).encode())
            assert (told.status, told.value["moved"]) == (200, 0.005), told.value
            with self.server.session() as one:
                texts = {layer.name: layer.text for layer in one.layers()}
            assert TEXT in (texts[name] or "")

    def test_by_the_client(self) -> None:
        store = testing.square_store(self.folder)
        self.file("map.scale.json", '{"factor": 100}')
        with Server(store, program=testing.PROGRAM) as server:
            for corners in GIVEN.values():
                given: Any = json.loads(geometry(corners))
                assert World(server).text_of(given) == f"MULTIPOLYGON ({TEXT})"

    def test_points_are_the_same_ones(self) -> None:
        for (x, y), (long_x, long_y) in zip(HALVES, LONG):
            short, long = (self.client.get(f"/locate?x={a}&y={b}") for a, b in ((x, y), (long_x, long_y)))
            assert (short["asked"], short["exact"]) == (long["asked"], True)
            assert not long["exact"], long

    def test_which_says_what_it_asked(self) -> None:
        store = self.folder / "map.db"
        with Server(store, create=True, program=testing.PROGRAM) as server, server.session() as one:
            one.put("A", "POLYGON ((0 0, 57 -57, 100 100, 0 0))")
            one.sync()
        self.file("map.scale.json", '{"factor": 200}')
        for (x, y), is_exact in ((HALVES[0], True), (LONG[0], False)):
            points = self.file("points.txt", f"{x} {y}\n")
            status, output, errors = outcome(which, "--store", store, "--points", points, "--program", testing.PROGRAM)
            assert (status, output) == (0, "edge\tA\n"), errors
            assert errors == ("" if is_exact else f"asked at 0.285 -0.285, which is nearest to {x} {y}\n")
