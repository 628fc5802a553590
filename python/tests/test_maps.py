"""Tests on two real maps: in by overlay import, through a store, and out again, with the program."""

import json
import pathlib
import random
import re
from decimal import Decimal
from fractions import Fraction
from typing import Any

from overlayd.commands import export as to_geojson, import_ as to_script, rings as to_rings, which
from overlayd.geometry import wkt
from overlayd.geometry.plane import turn
from overlayd.store.layers import rings_of_text
from .common import WithProgram, outcome, path
from .plain import Corner, area_twice, below, on, overlay, segments_of
from .test_layouts import geojson, zigzag

COUNTIES = path("data", "north_carolina.geojson")
ICELAND = [path("data", f"iceland_{scale}.geojson") for scale in ("110m", "50m")]


def area_of_script(text: str) -> dict[str, Fraction]:
    """The areas of a script's base layers, whose rings do not cross: outer rings less their holes."""
    found = {}
    for line in text.splitlines():
        word, name, rest = line.split(" ", 2)
        if word != "PUT":
            continue
        polygons = wkt.polygons_of(*wkt.read_all(rest)[0]) or []
        twice = sum(abs(area_twice(rings[0][:-1])) - sum(abs(area_twice(ring[:-1])) for ring in rings[1:])
                    for rings in polygons)
        found[name] = Fraction(twice) / 2
    return found


class RoundTrips(WithProgram):
    def made(self, files: list[str], *words: object) -> pathlib.Path:
        """The store of a map, whose script is map.txt."""
        script = self.folder / "map.txt"
        status, output, errors = outcome(to_script, *files, "--output", script, *words)
        assert (status, output) == (0, ""), errors
        return self.store("map.db", script.read_bytes())

    def features(self, store: pathlib.Path, *words: object) -> dict[str, Any]:
        """The features that overlay export writes of a store, by layer, and the file in map.geojson."""
        status, output, errors = outcome(to_geojson, "--store", store, "--program", self.program, *words)
        assert status == 0, errors
        self.file("map.geojson", output)
        return {one["properties"]["layer"]: one for one in json.loads(output)["features"]}

    def back(self) -> str:
        """The script that comes of what was written."""
        status, output, errors = outcome(to_script, self.folder / "map.geojson", "--name-by", "layer", "--scale",
                                         self.folder / "map.scale.json")
        assert status == 0, errors
        assert "refused" not in errors
        assert all(float(move) < 1e-8 for move in re.findall(r"largest move (\S+),", errors)), errors
        return output

    def check(self, files: list[str], *words: object) -> None:
        store = self.made(files, *words)
        areas = area_of_script((self.folder / "map.txt").read_text())
        features = self.features(store)
        assert list(features) == list(areas)
        scale = json.loads((self.folder / "map.scale.json").read_text(), parse_float=Decimal)
        unit = Fraction(scale["factor"]) * Fraction(scale["factor_y"])
        for name, area in areas.items():
            assert Fraction(features[name]["properties"]["area_exact"]) == area / unit
            told = outcome(to_rings, "--store", store, "--program", self.program, "--layer", name, "--areas")[1]
            assert Fraction(told.split()[-1]) == area / unit
        again = self.back()
        assert area_of_script(again) == areas
        other = self.store("again.db", again)
        self.file("again.scale.json", (self.folder / "map.scale.json").read_bytes())
        first, second = self.features(store), self.features(other)
        assert [one["geometry"] for one in first.values()] == [one["geometry"] for one in second.values()]

    def test_two_outlines_of_iceland(self) -> None:
        self.check(ICELAND, "--factor", 42262, "--factor-y", 100000, "--origin", -19, 65)

    def test_iceland_by_a_fitted_scale(self) -> None:
        self.check(ICELAND, "--fit")

    def test_counties_in_their_own_layers(self) -> None:
        text = json.loads(pathlib.Path(COUNTIES).read_text(), parse_float=Decimal)
        text["features"] = text["features"][40:60]
        file = self.file("some.geojson", json.dumps(text, default=float))
        self.check([str(file)], "--fit", "--name-by", "name")

    def test_the_overlay_of_two_outlines(self) -> None:
        store = self.made(ICELAND, "--factor", 42262, "--factor-y", 100000, "--origin", -19, 65)
        script = (self.folder / "map.txt").read_text() + "DEFINE both = iceland_110m & iceland_50m\n"
        store = self.store("both.db", script)
        layers = [[ring[:-1] for ring in rings_of_text(line)] for line in script.splitlines() if line[:4] == "PUT "]
        beside: dict[Corner, list[Corner]] = {}  # at each end of a piece the others of the pieces there
        for one, other in overlay(layers, "&"):
            beside.setdefault(one, []).append(other)
            beside.setdefault(other, []).append(one)
        corners = [(Fraction(x, w), Fraction(y, w)) for (x, y, w), (one, other) in beside.items()
                   if turn(one, (x, y, w), other)]
        told = outcome(to_rings, "--store", store, "--program", self.program, "--exact")[1].splitlines()
        got = [tuple(map(Fraction, line.split())) for line in told if not line.startswith("polygon")]
        assert (told[0], sorted(got)) == ("polygons 2", sorted(corners))


class Counties(WithProgram):
    """The 100 counties of North Carolina in four stores of a layer each."""

    def setUp(self) -> None:
        super().setUp()
        script = self.folder / "nc.txt"
        status, _, errors = outcome(to_script, COUNTIES, "--fit", "--name-by", "name", "--output", script)
        assert status == 0, errors
        scripts = [self.folder / f"nc.{place}.txt" for place in range(1, 5)]
        self.stores = [self.store(f"nc.{place}.db", one.read_bytes()) for place, one in enumerate(scripts, 1)]
        value = json.loads(pathlib.Path(COUNTIES).read_text(), parse_float=Decimal)
        self.rings = {}
        for feature in value["features"]:
            polygons = feature["geometry"]["coordinates"]
            polygons = [polygons] if feature["geometry"]["type"] == "Polygon" else polygons
            rings = [[(int(x * 100000), int(y * 100000)) for x, y in ring] for polygon in polygons for ring in polygon]
            self.rings[feature["properties"]["name"].replace(" ", "_")] = segments_of(rings)

    def which(self, *words: object) -> tuple[int, str, str]:
        stores = [word for store in self.stores for word in ("--store", store)]
        return outcome(which, *stores, "--program", self.program, *words)

    def test_points_are_told_their_county(self) -> None:
        source = random.Random(100)
        points = [(source.randrange(-8432386, -7545697), source.randrange(3388199, 3658965)) for _ in range(400)]
        wanted = [[name for name, segments in self.rings.items() if below(segments, (x, y, 1)) % 2] for x, y in points]
        for place, (x, y) in enumerate(points):
            assert not any(on(segments, (x, y, 1)) for segments in self.rings.values()), place
        assert sum(map(len, wanted)) > 150
        text = "".join(f"{Decimal(x) / 100000} {Decimal(y) / 100000}\n" for x, y in points)
        status, output, errors = self.which("--points", self.file("points.txt", text))
        assert (status, errors) == (0, "")
        assert [line.split("\t") if line else [] for line in output.splitlines()] == wanted

    def test_on_a_common_border_both_are_named(self) -> None:
        one, other = (set(self.rings[name]) for name in ("Ashe", "Alleghany"))
        ax, ay, bx, by = sorted(one & other)[0]
        point = f"{Decimal(ax + bx) / 200000} {Decimal(ay + by) / 200000}".split()
        assert self.which("--", *point)[:2] == (0, "edge\tAshe\tAlleghany\n")


class LargeMaps(WithProgram):
    def test_a_ring_of_5000_steps_comes_out_whole(self) -> None:
        ring = zigzag(5000)
        file, script = self.file("long.geojson", geojson(("Long", [[ring]]))), self.folder / "long.txt"
        assert outcome(to_script, file, "--split", "--name-by", "name", "--output", script)[0] == 0
        store = self.store("long.db", script.read_bytes())
        words = ["--store", store, "--program", self.program, "--layer", "Long"]
        area = Fraction(outcome(to_rings, *words, "--areas")[1].split()[-1])
        assert area == abs(Fraction(area_twice(ring[:-1]), 2))
        # One ring, and its corners are those at which the given one turns.
        told = outcome(to_rings, *words, "--exact")[1].splitlines()
        assert told[0] == "polygons 1"
        around = zip([ring[-2], *ring], ring, ring[1:])
        turns = {here for before, here, after in around if turn((*before, 1), (*here, 1), (*after, 1))}
        assert {tuple(map(int, line.split())) for line in told[2:]} == turns

    def test_overlapping_polygons_are_united(self) -> None:
        squares = [f"POLYGON (({x} 0, {x + 10} 0, {x + 10} 10, {x} 10, {x} 0))" for x in (0, 5, 14, 40)]
        file, script = self.file("plan.wkt", " ".join(squares)), self.folder / "plan.txt"
        assert outcome(to_script, file, "--union", "--output", script)[0] == 0
        store = self.store("plan.db", script.read_bytes())
        told = outcome(to_rings, "--store", store, "--program", self.program, "--areas")[1]
        assert told == "polygon 1 outer area 240 240\npolygon 2 outer area 100 100\narea 340 340\n"
