"""Shapes of a register: each on the grid by itself, or all in one pass when a register begins."""

import random
import struct
from collections.abc import Callable
from fractions import Fraction
from pathlib import Path

import numpy as np
import pytest
from osgeo import gdal, ogr

from overlayd.kernel.columns import of_bytes
from overlayd.register.blobs import UNREADABLE, blob_of, bounds, box_of, system_of, well_known
from overlayd.register.gridding import grid_for
from overlayd.register.model import Refused, factor_of
from overlayd.register.package import GeoPackage
from overlayd.register.snapping import snap
from overlayd.register.taking import taken

from . import register_works as works

FACTOR = Fraction(1000)


def shape(text: str) -> bytes:
    return bytes(ogr.CreateGeometryFromWkt(text).ExportToIsoWkb())


def drawn(draw: random.Random) -> bytes | None:
    """A shape of some kind: on the grid, off it, with long steps, with a hole, or none."""
    what = draw.random()
    if what < 0.1:
        return None if what < 0.05 else b"\1\3\0\0\0"
    scale = draw.choice((1.0, 1.0, 1e4))
    x, y = (draw.randint(0, 10**6) / 1000 * scale for _ in "xy")
    off = draw.choice((0.0, 0.0, 0.0004, 1e-9))
    side = draw.randint(1, 9000) / 1000 * scale
    ring = [(x, y), (x + side + off, y), (x + side, y + side - off), (x, y + side), (x, y)]
    hole = [(x + side / 4, y + side / 4), (x + side / 2, y + side / 4), (x + side / 4, y + side / 2),
            (x + side / 4, y + side / 4)]
    return works.polygon(ring, *([hole] if draw.random() < 0.3 else []))


@pytest.mark.parametrize("seed", range(20))
def test_what_a_feature_is_does_not_depend_on_the_others(seed: int) -> None:
    draw = random.Random(seed)
    shapes = [drawn(draw) for _ in range(12)]
    together = taken(of_bytes(shapes), FACTOR)
    for place, one in enumerate(shapes):
        alone, own = taken(of_bytes([one]), FACTOR), together.features.part(np.array([place]))
        for name in ("x", "y", "ring_at", "feature_at"):
            assert getattr(alone.features, name).tolist() == getattr(own, name).tolist()
        assert [what for _, what in alone.told] == [what for at, what in together.told if at == place]


def test_coordinates_become_the_nearest_whole_numbers() -> None:
    ring = [(0.0005, 1.0015), (3.2504999, -0.0005), (2.0, 4.9996), (0.0005, 1.0015)]
    own = taken(of_bytes([works.polygon(ring)]), FACTOR)
    assert own.features.x.tolist() == [works.whole(x) for x, _ in ring[:-1]] == [1, 3250, 2000]
    assert own.features.y.tolist() == [works.whole(y) for _, y in ring[:-1]] == [1002, 0, 5000]


def test_doubles_that_stand_for_the_grid_are_on_it() -> None:
    draw = random.Random(7)
    numbers = [draw.randint(-6 * 10**9, 6 * 10**9) for _ in range(3000)]
    ways: list[Callable[[int], float]] = [lambda number: number / 1000, lambda number: number * 0.001]
    for spelled in ways:
        rings = [[(spelled(own + x), spelled(own + y)) for x, y in ((0, 0), (9, 0), (0, 7), (0, 0))] for own in numbers]
        assert taken(of_bytes([works.polygon(ring) for ring in rings]), FACTOR).told == []


def test_geometries_of_a_geopackage_and_back() -> None:
    own = shape("POLYGON ((0 1,2 1,2 5,0 1))")
    made = blob_of(own, 25832, (0, 1, 2, 5))
    assert (well_known(made), system_of(made), box_of(made), bounds(own)) == (own, 25832, (0, 1, 2, 5), (0, 1, 2, 5))
    empty = blob_of(shape("POLYGON EMPTY"), -1, None)
    assert (box_of(empty), system_of(empty)) == (None, -1)
    bare = struct.pack("<2sBBi", b"GP", 0, 1, 25832) + own
    assert (well_known(bare), box_of(bare)) == (own, (0, 1, 2, 5))
    assert [well_known(odd) for odd in (None, "text", b"", b"XX" + made[2:], made[:3] + b"\x21" + made[4:])] == \
        [None, *[UNREADABLE] * 4]


def test_grids() -> None:
    assert factor_of("0.001") == 1000 and factor_of("1/2") == 2
    for text in ("0", "-1", "x", "1/0"):
        with pytest.raises(Refused, match="no grid"):
            factor_of(text)


def two_layers(path: Path, *texts: list[str]) -> GeoPackage:
    """Layers a, b .. of shapes."""
    store = gdal.GetDriverByName("GPKG").Create(str(path), 0, 0, 0)
    for name, own in zip("ab", texts):
        layer = store.CreateLayer(name, None, ogr.wkbUnknown)
        for text in own:
            feature = ogr.Feature(layer.GetLayerDefn())
            feature.SetGeometry(ogr.CreateGeometryFromWkt(text))
            layer.CreateFeature(feature)
    del layer, store
    return GeoPackage(str(path), writes_layers=True)


def test_a_corner_on_a_neighbours_border_stays_on_it(tmp_path: Path) -> None:
    wide = "POLYGON ((0 0,10.0004 0,9.9996 3,0 3,0 0))"
    sides = ["MULTIPOLYGON (((10.0004 0,14 0,14 1.5,10 1.5,10.0004 0)))",
             "POLYGON ((10 1.5,14 1.5,14 3,9.9996 3,10 1.5))"]
    far = ["POLYGON Z ((50.0004 0 1,51 0 1,50 1 1,50.0004 0 1))", "POLYGON ((60 0,60.0001 0,60 0.0001,60 0))",
           "POLYGON ((70 0,79 0,79 9,70 9,70 0),(72 2,73 2,72 3,72 2))"]
    engine = two_layers(tmp_path / "land.gpkg", [wide, *far], sides)
    assert grid_for(engine, ["a", "b"]) == 10**4  # the digits of the corners
    layers = [engine.layer(name, None) for name in "ab"]
    before = {name: engine.features(layer).shapes for name, layer in zip("ab", layers)}
    assert snap(engine, layers, FACTOR) == {"a": 1, "b": 2}
    after = {name: engine.features(layer).shapes for name, layer in zip("ab", layers)}
    assert after["a"][1:] == before["a"][1:]
    first, second, third = (ogr.CreateGeometryFromWkb(own) for own in (after["a"][0], *after["b"]))
    assert [own.GetGeometryName() for own in (first, second, third)] == ["POLYGON", "MULTIPOLYGON", "POLYGON"]
    assert all(abs(1000 * number - round(1000 * number)) < 1e-6 for own in (first, second, third)
               for ring in works.rings_of(bytes(own.ExportToWkb())) for corner in ring for number in corner)
    assert (10.0, 1.5) in works.rings_of(bytes(first.ExportToWkb()))[0]
    for a, b in ((first, second), (first, third), (second, third)):
        assert a.Intersection(b).Area() == 0 and a.Touches(b)
    assert engine.ask("SELECT minx, maxx FROM rtree_b_geom WHERE id = 2") == [(10.0, 14.0)]
    assert snap(engine, layers, FACTOR) == {"a": 0, "b": 0}
