"""Tiles of polygons, beside what GDAL reads in them and shapes that are rounded corner by corner."""

from collections.abc import Callable
from typing import Any

import pytest
from osgeo import gdal, ogr

from overlayd.web.vector_tiles import COARSE, EXTENT, square, tile

gdal.UseExceptions()
ogr.UseExceptions()
BOX = square(2, 3750, -42188)  # 128 units wide
RING = "(10 10, 10 60, 60 60, 60 10, 10 10)"
SHAPES = {
    "square": f"POLYGON ({RING})",
    "turned the other way": "POLYGON ((10 10, 60 10, 60 60, 10 60, 10 10))",
    "hole": f"POLYGON ({RING}, (20 20, 20 30.7, 30 30, 30 20, 20 20), (40 40, 50 40, 50 50, 40 50, 40 40))",
    "two": f"MULTIPOLYGON (({RING}), ((70 70, 99.37 70, 80 80, 70 70), (74 71, 80 75, 80 71, 74 71)))",
    "heights": "POLYGON Z ((10 10 1, 60 10 2, 60 60 3, 10 10 1))",
    "far": "POLYGON ((-9e6 10, 9e6 10, 9e6 90, -9e6 90, -9e6 10))",
    "far and crossing itself": "POLYGON ((-9e6 -8e6, 9e6 8e6, 9e6 -8e6, -9e6 8e6, -9e6 -8e6))",
    "beyond an edge": "POLYGON ((-50 -50, 500 20, 30 300, -50 -50))",
}


def moved(text: str) -> Any:
    """A shape that lies so from the corner of the box."""
    return placed(text, lambda x, y: (x + BOX.left, y + BOX.low))


def rounded(text: str, extent: int = EXTENT) -> Any:
    """A shape in the numbers of the tile, each corner rounded by itself."""
    scale = extent / (BOX.right - BOX.left)
    found = placed(text, lambda x, y: (round(x * scale), extent - round(extent - y * scale)))
    found.FlattenTo2D()
    return found


def placed(text: str, where: Callable[[float, float], tuple[float, float]]) -> Any:
    """A shape with each corner elsewhere."""
    found = ogr.CreateGeometryFromWkt(text)
    for ring in rings_of(found):
        for place in range(ring.GetPointCount()):
            x, y, z = ring.GetPoint(place)
            own = where(x, y)
            ring.SetPoint(place, *own, z) if ring.Is3D() else ring.SetPoint_2D(place, *own)
    return found


def rings_of(found: Any) -> list[Any]:
    if found.GetGeometryName() == "LINEARRING":
        return [found]
    return [ring for place in range(found.GetGeometryCount()) for ring in rings_of(found.GetGeometryRef(place))]


def read(body: bytes) -> list[tuple[int, str | None, Any]]:
    """What GDAL finds in a tile: numbers, names, and shapes in the tile's numbers, y up again."""
    gdal.FileFromMemBuffer("/vsimem/0.mvt", body)
    store = gdal.OpenEx("/vsimem/0.mvt", allowed_drivers=["MVT"], open_options=["CLIP=NO"])
    layer = store.GetLayer(0)
    has_name = layer.GetLayerDefn().GetFieldIndex("name") >= 0
    return [(own["mvt_id"], own["name"] if has_name else None, own.GetGeometryRef().Clone()) for own in layer]


@pytest.mark.parametrize("name", SHAPES)
@pytest.mark.parametrize("order", [ogr.wkbNDR, ogr.wkbXDR])
@pytest.mark.parametrize("extent", [EXTENT, COARSE])
def test_a_tile_has_shapes_as_they_are_but_for_rounding(name: str, order: int, extent: int) -> None:
    ((number, word, found),) = read(tile("parcels", [2**40 + 1], [bytes(moved(SHAPES[name]).ExportToWkb(order))],
                                         [name], BOX, extent))
    assert (number, word) == (2**40 + 1, name)
    wanted, most = rounded(SHAPES[name], extent), 0.0
    if name.startswith("far"):  # cut off out of sight
        wanted = wanted.MakeValid()
        frame = ogr.CreateGeometryFromWkt("POLYGON ((-9999 -9999, 9999 -9999, 9999 9999, -9999 9999, -9999 -9999))")
        found, wanted = found.Intersection(frame), wanted.Intersection(frame)
        most = wanted.Boundary().Length() / 4
    assert found.IsValid()
    assert found.SymDifference(wanted).GetArea() <= most, (str(found), str(wanted))


def test_a_tile_of_many_has_each_and_leaves_out_what_is_less_than_a_dot() -> None:
    texts = [f"POLYGON (({x} {y}, {x + 7} {y}, {x + 7} {y + 7.5}, {x} {y}))" for x in range(0, 90, 9)
             for y in range(0, 90, 9)]
    texts[3] = "POLYGON ((5 5, 5.001 5, 5 5.001, 5 5))"
    texts[5], texts[-1] = "POLYGON ((5 5))", "POLYGON ((5 5))"  # one point, among others and at the end
    shapes = [None, b"\x00", *(bytes(moved(text).ExportToWkb()) for text in texts)]
    found = read(tile("parcels", range(len(shapes)), shapes, None, BOX))
    assert [number for number, _, _ in found] == [place + 2 for place in range(len(texts) - 1) if place not in (3, 5)]
    assert all(own.SymDifference(rounded(texts[number - 2])).GetArea() == 0 for number, _, own in found)
    assert tile("parcels", [1], [None], ["x"], BOX) == b""
