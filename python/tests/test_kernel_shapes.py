"""Columns of Well-Known Binary: what is read is what a plain reader reads; and what is written reads back."""

import struct

import numpy as np
import pytest
from hypothesis import given, settings
from hypothesis import strategies as drawn
from osgeo import ogr

from overlayd.kernel import ring_walk
from overlayd.kernel.columns import Column, of_arrow, of_bytes
from overlayd.kernel.ring_walk import Reason, ShapeFault
from overlayd.kernel.shapes import Shapes, column_of, shapes

Place = tuple[float, float]
Polygon = list[list[Place]]
DIMENSIONS = {0: 2, 1000: 3, 2000: 3, 3000: 4, 0x80000000: 3, 0x40000000: 3, 0xC0000000: 4}

numbers = drawn.floats(-1e9, 1e9)
ways = drawn.lists(drawn.tuples(numbers, numbers), min_size=1, max_size=5)
polygons = drawn.lists(ways, max_size=4)
features = drawn.lists(drawn.lists(polygons, max_size=4), max_size=12)
forms = drawn.tuples(drawn.sampled_from("<>"), drawn.sampled_from(sorted(DIMENSIONS)), drawn.booleans())


def written(polygon_list: list[Polygon], form: tuple[str, int, bool], is_single: bool) -> bytes:
    """A polygon, or a multipolygon, with each ring's closing point, in a form."""
    order, kind, has_system = form
    system = has_system * 0x20000000

    def head(own: int, count: int, of_whole: bool) -> bytes:
        number = struct.pack(order + "I", 4326) if has_system and of_whole else b""
        flag = system if of_whole else 0
        return struct.pack(order + "BI", order == "<", own + kind | flag) + number + struct.pack(order + "I", count)

    def polygon(rings: Polygon, of_whole: bool) -> bytes:
        more = (0.5,) * (DIMENSIONS[kind] - 2)
        points = [[corner + more for corner in ring + ring[:1]] for ring in rings]
        return head(3, len(rings), of_whole) + b"".join(
            struct.pack(order + "I", len(own)) + b"".join(struct.pack(f"{order}{len(one)}d", *one) for one in own)
            for own in points)

    if is_single:
        return polygon(polygon_list[0], True)
    return head(6, len(polygon_list), True) + b"".join(polygon(one, False) for one in polygon_list)


def rings_of(found: Shapes) -> list[list[tuple[bool, list[Place]]]]:
    """Of each feature its rings, whether outer ones, with their corners."""
    corners, ends = list(zip(found.x.tolist(), found.y.tolist())), np.cumsum(found.sizes).tolist()
    rings = [(outer, corners[end - size : end]) for outer, size, end in
             zip(found.is_outer.tolist(), found.sizes.tolist(), ends)]
    stops = np.cumsum(found.counts).tolist()
    return [rings[stop - count : stop] for count, stop in zip(found.counts.tolist(), stops)]


@settings(deadline=None)
@given(features, drawn.lists(forms, min_size=12, max_size=12), drawn.integers(0, 3))
def test_rings_are_read_in_every_form(given_features: list[list[Polygon]], each: list[tuple[str, int, bool]],
                                      few: int) -> None:
    singles = [len(own) == 1 for own in given_features]
    column = of_bytes([written(own, form, single) for own, form, single in zip(given_features, each, singles)])
    was, ring_walk.FEW = ring_walk.FEW, few
    try:
        found = shapes(column)
    finally:
        ring_walk.FEW = was
    assert rings_of(found) == [[(place == 0, ring) for polygon in own for place, ring in enumerate(polygon)]
                               for own in given_features]
    assert not len(found.others)


@settings(deadline=None)
@given(features)
def test_what_is_written_reads_back_and_gdal_reads_it(given_features: list[list[Polygon]]) -> None:
    found = shapes(of_bytes([written(own, ("<", 0, False), False) for own in given_features]))
    number = np.arange(len(found.sizes))
    outer = np.where(found.is_outer, -1, np.maximum.accumulate(np.where(found.is_outer, number, -1)))
    column = column_of(found.x, found.y, found.sizes, outer, found.counts)
    assert rings_of(shapes(column)) == rings_of(found)
    for own, binary in zip(given_features, column.to_list()):
        live = [polygon for polygon in own if polygon]
        shape = ogr.CreateGeometryFromWkb(binary)
        assert shape.ExportToWkb(ogr.wkbNDR) == binary == column.shape(given_features.index(own))
        assert shape.GetGeometryName() == ("POLYGON" if len(live) == 1 else "MULTIPOLYGON")


def test_holes_are_written_after_their_own_outer_ring() -> None:
    x, y = np.array([0.0, 9, 9, 1, 2, 1, 20, 29, 29, 21, 22, 21]), np.array([0.0, 0, 9, 1, 2, 2, 0, 0, 9, 1, 2, 2])
    sizes, counts = np.array([3, 3, 3, 3]), np.array([0, 4])
    column = column_of(x, y, sizes, np.array([-1, 2, -1, 0]), counts)
    assert column.to_list()[0] == ogr.CreateGeometryFromWkt("MULTIPOLYGON EMPTY").ExportToWkb(ogr.wkbNDR)
    assert ogr.CreateGeometryFromWkb(column.shape(1)).ExportToWkt() == (
        "MULTIPOLYGON (((0 0,9 0,9 9,0 0),(21 1,22 2,21 2,21 1)),((20 0,29 0,29 9,20 0),(1 1,2 2,1 2,1 1)))")


@pytest.mark.parametrize("text, kind", [
    ("POINT (1 2)", 1), ("GEOMETRYCOLLECTION (POINT (1 2))", 7), ("CURVEPOLYGON (CIRCULARSTRING (0 0,1 1,0 0))", 10),
    ("TIN Z (((0 0 0,1 0 0,0 1 0,0 0 0)))", 16)])
def test_other_kinds_are_named_and_the_rest_is_read(text: str, kind: int) -> None:
    both = ["POLYGON ((0 0,1 0,0 1,0 0))", text, "POLYGON EMPTY", None]
    made = [None if one is None else bytes(ogr.CreateGeometryFromWkt(one).ExportToIsoWkb(ogr.wkbNDR)) for one in both]
    found = shapes(of_bytes(made))
    assert (found.others.tolist(), found.kinds.tolist(), found.counts.tolist()) == ([1], [kind], [1, 0, 0, 0])


SQUARE = written([[[(0.0, 0.0), (1.0, 0.0), (1.0, 1.0)]]], ("<", 0, False), True)
MANY = written([[[(0.0, 0.0), (1.0, 0.0), (1.0, 1.0)]]] * 2, ("<", 0, False), False)


@pytest.mark.parametrize("few", [0, 50])
@pytest.mark.parametrize("wrong, reason", [
    *[(SQUARE[:cut], Reason.CUT) for cut in (1, 4, 5, 8, 9, 12, 13, 20, len(SQUARE) - 1)],
    *[(MANY[:cut], Reason.CUT) for cut in (9, 10, 17, 18, 21, len(MANY) // 2 + 5, len(MANY) - 1)],
    (SQUARE[:9] + b"\xff\xff\xff\xff" + SQUARE[13:], Reason.CUT),
    (MANY[:10] + b"\2" + MANY[11:], Reason.PART),
    (SQUARE + b"\0", Reason.LONGER),
    (SQUARE[:-8] + struct.pack("<d", 5.0), Reason.OPEN),
    (SQUARE[:29] + struct.pack("<d", float("nan")) + SQUARE[37:], Reason.NO_NUMBER),
    (SQUARE[:29] + struct.pack("<d", float("inf")) + SQUARE[37:], Reason.NO_NUMBER)])
def test_a_shape_that_cannot_be_read_is_named(wrong: bytes, reason: Reason, few: int,
                                              monkeypatch: pytest.MonkeyPatch) -> None:
    monkeypatch.setattr(ring_walk, "FEW", few)
    with pytest.raises(ShapeFault) as refused:
        shapes(of_bytes([SQUARE, wrong, SQUARE, MANY]))
    assert (refused.value.feature, refused.value.reason) == (1, reason)


def test_columns_of_one_length_are_read_as_others() -> None:
    same = np.array([SQUARE, SQUARE], f"V{len(SQUARE)}")
    others = np.array([SQUARE, None, MANY], object)
    assert rings_of(shapes(of_arrow(same))) == 2 * rings_of(shapes(of_bytes([SQUARE])))
    assert [len(own) for own in rings_of(shapes(of_arrow(others)))] == [1, 0, 2]
    assert not len(shapes(Column(np.zeros(0, np.uint8), np.zeros(1, np.int64))).x)
