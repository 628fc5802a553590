"""Tests of exact shapes and of numbers: against other ways to work them out, by fractions."""

import json
import random
import unittest
from decimal import ROUND_HALF_EVEN, Decimal
from fractions import Fraction

from overlayd.geometry.plane import Box
from overlayd.grid import limits, scale as scales
from overlayd.web import map_scale, shapes
from overlayd.store.world import exact, text_of
from overlayd.web.map_scale import rounded
from overlayd.web.shapes import Feature
from . import testing

Place = tuple[Fraction, Fraction]


def side(a: Place, b: Place, c: Place) -> int:
    """1 where c is on the left of the line from a to b, -1 on the right, 0 on it."""
    turned = (b[0] - a[0]) * (c[1] - a[1]) - (b[1] - a[1]) * (c[0] - a[0])
    return (turned > 0) - (turned < 0)


def between(a: Place, b: Place, c: Place) -> bool:
    return min(a[0], b[0]) <= c[0] <= max(a[0], b[0]) and min(a[1], b[1]) <= c[1] <= max(a[1], b[1])


def touch(a: Place, b: Place, c: Place, d: Place) -> bool:
    """Whether two segments have a point in common, by the sides of their ends."""
    sides = side(a, b, c), side(a, b, d), side(c, d, a), side(c, d, b)
    if sides[0] * sides[1] < 0 and sides[2] * sides[3] < 0:
        return True
    on = ((sides[0], a, b, c), (sides[1], a, b, d), (sides[2], c, d, a), (sides[3], c, d, b))
    return any(one == 0 and between(p, q, r) for one, p, q, r in on)


def inside(rings: list[list[Place]], point: Place) -> bool:
    """Whether a ray to the right from a point meets the edges an odd number of times."""
    odd = False
    for ring in rings:
        for (ax, ay), (bx, by) in zip(ring, ring[1:] + ring[:1]):
            if (ay > point[1]) != (by > point[1]) and point[0] < ax + (point[1] - ay) * (bx - ax) / (by - ay):
                odd = not odd
    return odd


def meets(rings: list[list[Place]], box: Box) -> bool:
    """Whether a polygon and a box have a point in common: a corner of one within the other, or edges that touch."""
    corners = [(box.left, box.low), (box.right, box.low), (box.right, box.high), (box.left, box.high)]
    if any(between(corners[0], corners[2], corner) for ring in rings for corner in ring):
        return True
    if inside(rings, corners[0]):
        return True
    sides = list(zip(corners, corners[1:] + corners[:1]))
    return any(touch(a, b, c, d) for ring in rings for a, b in zip(ring, ring[1:] + ring[:1]) for c, d in sides)


class Shapes(unittest.TestCase):
    def test_a_box_that_touches_in_a_point_meets(self) -> None:
        feature = Feature(1, [[(0, 0, 1), (3, 1, 1), (0, 2, 1)]], testing.map_scale())
        for box, right in (("3 1 5 5", True), ("301/100 1 5 5", False), ("-1 -1 0 0", True), ("3/2 3/2 5 5", True),
                           ("151/100 3/2 5 5", False), ("1 1 1 1", True), ("1 1/3 1 1/3", True), ("-9 -9 9 9", True)):
            assert feature.meets(Box(*map(Fraction, box.split()))) == right, box

    def test_a_box_within_a_hole_meets_nothing(self) -> None:
        outer, hole = [(0, 0, 1), (9, 0, 1), (9, 9, 1), (0, 9, 1)], [(2, 2, 1), (2, 7, 1), (7, 7, 1), (7, 2, 1)]
        feature = Feature(1, [outer, hole], testing.map_scale())
        assert not feature.meets(Box(*map(Fraction, (3, 3, 6, 6))))
        assert feature.meets(Box(*map(Fraction, (3, 3, 6, 7))))
        assert feature.geojson()["properties"] == {"corners": 8, "holes": 1, "area": 56}

    def test_areas_are_those_of_fractions(self) -> None:
        source = random.Random(2)
        for number in range(300):
            scale = testing.map_scale(factor=(1, 100, "42262.5")[number % 3], factor_y=(1, 7)[number % 2], digits=12)
            rings = [
                [
                    (source.randrange(-(2**62), 2**62), source.randrange(-(2**62), 2**62), source.randrange(1, 2**42))
                    for _ in range(source.randrange(3, 9))
                ]
            ]
            places = [scale.scale.world(corner) for corner in rings[0]]
            twice = sum(a[0] * b[1] - b[0] * a[1] for a, b in zip(places, places[1:] + places[:1]))
            right = float(rounded(twice.numerator, twice.denominator * 2, 12))
            assert float(shapes.area_of(rings, scale)) == right


class Numbers(unittest.TestCase):
    def test_numbers_are_bounded(self) -> None:
        for text, value in (("1", 1), ("-0.5", Fraction(-1, 2)), ("1e3", 1000), ("5/3", Fraction(5, 3)),
                            (".5", Fraction(1, 2)), ("2.5e-2", Fraction(1, 40)), ("+7", 7), ("-1/4", Fraction(-1, 4))):
            assert exact(text) == value, text
        bad: tuple[object, ...] = ("", ".", "1e999", "1e99999999", "1/0", "1//2", "nan", "inf", "0x10", "1" * 21, "1_0",
                                   "1/3.5", "e5", "٣", True, None, [1])
        for given in bad:
            self.assertRaises(ValueError, exact, given)

    def test_rounding_is_to_the_nearest_and_halves_to_even(self) -> None:
        source = random.Random(3)
        for number in range(2000):
            over, under = source.randrange(-(10**9), 10**9), source.randrange(1, 10**4)
            digits = number % 7
            if number % 5 == 0:
                over, under = (2 * over + 1) * 5, 10 ** (digits + 1)  # a half
            right = (Decimal(over) / Decimal(under)).quantize(Decimal(1).scaleb(-digits), ROUND_HALF_EVEN)
            if Fraction(over, under) * 2 * 10**digits % 1 == 0:  # a quotient that Decimal cuts off is no half
                right = Decimal(round(Fraction(over, under) * 10**digits)).scaleb(-digits)
            found = rounded(over, under, digits)
            assert found == float(right), (over, under, digits)
            assert isinstance(found, int) == (right == int(right))

    def test_a_place_in_the_world_is_that_of_fractions(self) -> None:
        source = random.Random(4)
        scale = testing.map_scale(factor="42262.25", factor_y=100000, origin=["-19.125", 65], digits=9)
        for _ in range(500):
            corner = (source.randrange(-(2**40), 2**40), source.randrange(-(2**40), 2**40), source.randrange(1, 2**21))
            world = scale.scale.world(corner)
            assert scale.position(corner) == [scale.number(n) for n in world]
            assert scale.scale.stored(*world) == (Fraction(*corner[::2]), Fraction(*corner[1:]))

    def test_systems(self) -> None:
        assert testing.map_scale().uri() is None
        assert testing.map_scale(crs="OGC:CRS84").uri() == map_scale.CRS84
        assert testing.map_scale(crs="EPSG:32633").uri() == "http://www.opengis.net/def/crs/EPSG/0/32633"
        for crs in ("WGS84", "EPSG:", "EPSG:1 2", "http://x/", "EPSG:1234567890"):
            self.assertRaises(scales.ScaleFault, testing.map_scale, crs=crs)

    def test_columns_and_limits(self) -> None:
        scale = testing.map_scale(factor=2, origin=[100, 0])
        assert scale.limits() == [100 - 2**19, -(2**19), 100 + 2**19, 2**19]
        assert (len(scale.columns()), scale.columns()[0], scale.columns()[-1]) == \
            (limits.COLUMNS, 100 - 2**19, 100 + 2**19)


class Texts(unittest.TestCase):
    def test_a_geometry_becomes_a_text(self) -> None:
        scale = scales.of_value(dict(factor=100, origin=[500, 0]))
        ring = [["500.5", 0], [501, 0], [501, 1, 77], ["500.5", 0]]
        given = json.loads(json.dumps({"type": "Polygon", "coordinates": [ring]}), parse_int=str)
        assert text_of(given, scale) == ("MULTIPOLYGON (((50 0, 100 0, 100 100, 50 0)))", 0.0)
        self.assertEqual(
            text_of({"type": "MultiPolygon", "coordinates": [[ring], [ring, ring]]}, scale).wkt.count("50 0, 100 0"), 3
        )
        assert text_of({"type": "MultiPolygon", "coordinates": []}, scale).wkt == "MULTIPOLYGON EMPTY"
        assert text_of({"type": "Polygon", "coordinates": []}, scale).wkt == "MULTIPOLYGON EMPTY"

    def test_it_tells_how_far_a_corner_is_moved(self) -> None:
        scale = scales.of_value(dict(factor=100, factor_y=10))
        ring = [["0.001", 0], [1, 0], [1, "0.96"], ["0.001", 0]]
        text = text_of({"type": "Polygon", "coordinates": [ring]}, scale)
        assert text == ("MULTIPOLYGON (((0 0, 100 0, 100 10, 0 0)))", 0.04)

    def test_what_is_no_polygon_is_refused(self) -> None:
        bad: tuple[object, ...] = (
            None, [], {}, {"type": "Point", "coordinates": [0, 0]}, {"type": "Polygon"},
            {"type": ["Polygon"], "coordinates": []}, {"type": "Polygon", "coordinates": [[]]},
            {"type": "Polygon", "coordinates": [[[0]]]}, {"type": "Polygon", "coordinates": [[["a", 0]]]},
            {"type": "Polygon", "coordinates": "x"}, {"type": "Polygon", "coordinates": {"0": 1}},
            {"type": "Polygon", "coordinates": [[["1e99999999", 0]]]},
            {"type": "MultiPolygon", "coordinates": [[[[]]]]},
        )
        for given in bad:
            self.assertRaises(ValueError, text_of, given, scales.Scale())
