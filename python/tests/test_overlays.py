"""Tests of polygons and pieces of random layers beside the plain overlay."""

import random
import unittest
from collections.abc import Callable
from fractions import Fraction
from typing import Any

from overlayd.geometry import wkt
from overlayd.geometry.areas import Ring, area_of_all
from overlayd.geometry.plane import turn
from overlayd.program import Point as Corner
from overlayd.program_files import FEATURES, found_program
from overlayd.store import layers, outlines
from overlayd.store.opening import opened
from .common import WithProgram
from .plain import OPERATIONS, area_twice, below, homogeneous, on, overlay, random_rings, segments_of


def contains(ring: Ring, point: Corner) -> bool:
    """Whether an odd number of a ring's edges are below a point that is on none of them."""
    x, y = Fraction(point[0], point[2]), Fraction(point[1], point[2])
    corners = [(Fraction(cx, w), Fraction(cy, w)) for cx, cy, w in ring.corners]
    edges = [sorted(pair) for pair in zip(corners, corners[1:] + corners[:1])]
    return sum(ax <= x < bx and ay + (by - ay) * (x - ax) / (bx - ax) < y for (ax, ay), (bx, by) in edges) % 2 == 1


def check_holes(test: unittest.TestCase, polygons: list[list[Ring]]) -> None:
    """Each hole is of the polygon whose outer ring is the least of those that it lies in."""
    for polygon in polygons:
        for hole in polygon[1:]:
            (ax, ay), (bx, by) = [(Fraction(x, w), Fraction(y, w)) for x, y, w in hole.corners[:2]]
            part = Fraction(144, 377)
            place = homogeneous(ax + part * (bx - ax), ay + part * (by - ay))
            round_it = [other for other in polygons if contains(other[0], place)]
            test.assertIs(min(round_it, key=lambda other: area_of_all([other[:1]])), polygon)


def check(test: unittest.TestCase, layers: list[Any], inside: Callable[..., bool], polygons: list[list[Ring]]) -> None:
    """Corners turn, no ring passes a place twice, areas are of their sign, and places have the right answer."""
    lists = [segments_of(rings) for rings in layers]
    check_holes(test, polygons)
    for polygon in polygons:
        test.assertEqual([ring.outer for ring in polygon], [True] + [False] * (len(polygon) - 1))
        for ring in polygon:
            corners = [(Fraction(x, w), Fraction(y, w)) for x, y, w in ring.corners]
            test.assertEqual(len(set(corners)), len(corners))
            test.assertTrue(all(turn(*three) for three in zip(
                ring.corners[-1:] + ring.corners[:-1], ring.corners, ring.corners[1:] + ring.corners[:1])))
            test.assertEqual(area_twice(corners) > 0, ring.outer)
    for x in range(-14, 15, 3):
        for y in range(-14, 15, 3):
            point = 77 * x + 11, 77 * y + 7, 77
            if any(on(segments, point) for segments in lists):
                continue
            expected = inside(*(below(segments, point) % 2 == 1 for segments in lists))
            within = [contains(polygon[0], point) and not any(contains(ring, point) for ring in polygon[1:])
                      for polygon in polygons]
            test.assertEqual(sum(within), 1 if expected else 0)


def polygons_of(given: list[Any], operation: str) -> list[list[Ring]]:
    """What the program joins of an operation on two layers."""
    base = {name: [ring + ring[:1] for ring in rings] for name, rings in zip("AB", given)}
    made = layers.Layers([*"ABC"], base, {"C": f"A {operation} B"})
    return outlines.polygons(made, "C", found_program(FEATURES))


class ProgramBeside(WithProgram):
    def test_polygons_of_random_layers(self) -> None:
        source = random.Random(20)
        for number in range(120):
            reach = 5 if number % 2 else 14
            given = [random_rings(source, reach), random_rings(source, reach)]
            operation = "&|-^"[number % 4]
            check(self, given, OPERATIONS[operation], polygons_of(given, operation))

    def test_the_program_gives_the_same_pieces(self) -> None:
        source = random.Random(21)
        for number in range(12):
            given = [random_rings(source, 8), random_rings(source, 8)]
            operation = "&|-^"[number % 4]
            texts = [wkt.write([[ring + ring[:1]] for ring in rings]) for rings in given]
            puts = [f"PUT {name} {text}" for name, text in zip("AB", texts)]
            with opened(self.program) as session:
                columns = layers.columns_of(session, "C", [*puts, f"DEFINE C = A {operation} B"])
            pieces, missing = layers.pieces_of(columns)
            assert missing == []
            assert sorted(pieces) == sorted(overlay(given, operation))
            corners = {corner for polygon in polygons_of(given, operation)
                       for ring in polygon for corner in ring.corners}
            assert corners <= {end for piece in pieces for end in piece}
