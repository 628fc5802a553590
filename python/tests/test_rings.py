"""Tests of overlay rings, and of the polygons of layers in fixtures/."""

import unittest
from fractions import Fraction

import pytest

from overlayd.commands import rings
from overlayd.ending import Unusable
from overlayd.program_files import FEATURES, found_program
from overlayd.store import outlines
from overlayd.store.layers import Layers
from .common import InFolder, content, fixture, outcome
from .plain import Place, area_twice

pytestmark = pytest.mark.features


def rings_of(layers: Layers, layer: str) -> list[list[tuple[bool, list[Place]]]]:
    """The rings of a layer's polygons, corners as pairs of fractions."""
    return [[(ring.outer, [(Fraction(x, w), Fraction(y, w)) for x, y, w in ring.corners]) for ring in polygon]
            for polygon in outlines.polygons(layers, layer, found_program(FEATURES))]


def outer(*corners: tuple[object, object]) -> tuple[bool, list[Place]]:
    return True, [(Fraction(str(x)), Fraction(str(y))) for x, y in corners]


def hole(*corners: tuple[object, object]) -> tuple[bool, list[Place]]:
    return False, outer(*corners)[1]


class Rings(InFolder):
    def setUp(self) -> None:
        super().setUp()
        self.layers, _ = fixture("shapes")

    def test_a_square(self) -> None:
        self.assertEqual(rings_of(self.layers, "I"), [[outer((5, 5), (10, 5), (10, 10), (5, 10))]])

    def test_fractional_corners(self) -> None:
        third = Fraction(1, 3)
        self.assertEqual(rings_of(self.layers, "F"),
                         [[outer((1, third), (2, 2 * third), (2, 4 * third), (1, 5 * third))]])

    def test_what_touches_is_parted(self) -> None:
        self.assertEqual(rings_of(self.layers, "Bow"),
                         [[outer((0, 0), (2, 2), (0, 4))], [outer((2, 2), (4, 0), (4, 4))]])

    def test_borders_of_columns_are_no_corners(self) -> None:
        side = 200000
        self.assertEqual(rings_of(self.layers, "Ring"), [
            [outer((-side, -side), (side, -side), (side, side), (-side, side)),
             hole((-90000, 0), (0, 90000), (90000, 0), (0, -side))],
            [outer((-10, -10), (10, -10), (10, 10), (-10, 10))]])

    def test_a_chain_of_holes(self) -> None:
        self.assertEqual(rings_of(self.layers, "Chain"), [
            [outer((-9, -9), (9, -9), (9, 9), (-9, 9)),
             hole((-6, -3), (-3, 0), (-6, 3), (-3, 6), (0, 3), (3, 6),
                  (6, 3), (3, 0), (6, -3), (3, -6), (0, -3), (-3, -6))],
            [outer((-3, 0), (0, -3), (3, 0), (0, 3))]])

    def test_nothing(self) -> None:
        self.assertEqual(rings_of(self.layers, "None0"), [])

    def test_the_last_column(self) -> None:
        far = 1048576
        self.assertEqual(rings_of(self.layers, "Far"),
                         [[outer((far - 1, far - 1), (far, far - 1), (far, far), (far - 1, far))]])

    def words(self, layer: str) -> tuple[object, ...]:
        """The words for a layer of the plain model of the lab."""
        lines = content("fixtures", "shapes.txt").splitlines(True)
        made = [line for line in lines if not line.startswith((b"WAIT", b"EDGES"))]
        return "--store", self.file("shapes.db", b"".join(made)), "--program", self.model(), "--layer", layer

    def test_the_text(self) -> None:
        status, output, errors = outcome(rings, *self.words("F"), "--digits", 3)
        self.assertEqual((status, output), (0, "POLYGON ((1 0.333, 2 0.667, 2 1.333, 1 1.667, 1 0.333))\n"))
        self.assertIn("outer rings 1 (counter-clockwise), holes 0 (clockwise); inside on the left", errors)
        self.assertEqual(outcome(rings, *self.words("None0"))[1], "MULTIPOLYGON EMPTY\n")

    def test_the_fractions(self) -> None:
        output = outcome(rings, *self.words("F"), "--exact")[1]
        self.assertEqual(output, "polygons 1\npolygon 1 outer 4\n1 1/3\n2 2/3\n2 4/3\n1 5/3\n")

    def test_holes_and_islands_in_each_other(self) -> None:
        frames = [[(-x, -x), (x, -x), (x, x), (-x, x), (-x, -x)] for x in (1, 2, 3, 4, 5, 6, 7)]
        aside = [[(x, 10), (x + 2, 10), (x + 2, 12), (x, 12), (x, 10)] for x in (0, 20)]
        polygons = rings_of(Layers(["A"], {"A": frames + aside}), "A")
        corners = [[ring[0][0] for _, ring in polygon] for polygon in polygons]
        self.assertEqual(corners, [[-7, -6], [-5, -4], [-3, -2], [-1], [0], [20]])

    def test_back_by_two_factors(self) -> None:
        output = outcome(rings, *self.words("I"), "--factor", 10, "--factor-y", 100)[1]
        self.assertEqual(output, "POLYGON ((0.5 0.05, 1 0.05, 1 0.1, 0.5 0.1, 0.5 0.05))\n")

    def test_back_to_the_given_unit(self) -> None:
        output = outcome(rings, *self.words("I"), "--factor", 100, "--origin", 7, -3)[1]
        self.assertEqual(output, "POLYGON ((7.05 -2.95, 7.1 -2.95, 7.1 -2.9, 7.05 -2.9, 7.05 -2.95))\n")

    def test_layers_in_terms_of_base_layers(self) -> None:
        """What is joined by ^ alone is one layer of the expression, and brackets are where they have to be."""
        layers = Layers([*"ABCDEF"], {name: [] for name in "ABC"},
                        {"D": "A ^ B ^ C", "E": "D & A | C", "F": "E & D - (A ^ A)"})
        for name, text, parts in (("A", "Laa", ["A"]), ("D", "Laa", ["ABC"]),
                                  ("E", "Laa & Lab | Lac", ["ABC", "A", "C"]),
                                  ("F", "(Laa & Lab | Lac) & Laa - (Lab ^ Lab)", ["ABC", "A", "C"])):
            self.assertEqual(outlines.expression(layers, name), (text, [frozenset(part) for part in parts]))

    def test_what_is_longer_than_an_expression_is_refused(self) -> None:
        names = [f"n{number}" for number in range(30)]
        layers = Layers([*names, "all", "odd", "more"], {name: [] for name in names},
                        {"all": " | ".join(names), "odd": " ^ ".join(names), "more": "odd & n0 | " * 16 + "odd"})
        self.assertEqual(len(rings_of(layers, "odd")), 0)
        for name in ("all", "more"):
            with self.assertRaisesRegex(Unusable, f"^{name}: .* more than 64 names and signs, or more than 29 layers$"):
                rings_of(layers, name)


class RealShapes(unittest.TestCase):
    def setUp(self) -> None:
        self.layers, _ = fixture("iceland")

    def test_two_polygons(self) -> None:
        polygons = rings_of(self.layers, "both")
        self.assertEqual([[len(corners) for _, corners in polygon] for polygon in polygons], [[4], [351]])

    def test_the_intersection_is_less_than_both(self) -> None:
        common = sum(area_twice(corners) for polygon in rings_of(self.layers, "both") for _, corners in polygon)
        for name in ("iceland_110m", "iceland_50m"):
            whole = abs(sum(area_twice(ring[:-1]) for ring in self.layers.base[name]))
            self.assertTrue(whole * 4 // 5 < common < whole)
