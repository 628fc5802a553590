"""Tests of layers with many fractional corners, whose exact areas have more digits than Python spells unasked."""

import json
import random
import sys
import unittest
from fractions import Fraction

from overlayd.commands import export as to_geojson, rings as to_rings
from overlayd.geometry import areas, wkt
from overlayd.grid import scale as scales
from .common import WithProgram, outcome
from .plain import area_twice

TRIANGLES = 240


def soup(source: random.Random) -> str:
    """A text of triangles here and there."""
    polygons = []
    for _ in range(TRIANGLES):
        x, y = source.randrange(-900000, 900000), source.randrange(-900000, 900000)
        ring = [(x + source.randrange(-90000, 90000), y + source.randrange(-90000, 90000)) for _ in range(3)]
        polygons.append([ring + ring[:1]])
    return wkt.write(polygons)


def read_fraction(text: str) -> Fraction:
    """The number of a text with more digits than Python reads unasked."""
    with scales.all_digits():
        return Fraction(text)


class ManyCorners(WithProgram):
    """An overlay of triangles with over 1,500 fractional corners."""

    def setUp(self) -> None:
        super().setUp()
        source = random.Random(200)
        store = self.store("soup.db", f"PUT A {soup(source)}\nPUT B {soup(source)}\nDEFINE I = A ^ B\n")
        self.words = ["--store", store, "--program", self.program, "--layer", "I"]
        lines = outcome(to_rings, *self.words, "--exact")[1].splitlines()
        rings: list[list[tuple[Fraction, Fraction]]] = []
        for line in lines[1:]:
            if line.startswith("polygon "):
                rings.append([])
            else:
                x, y = map(Fraction, line.split())
                rings[-1].append((x, y))
        corners = {corner for ring in rings for corner in ring}
        assert sum(x.denominator > 1 or y.denominator > 1 for x, y in corners) > 1500
        self.area = sum((area_twice(ring) for ring in rings), Fraction(0)) / 2

    def test_the_areas_are_rounded_and_exact_where_asked_for(self) -> None:
        status, output, errors = outcome(to_rings, *self.words, "--areas")
        rounded = scales.decimals(self.area, 6)
        assert (status, output.splitlines()[-1]) == (0, f"area {rounded}"), errors
        assert "/" in output
        longest = max(sum(map(str.isdigit, line.split()[-1])) for line in output.splitlines() if "/" in line)
        assert longest <= 60
        exact = outcome(to_rings, *self.words, "--areas", "--exact")[1].splitlines()[-1].split()
        assert (exact[:2], read_fraction(exact[2])) == (["area", rounded], self.area)
        assert len(exact[2]) > 4300

    def test_the_features_too(self) -> None:
        status, output, errors = outcome(to_geojson, *self.words)
        properties = json.loads(output, parse_float=str)["features"][0]["properties"]
        assert (status, list(properties)) == (0, ["layer", "expression", "version", "area"]), errors
        assert properties["area"] == scales.decimals(self.area, 12)
        output = outcome(to_geojson, *self.words, "--exact")[1]
        assert read_fraction(json.loads(output)["features"][0]["properties"]["area_exact"]) == self.area


class Sums(unittest.TestCase):
    def test_a_sum_is_that_of_its_terms(self) -> None:
        source = random.Random(7)
        for count in (0, 1, 2, 3, 50):
            terms = [(source.randrange(-99, 99), source.randrange(1, 30)) for _ in range(count)]
            wanted = sum((Fraction(*term) for term in terms), Fraction(0))
            assert areas.exact_sum(terms) == wanted
            assert 0 * wanted <= wanted - areas.near_sum(terms)
            assert wanted - areas.near_sum(terms) < Fraction(count + 1, 1 << areas.BITS)

    def test_fractions_of_up_to_60_digits_are_short(self) -> None:
        for number, is_short in ((Fraction(10**59), True), (Fraction(10**60), False), (Fraction(10**5000), False),
                                 (Fraction(10**29, 10**29 + 1), True), (Fraction(-(10**30), 3 * 10**29 + 1), False)):
            assert areas.is_short(number) == is_short

    def test_all_digits_are_spelled_and_the_limit_stands_again(self) -> None:
        before = sys.get_int_max_str_digits()
        assert len(scales.spelled_exactly(Fraction(10**9999, 3))) == 10002
        assert sys.get_int_max_str_digits() == before
