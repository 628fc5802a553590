"""Tests of overlay svg."""

import unittest
import xml.etree.ElementTree
from fractions import Fraction
from typing import Any

import pytest

from overlayd.commands import svg
from overlayd.grid import limits, scale
from overlayd.program import layer_of
from overlayd.program_files import FEATURES, found_program
from overlayd.store import outlines
from overlayd.store.layers import Columns, Layers
from .common import SQUARE, content, fixture


pytestmark = pytest.mark.features


def picture(layers: Layers, layer: str, columns: Columns, *more: Any, **named: Any) -> str:
    polygons = outlines.polygons(layers, layer, found_program(FEATURES))
    return svg.picture(layers, layer, columns, polygons, 800, *more, **named)


class Pictures(unittest.TestCase):
    def test_a_picture_is_xml(self) -> None:
        layers, columns = fixture("shapes")
        for layer in ("I", "F", "Bow", "Ring", "Chain", "None0", "Far"):
            text = picture(layers, layer, columns[layer])
            assert xml.etree.ElementTree.fromstring(text).tag.endswith("svg")

    def test_columns_and_their_pieces(self) -> None:
        layers, columns = fixture("shapes")
        text = picture(layers, "Ring", columns["Ring"])
        for column in ("column 13: ", "column 15: ", "column 16: ", "column 18: "):
            assert column in text

    def test_columns_that_lack(self) -> None:
        layers, _ = fixture("shapes")
        text = svg.picture(layers, "A", ["none"] * limits.COLUMNS, None, 800)
        assert ": ?" in text
        xml.etree.ElementTree.fromstring(text)

    def test_a_base_layer(self) -> None:
        columns = [[] for _ in range(limits.COLUMNS)]
        columns[16] = [((0, 0, 1), (0, 10, 1)), ((0, 0, 1), (10, 0, 1)), ((0, 10, 1), (10, 10, 1)),
                       ((10, 0, 1), (10, 10, 1))]
        text = picture(Layers.of([layer_of(f"A {SQUARE}")]), "A", columns)
        assert ">boundary of A</text>" in text
        xml.etree.ElementTree.fromstring(text)

    def test_a_bar_of_the_scale(self) -> None:
        # The view is 10.5 wide; a fifth of that in tenths of a foot is 0.21 ft, so the bar is of 0.2 ft, 2 wide.
        foot = scale.Scale(Fraction(10), Fraction(10), unit="ft")
        layers, columns = fixture("shapes")
        text = picture(layers, "I", columns["I"], foot)
        assert ">0.2 ft; lower left 0 0, upper right 1.5 1.5</text>" in text

    def test_a_grid(self) -> None:
        layers, columns = fixture("shapes")
        for rows, counts in ((["...+", ".##+", ".##+", "++++"], [4, 7, 5]), ([".#+"], [1, 1, 1])):
            text = picture(layers, "I", columns["I"], grid=(4, 4, 2, rows))
            assert [text.count(f'r="{size}"') for size in ("2", "2.2", "0.7")] == counts

    def test_the_grid_that_is_asked_for(self) -> None:
        assert svg.grid_for(Layers(), 5) is None
        layers = Layers.of(map(layer_of, (f"A {SQUARE}", "B MULTIPOLYGON EMPTY")))
        assert svg.grid_for(layers, 5) == (0, 0, 2, 6, 6)
        assert svg.grid_for(layers, 256) == (0, 0, 1, 11, 11)

    def test_the_picture_of_the_pages(self) -> None:
        layers, columns = fixture("iceland")
        assert picture(layers, "both", columns["both"]).encode() == content("..", "..", "docs", "overlay.svg")
