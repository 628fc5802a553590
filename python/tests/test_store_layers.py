"""Tests of the layers of a store, as the program lists them and answers for them."""

import unittest

from overlayd.program import Layer, layer_of
from overlayd.store import layers
from overlayd.store.layers import Layers
from .common import fixture

LISTED = ("A MULTIPOLYGON (((0 0, 9 0, 9 9, 0 0)), ((1 -1, 2 -1, 2 3, 1 -1)))",
          "I = A", "J = A & I", "E MULTIPOLYGON EMPTY")


class StoreLayers(unittest.TestCase):
    def test_layers_of_a_store(self) -> None:
        found = Layers.of(map(layer_of, LISTED), 7)
        assert (found.order, found.definitions, found.version) == (["A", "I", "J", "E"], {"I": "A", "J": "A & I"}, 7)
        assert found.base == {"A": [[(0, 0), (9, 0), (9, 9), (0, 0)], [(1, -1), (2, -1), (2, 3), (1, -1)]], "E": []}
        assert found.unnamed() == ["J", "E"]
        assert [layers.command_of(layer_of(line)) for line in LISTED] == \
            [f"PUT {LISTED[0]}", f"DEFINE {LISTED[1]}", f"DEFINE {LISTED[2]}", f"PUT {LISTED[3]}"]

    def test_reach(self) -> None:
        found = Layers(["A", "B", "C", "D", "E", "F"], {"A": [], "B": [], "C": []},
                       {"D": "A & B", "E": "D - (C)", "F": "C"})
        assert found.base_in_reach("E") == ["A", "B", "C"]
        assert found.base_in_reach("F") == ["C"]

    def test_the_layer_that_is_meant(self) -> None:
        put, defined = [Layer(name, "MULTIPOLYGON EMPTY", None) for name in "AB"], Layer("I", None, "A")
        for listed, name in (([put[0], defined, put[1]], "I"), (put, "B"), ([*put, defined], "I")):
            assert Layers.of(listed).last() == name

    def test_a_digest_tells_rings_from_others(self) -> None:
        ring = [(0, 0), (9, 0), (9, 9), (0, 0)]
        found = layers.digests({"A": [ring], "B": [ring], "C": [ring, ring], "D": [ring[::-1]], "E": []})
        assert (found["A"], len({*found.values()})) == (found["B"], 4)

    def test_columns_that_have_none_to_give(self) -> None:
        _, columns = fixture("shapes")
        pieces, missing = layers.pieces_of([*columns["I"][:20], "error 22 oversize", *columns["I"][21:]])
        assert (len(pieces), missing) == (4, [(20, "error 22 oversize")])
