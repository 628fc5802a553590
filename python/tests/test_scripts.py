"""Tests of overlay import without its further ways: rounding, what is refused, and names."""

import re
import unittest

import pytest

from overlayd.commands import import_ as to_script
from .common import SQUARE, content, on_file, outcome, path

FAR = "POLYGON ((500000 4600000, 500010 4600000, 500010 4600010, 500000 4600000))"
ONE = ("--factor", 1)
# By what each shows: a text, further words, the status, and of the script and of what is reported parts, or where they
# end a line all.
CASES: dict[str, tuple[str, tuple[object, ...], int, str, tuple[str, ...]]] = {
    "whole numbers stay": (SQUARE, (), 0, f"PUT input_file {SQUARE}\n",
                           ("0 of 10 coordinates rounded, largest move 0, 0 equal points merged",)),
    "a factor and an origin": (
        "POLYGON ((100.5 7, 101.25 7, 101.25 8.126, 100.5 7))", ("--factor", 100, "--origin", 100, 7, "--name", "P"), 0,
        "PUT P POLYGON ((50 0, 125 0, 125 113, 50 0))\n", ("1 of 8 coordinates rounded, largest move 0.004,",)),
    "another factor for y": ("POLYGON ((0 0, 1 0, 1 1, 0 0))", ("--factor", 2, "--factor-y", "0.5"), 0,
                             "((0 0, 2 0, 2 1, 0 0))", ()),
    "halves go up": ("POLYGON ((-1.5 -2.5, 1.5 0, 2.5 9, -1.5 -2.5))", ONE, 0, "((-1 -2, 2 0, 3 9, -1 -2))",
                     ("6 of 8 coordinates rounded, largest move 0.5,",)),
    "digits beyond a double are reported": (
        "POLYGON ((0.49999999999999999999 0, 9 0, 9 9, 0.49999999999999999999 0))", ONE, 0, "((1 0, 9 0, 9 9, 1 0))",
        ("2 of 8 coordinates rounded, largest move 0.5, 0 equal points merged, 2 coordinates of more digits than a "
         "double has, each taken for the nearest one",)),
    "equal points are merged": ("POLYGON ((0 0, 0.2 0.1, 10 0, 10 10, 10.3 9.8, 0.4 0.4, 0 0))", ONE, 0,
                                "((0 0, 10 0, 10 10, 0 0))", ("3 equal points merged",)),
    "out of range, with a hint": (
        FAR, (), 2, "", ("at factor 1, origin 0 0: 1 shapes are out of range; to be fitted: --factor 1 --origin 500005 "
                         "4600005, or --fit\n",)),
    "the hint works": (FAR, (*ONE, "--origin", 500005, 4600005), 0,
                       "PUT input_file POLYGON ((-5 -5, 5 -5, 5 5, -5 -5))\n", ()),
    "out of range at a factor that is said": (
        FAR, ONE, 1, "", ("refused: FILE, text 1: out of range after scaling: 500000 4600000",)),
    "the limit itself is in range": ("POLYGON ((1048576 -1048576, 0 0, 0 1, 1048576 -1048576))", (), 0, "PUT", ()),
    "and no more": ("POLYGON ((1048576.5 -1048576, 0 0, 0 1, 1048576.5 -1048576))", (), 2, "", ()),
    **{f"a hole: {reason} ({ring})": (
        f"POLYGON ((0 0, 10 0, 10 10, 0 10, 0 0), ({ring}))", ONE, 1, f"PUT input_file {SQUARE}\n",
        (f"refused: FILE, text 1: a hole: a ring {reason}",)) for ring, reason in (
            ("5 5, 6 5, 5 5", "of 3 points"), ("5 5, 5.2 5, 5.2 5.2, 5 5", "that collapsed"),
            ("5 5, 7 5, 6 5, 5 5", "that collapsed"))},
    "a ring that is not closed": ("POLYGON ((0 0, 1 0, 1 1, 0 1))", (), 1, "", ()),
    "an outer ring takes its holes along": (
        "MULTIPOLYGON (((0 0, .1 0, .1 .1, 0 0), (1 1, 9 1, 9 9, 1 1)), ((0 0, 5 0, 5 5, 0 0)))", ONE, 1,
        "PUT input_file POLYGON ((0 0, 5 0, 5 5, 0 0))\n", ("a polygon, for its outer ring: a ring that collapsed",)),
    "other geometries are refused": (
        f"POINT (1 2)\n{SQUARE}\nMULTIPOINT ((1 2), (3 4))", (), 1, f"PUT input_file {SQUARE}\n",
        ("refused: FILE, text 1: no polygon: POINT", "refused: FILE, text 3: no polygon: MULTIPOINT")),
    "texts of all kinds": (
        "SRID=4326;polygon z ((0 0 7, 10 0 7, 10 10 7, 0 10 7, 0 0 7)) GEOMETRYCOLLECTION (POLYGON EMPTY, MULTIPOLYGON "
        "(EMPTY, ((20 0, 3e1 0, 30 10, 20 0))))", (), 0,
        "PUT input_file MULTIPOLYGON (((0 0, 10 0, 10 10, 0 10, 0 0)), ((20 0, 30 0, 30 10, 20 0)))\n",
        ("further numbers of 5 points dropped",)),
    "overlapping boxes": (SQUARE + SQUARE, (), 0, "PUT",
                          ("layer input_file: 1 pairs of polygons with overlapping boxes",)),
}


@pytest.mark.parametrize("text, words, status, output, told", CASES.values(), ids=CASES)
def test_a_text(text: str, words: tuple[object, ...], status: int, output: str, told: tuple[str, ...]) -> None:
    found = on_file(to_script, text, *words)
    assert (found[0], bool(found[1])) == (status, bool(output)), found
    for part, whole in ((output, found[1]), *((part, found[2]) for part in told)):
        assert part == whole if part.endswith("\n") else part in whole


class ToScript(unittest.TestCase):
    def test_texts_that_are_none(self) -> None:
        for text in ("POLYGON ((0 0, 1 0", "POLYGON (0)", "{\"type\": ", "POLYGON ((0 0, 1 1, 2 0, 0 0)) x", "?",
                     "POLYGON ((0 0, 1e99999999999999999999 1, 2 0, 0 0))", "{\"a\": 1e99999999999999999999}",
                     "POLYGON " + "(" * 3000, "{\"type\":" * 3000):
            status, output, errors = on_file(to_script, text)
            assert (status, output) == (2, ""), text[:30]
            assert "not read" in errors

    def test_numbers_with_great_exponents(self) -> None:
        for number in ("1e99999999", "-1e99999999", "1e-99999999", "1e201", "1e-201", "9" * 202, "0." + "1" * 201):
            for text in (f"POLYGON ((0 0, {number} 0, 0 9, 0 0))",
                         f'{{"type": "Polygon", "coordinates": [[[0, 0], [{number}, 0], [0, 9], [0, 0]]]}}'):
                for words in ([], ["--fit"], ["--factor", 1]):
                    status, output, errors = on_file(to_script, text, *words)
                    assert (status, output) == (1, ""), (text, words)
                    assert "a coordinate that is beyond all bounds" in errors
        for number in ("1e200", "1e-200", "-" + "9" * 200, "0." + "1" * 200):
            for words in ([], ["--fit"], ["--factor", "1e99"], ["--factor", "1e-99"]):
                status = on_file(to_script, f"POLYGON ((0 0, {number} 0, 0 {number}, 0 0))", *words)[0]
                assert status in (0, 1, 2), (number, words)
        for word in ("--factor", "--factor-y"):
            for number in ("1e400000000", "1e-400000000", "1/0", "inf"):
                assert on_file(to_script, SQUARE, word, number)[:2] == (2, "")

    def test_real_shapes(self) -> None:
        files = [path("data", f"iceland_{scale}.geojson") for scale in ("110m", "50m")]
        words = "--factor", 42262, "--factor-y", 100000, "--origin", -19, 65
        status, output, errors = outcome(to_script, *files, *words)
        assert status == 0
        assert content("fixtures", "iceland.txt").decode().startswith(output)
        assert "layer iceland_50m: polygons 1, steps 452; 902 of 906 coordinates rounded" in errors

    def test_of_a_map_that_is_out_of_range_the_first_few_are_told(self) -> None:
        text = "".join(f"POLYGON (({x} 5400000, {x} 5400009, {x + 9} 5400009, {x} 5400000))\n"
                       for x in range(0, 1500, 100))
        status, output, errors = on_file(to_script, text, "--factor", 1000)
        assert (status, output) == (1, "")
        assert [line[:5] for line in errors.splitlines()] == ["refus"] * 10 + ["and 5", "at fa", "no la"]
        self.assertIn(
            "and 5 more\nat factor 1000, origin 0 0: 15 shapes are out of range; to be fitted: --factor 1 --origin 704 "
            "5400004, or --fit\n", errors)


def feature(name: str, shift: int = 0, kind: str = "Polygon") -> str:
    ring = f"[[{shift}, 0], [{shift + 5}, 0], [{shift}, 5.0], [{shift}, 0]]"
    rings = f"[{ring}]" if kind == "Polygon" else f"[[{ring}]]"
    return (f'{{"type": "Feature", "properties": {{"name": {name}}}, '
            f'"geometry": {{"type": "{kind}", "coordinates": {rings}}}}}')


def collection(*features: str) -> str:
    return '{"type": "FeatureCollection", "features": [' + ", ".join(features) + "]}"


class Names(unittest.TestCase):
    def test_letters_beyond_ascii_keep_their_place(self) -> None:
        for wish, wanted in (("Größe", "Grosse"), ("STRAẞE", "STRASSE"), ("Süd-Öst", "Sud_Ost"), ("Małe", "Ma_e"),
                             ("Kær", "K_r"), ("Łódź", "odz"), ("山田", "L"), ("7 Höfe", "L_7_Hofe")):
            assert to_script.fitted_name(wish) == wanted

    def names(self, *wishes: str) -> tuple[list[str], int, str]:
        text = collection(*(feature(wish, 10 * i) for i, wish in enumerate(wishes)))
        status, output, errors = on_file(to_script, text, "--name-by", "name")
        return [line.split()[1] for line in output.splitlines()], status, errors

    def test_names_fit_the_rule(self) -> None:
        found, status, _ = self.names('"Île de Ré"', '"9 x"', '"a-b"', '"a b"', "7", "null", '"' + "x" * 40 + '"',
                                      '"' + "x" * 41 + '"', '"日本"', '"a_b_2"')
        assert status == 0
        assert found == \
            ["Ile_de_Re", "L_9_x", "a_b", "a_b_2", "L_7", "input_file", "x" * 32, "x" * 30 + "_2", "L", "a_b_2_2"]
        assert all(re.fullmatch(r"[A-Za-z][A-Za-z0-9_]{0,31}", name) for name in found)

    def test_one_value_is_one_layer(self) -> None:
        text = collection(feature('"a"'), feature('"b"', 10), feature('"a"', 20, "MultiPolygon"))
        output = on_file(to_script, text, "--name-by", "name")[1]
        self.assertEqual(output, "PUT a MULTIPOLYGON (((0 0, 5 0, 0 5, 0 0)), ((20 0, 25 0, 20 5, 20 0)))\n"
                                 "PUT b POLYGON ((10 0, 15 0, 10 5, 10 0))\n")

    def test_at_most_32_layers(self) -> None:
        found, status, errors = self.names(*(f'"n{i}"' for i in range(34)))
        assert (len(found), status) == (32, 1)
        assert "refused: n33: a layer more than 32; --output NAME.txt writes several stores" in errors

    def test_without_a_property_all_is_one_layer(self) -> None:
        output = on_file(to_script, collection(feature('"a"'), feature('"b"', 10)))[1]
        assert len(output.splitlines()) == 1

    def test_the_feature_that_is_refused_is_told(self) -> None:
        told = "refused: FILE, {}: a ring whose last point is not its first, 10 0\n"
        broken = feature('"b"', 10).replace(", [10, 0]]", ", [10, 1]]")
        for text, label in ((collection(feature('"a"'), broken), "feature 2"), (broken, "feature 1")):
            assert told.format(label) in on_file(to_script, text)[2]
            assert told.format(f"{label} (b)") in on_file(to_script, text, "--name-by", "name")[2]
        assert told.format("text 1") in on_file(to_script, "POLYGON ((10 0, 15 0, 10 5, 10 1))")[2]

    def test_a_property_that_no_feature_has(self) -> None:
        told = "--name-by nope: no feature has this property; they have"
        text = collection(feature('"a"'), feature('"b"', 10))
        assert on_file(to_script, text, "--name-by", "nope") == (2, "", f"{told} name\n")
        many = text.replace('"name": "b"', ", ".join(f'"p{place}": 1' for place in range(12)))
        assert on_file(to_script, many, "--name-by", "nope") == \
            (2, "", f"{told} name, {', '.join(f'p{place}' for place in range(9))} and 3 more\n")
        assert on_file(to_script, many, "--name-by", "p11")[0] == 0
        for none in (SQUARE, text.replace('{"name": "a"}', "[1]").replace('{"name": "b"}', "null")):
            assert on_file(to_script, none, "--name-by", "nope") == (2, "", f"{told} none\n")

    def test_geometry_collections_and_odd_values(self) -> None:
        inner = '{"type": "Polygon", "coordinates": [[[0, 0], [5, 0], [0, 5], [0, 0]]]}'
        text = f'{{"type": "GeometryCollection", "geometries": [{inner}, {{"type": "Point", "coordinates": [1, 2]}}]}}'
        status, output, errors = on_file(to_script, text)
        assert (status, output) == (1, "PUT input_file POLYGON ((0 0, 5 0, 0 5, 0 0))\n")
        assert "FILE, member 2: no polygon: POINT" in errors
        for odd in ("[[[0, 0], [5, 0], [0, 5], [0, null]]]", "[[[0, 0], [5, 0], [0, 1e9999], [0, 0]]]", "7", "[7]",
                    "[[7]]", "[[[0, 0], [5, NaN], [0, 5], [0, 0]]]", '[["a"]]',
                    "[[[0, true], [5, 0], [0, 5], [0, true]]]"):
            status, output, errors = on_file(to_script, f'{{"type": "Polygon", "coordinates": {odd}}}')
            assert (status, output) == (1, ""), odd
        status, output, errors = on_file(to_script, '{"type": "Polygon", "coordinates": []}')
        assert (status, output, errors) == (1, "", "nothing to write: FILE\nno layer: nothing is written\n")
        assert on_file(to_script, '{"type": "Feature", "properties": null, "geometry": null}')[:2] == (1, "")
