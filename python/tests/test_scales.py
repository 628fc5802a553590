"""Tests of scale.py: numbers as a file has them, and places of the world and of the store."""

import json
import random
import unittest
from decimal import Decimal
from fractions import Fraction

from overlayd import grid
from overlayd.files.rounding import Rounding
from overlayd.grid import scale as scales
from overlayd.grid.scale import Scale
from .common import InFolder


def halves(count: int) -> list[str]:
    """Decimals of at most 15 digits, two to nine of them after the point, the last a 5: times a
    power of ten they are halves."""
    source = random.Random(count)
    return [f"{source.choice(['', '-'])}{source.randrange(10**source.randint(1, 6))}"
            f".{source.randrange(10**(digits - 1)):0{digits - 1}}5"
            for digits in (source.randint(2, 9) for _ in range(count))]


class Coordinates(unittest.TestCase):
    def test_a_half_is_one_number_as_a_text_as_a_double_and_with_more_digits(self) -> None:
        readers = {digits: Rounding(Scale(*[Fraction(10 ** (digits - 1))] * 2)) for digits in range(2, 10)}
        for place, text in enumerate(halves(100_000)):
            digits = len(text.partition(".")[2])
            reader, right = readers[digits], (int(text.replace(".", "")) + 5) // 10
            found = [reader.whole(0, Decimal(text)), reader.scale.nearest(Fraction(float(text)), Fraction(0))[0]]
            if place % 10 == 0:
                long = text + "0" * 17 + "1"
                found += [reader.whole(1, Decimal(long)), reader.scale.nearest(Fraction(0), Fraction(long))[1]]
            assert found == [right] * len(found), text
        tallies = [reader.tally for reader in readers.values()]
        assert [sum(one.longer for one in tallies), sum(one.rounded for one in tallies)] == [10_000, 110_000]

    def test_digits_that_a_double_has_are_none_too_many(self) -> None:
        for text, is_longer in (("0.28499999999999998", False), ("0.1000000000000000000000", False), ("3", False),
                                ("0.28499999999999999998", True), ("100000000000000000000", False),
                                ("123456789012345678", True), ("-0.1000000000000000055511151231257827", True)):
            assert grid.is_longer(Decimal(text)) == is_longer, text

    def test_what_no_decimal_spells_is_itself(self) -> None:
        for number in (Fraction(5, 3), Fraction(-1, 7), Fraction(10) ** 400):
            assert grid.stands_for(number) == number
        assert grid.stands_for(Fraction("0.28499999999999999998")) == Fraction("0.285")
        assert Scale(Fraction(3), Fraction(3)).question(Fraction(5, 3), Fraction("1.66666666666666666667")) == \
            (5120, 5120, 1024)


class Numbers(unittest.TestCase):
    def test_decimals(self) -> None:
        for number, digits, text in ((Fraction(-1, 3), 2, "-0.33"), (Fraction(5), 2, "5"), (Fraction(1, 1000), 2, "0"),
                                     (Fraction(-1, 1000), 2, "0"), (Fraction(199, 100), 1, "2"),
                                     (Fraction(-25, 10), 0, "-2"), (Fraction(1, 8), 6, "0.125"),
                                     (Fraction(1005, 10), 1, "100.5")):
            assert scales.decimals(number, digits) == text

    def test_numbers_that_are_exact_and_those_that_are_none(self) -> None:
        for text, number in (("1", Fraction(1)), ("-.5", Fraction(-1, 2)), (" 1e-3 ", Fraction(1, 1000)),
                             ("2.", Fraction(2)), (7, Fraction(7)), (0.1, Fraction(1, 10))):
            assert scales.exact(text) == number
        for none in ("", ".", "e5", "1/3", "1e999999999", "nan", "0x10", True, None, "1" * 30, "1 2"):
            with self.assertRaises(scales.ScaleFault, msg=none):
                scales.exact(none)

    def test_words_that_are_numbers_and_those_that_are_none(self) -> None:
        for text, number in (("1", Fraction(1)), ("-.5", Fraction(-1, 2)), (" 25e-1 ", Fraction(5, 2)),
                             ("5/3", Fraction(5, 3)), ("-4/06", Fraction(-2, 3)), ("1e99", Fraction(10**99)),
                             ("1" + "0" * 40, Fraction(10**40))):
            assert scales.number(text) == number
        for none in ("", "1e100", "1e400000000", "1e-400000000", "1" * 101, "1/0", "1/00", "1/" + "9" * 101, "nan",
                     "inf", "1/3e5", "1 2", "0x10"):
            with self.assertRaises(ValueError, msg=none):
                scales.number(none)

    def test_digits_that_spell_a_number(self) -> None:
        for number, digits in ((Fraction(7), 0), (Fraction(1, 8), 3), (Fraction(3, 50), 2), (Fraction(1, 3), None)):
            assert scales.decimal_digits(number) == digits


class Places(InFolder):
    scale = Scale(Fraction(10), Fraction(4), (Fraction(1000), Fraction(-1, 2)), "Plan", "ft", "EPSG:2263", 5)

    def test_the_world_and_back(self) -> None:
        assert self.scale.world((7, -6, 4)) == (1000 + Fraction(7, 40), -Fraction(1, 2) - Fraction(6, 16))
        assert self.scale.stored(*self.scale.world((7, -6, 4))) == (Fraction(7, 4), Fraction(-6, 4))
        assert self.scale.area(Fraction(20)) == Fraction(1, 2)

    def test_a_point_is_asked_exactly_where_a_weight_allows_it(self) -> None:
        assert self.scale.question(Fraction("1000.01"), Fraction(0)) == (1, 20, 10)
        x, y, w = self.scale.question(1000 + Fraction(1, 30000), Fraction(0))
        assert (x, y, w) == (0, 2048, 1024)

    def test_the_file_says_the_same(self) -> None:
        file = self.file("plan.scale.json", self.scale.text())
        assert scales.read(file) == self.scale
        assert json.loads(file.read_text()) == {"title": "Plan", "factor": 10, "factor_y": 4, "origin": [1000, -0.5],
                                                "unit": "ft", "crs": "EPSG:2263", "digits": 5}

    def test_a_number_that_a_double_would_change_is_a_text(self) -> None:
        origin = Fraction("0.12345678901234567891"), Fraction(2)
        text = Scale(origin=origin).text()
        assert json.loads(text)["origin"] == ["0.12345678901234567891", 2]
        assert scales.of_value(json.loads(text)).origin == origin
        with self.assertRaises(scales.ScaleFault):
            Scale(Fraction(1, 3)).text()

    def test_files_that_say_no_scale(self) -> None:
        for text in ("", "[]", "{", '{"factor": 0}', '{"factor": "1/2"}', '{"origin": [1]}', '{"digits": 16}',
                     '{"digits": true}', '{"factor": 1e999}', '{"factor": NaN}', "\xff"):
            with self.assertRaises(scales.ScaleFault, msg=text):
                scales.read(self.file("none", text.encode("latin-1")))
        with self.assertRaises(scales.ScaleFault):
            scales.read(self.folder / "absent")
        absent = self.folder / "absent.scale.json"
        for path, told in ((self.file("half.scale.json", '{"factor"'),
                            "no scale, as overlay import writes it: Expecting"),
                           (self.file("list.scale.json", "[]"), "no scale, as overlay import writes it: no object"),
                           (absent, "No such file or directory")):
            with self.assertRaises(scales.ScaleFault) as fault:
                scales.read(path)
            assert str(fault.exception).startswith(f"{path}: {told}"), fault.exception

    def test_the_scale_beside_a_store_and_beside_its_parts(self) -> None:
        shared = self.file("ny.scale.json", "{}")
        assert scales.beside(self.folder / "ny.db") == shared
        assert scales.beside(self.folder / "ny.2.db") == shared
        own = self.file("ny.2.scale.json", "{}")
        assert scales.beside(self.folder / "ny.2.db") == own

    def test_a_whole_number_comes_back_from_the_digits(self) -> None:
        for factor in (Fraction(1), Fraction(10), Fraction(42262), Fraction(5, 1000), Fraction(10**6)):
            digits = scales.enough_digits(factor)
            for number in (1, 999983, -1048576):
                world = Fraction(scales.decimals(number / factor, digits))
                assert round(world * factor) == number
