"""What the whole numbers of a store mean in the world, and the file NAME.scale.json that says so.

    {"title": "Boroughs", "factor": 10, "factor_y": 10, "origin": [985000, 189000], "unit": "ft", "crs": "EPSG:2263",
     "digits": 5}

Where overlay import wrote it, `layers` has of each store's base layers a digest, by which tools see that a store beside
it has other ones.

world = stored / factor + origin, for x and for y; `digits` is how many stand after the point where a number of the
world is written. Numbers are exact: one that a double cannot hold is written as a text. `crs` is an authority and its
code, or Well-Known Text where no authority has the system (coordinate_systems.py). Without it (null) the numbers are
those of a plane that is nowhere on the earth."""

import contextlib
import json
import math
import pathlib
import re
import sys
from collections.abc import Iterator
from dataclasses import dataclass, replace
from decimal import Decimal
from fractions import Fraction
from typing import Any

from .. import ending, grid
from . import limits

CRS84 = "OGC:CRS84"
CRS_NAME = re.compile(r"EPSG:[0-9]{1,9}|(?!EPSG:)[A-Za-z][\w-]*:[\w.-]+", re.ASCII)  # an authority and its code
NUMBER = re.compile(r"[-+]?(?:[0-9]{1,20}(?:\.[0-9]{0,30})?|\.[0-9]{1,30})(?:[eE][-+]?[0-9]{1,2})?")
WORD = re.compile(r"[-+]?(?:(?:[0-9]{1,100}(?:\.[0-9]{0,100})?|\.[0-9]{1,100})(?:[eE][-+]?[0-9]{1,2})?"
                  r"|[0-9]{1,100}/0{0,99}[1-9][0-9]{0,99})")
DIGITS_MAX = 15


class ScaleFault(Exception):
    """A file or a word that gives no scale."""


def exact(text: Any) -> Fraction:
    """The number that a text spells. One with a great exponent would take all memory, and is refused."""
    if isinstance(text, bool) or not NUMBER.fullmatch(str(text).strip()):
        raise ScaleFault(f"no number, or one that is too long: {str(text)[:40]}")
    return Fraction(str(text).strip())


def number(text: str) -> Fraction:
    """The number that a word of a command line spells, a decimal or a fraction as 5/3. It is bounded as in exact."""
    if not WORD.fullmatch(text.strip()):
        raise ValueError(f"no number, or one that is too long: {text[:40]}")
    return Fraction(text.strip())


def decimal_digits(number: Fraction) -> int | None:
    """How many digits after the point spell a number exactly; None where no number of them does."""
    rest, twos, fives = number.denominator, 0, 0
    while rest % 2 == 0:
        rest, twos = rest // 2, twos + 1
    while rest % 5 == 0:
        rest, fives = rest // 5, fives + 1
    return max(twos, fives) if rest == 1 else None


def crs_called(name: str) -> str | None:
    """The coordinates that a name is of: OGC:CRS84, or EPSG: and a number; None of any other name."""
    if re.fullmatch(r"(urn:ogc:def:crs:)?OGC:(1\.3)?:?CRS84", name, re.IGNORECASE):
        return CRS84
    found = re.fullmatch(r"(?:urn:ogc:def:crs:EPSG:[0-9.]*:|EPSG:)([0-9]{1,9})", name, re.IGNORECASE)
    return f"EPSG:{found[1]}" if found else None


def crs(word: str) -> str:
    """The coordinates that a word of a command line names: by whatever authority, as ESRI:102003."""
    found = crs_called(word.strip()) or word.strip()
    if not CRS_NAME.fullmatch(found):
        digits = f"; EPSG:{found}?" if found.isdecimal() else ""
        raise ValueError(f"{word}: an authority and its code are wanted, as EPSG:25832{digits}")
    return found


def decimals(number: Fraction | int, digits: int) -> str:
    """A fraction with so many digits after the point, halves to even, zeros at the end dropped."""
    scaled = round(number * 10**digits)
    text = str(abs(scaled)).rjust(digits + 1, "0")
    whole, rest = text[: len(text) - digits], text[len(text) - digits :].rstrip("0")
    return ("-" if scaled < 0 else "") + whole + ("." + rest if rest else "")


@contextlib.contextmanager
def all_digits() -> Iterator[None]:
    """Python reads and spells numbers of any length here; else of at most 4,300 digits."""
    most = sys.get_int_max_str_digits()
    sys.set_int_max_str_digits(0)
    try:
        yield
    finally:
        sys.set_int_max_str_digits(most)


def spelled_exactly(number: Fraction | int) -> str:
    """A fraction with all its digits."""
    with all_digits():
        return str(number)


def spelled(number: Fraction) -> str:
    """A number as JSON has it: its digits, in quotes where a reader's double would lose some of them."""
    digits = decimal_digits(number)
    if digits is None or digits > 30 or abs(number) >= 10**20:
        raise ScaleFault(f"{number} has no end after the point, or too many digits: a file cannot say it")
    text = decimals(number, digits)
    return text if Fraction(str(float(text))) == number else f'"{text}"'


@dataclass(frozen=True)
class Scale:
    """Factors, origin, and how numbers of the world are called and written."""

    factor: Fraction = Fraction(1)
    factor_y: Fraction = Fraction(1)
    origin: tuple[Fraction, Fraction] = (Fraction(0), Fraction(0))
    title: str = ""
    unit: str = "1"
    crs: str | None = None
    digits: int = 6
    layers: tuple[dict[str, str], ...] = ()

    def world(self, corner: tuple[int, int, int]) -> tuple[Fraction, Fraction]:
        """The place in the world of a stored one, (X, Y, W) for the point (X / W, Y / W)."""
        x, y, w = corner
        return Fraction(x, w) / self.factor + self.origin[0], Fraction(y, w) / self.factor_y + self.origin[1]

    def stored(self, x: Fraction | int, y: Fraction | int) -> tuple[Fraction, Fraction]:
        """The stored place of a point of the world."""
        return (x - self.origin[0]) * self.factor, (y - self.origin[1]) * self.factor_y

    def nearest(self, x: Fraction, y: Fraction) -> tuple[int, int]:
        """The whole place that a point of the world becomes, its numbers being those that grid.py says."""
        x, y = self.stored(grid.stands_for(x), grid.stands_for(y))
        return grid.nearest(x), grid.nearest(y)

    def question(self, x: Fraction, y: Fraction) -> tuple[int, int, int]:
        """The numbers of LOCATE for a point of the world: the point that its numbers stand for, as those of a map do,
        or the nearest that can be asked."""
        x, y = self.stored(grid.stands_for(x), grid.stands_for(y))
        both = math.lcm(x.denominator, y.denominator)
        w = both if both <= limits.WEIGHT_MAX else limits.WEIGHT_MAX
        return grid.nearest(x * w), grid.nearest(y * w), w

    def area(self, stored: Fraction) -> Fraction:
        """An area in the world of one in whole numbers."""
        return stored / (self.factor * self.factor_y)

    def text(self) -> str:
        """The file that says it."""
        layers = f',\n "layers": {json.dumps(self.layers)}' if self.layers else ""
        return (f'{{"title": {json.dumps(self.title)}, "factor": {spelled(self.factor)}, '
                f'"factor_y": {spelled(self.factor_y)},\n'
                f' "origin": [{spelled(self.origin[0])}, {spelled(self.origin[1])}], "unit": {json.dumps(self.unit)}, '
                f'"crs": {json.dumps(self.crs)}, "digits": {self.digits}{layers}}}\n')


def enough_digits(factor: Fraction) -> int:
    """Digits with which a whole number comes back from the world, and three more for corners between whole numbers."""
    digits = 0
    while 10**digits < 2 * factor:
        digits += 1
    return min(digits + 3, DIGITS_MAX)


def of_value(given: Any) -> Scale:
    """The scale that a value of JSON says."""
    if not isinstance(given, dict):
        raise ScaleFault("no object")
    origin, crs, digits = given.get("origin", [0, 0]), given.get("crs"), given.get("digits", 6)
    factor = exact(given.get("factor", 1))
    factor_y = exact(given.get("factor_y", given.get("factor", 1)))
    if not isinstance(origin, list) or len(origin) != 2 or factor <= 0 or factor_y <= 0:
        raise ScaleFault("a factor is greater than 0, an origin has two numbers")
    if isinstance(digits, bool) or not isinstance(digits, int) or not 0 <= digits <= DIGITS_MAX:
        raise ScaleFault(f"digits are 0 to {DIGITS_MAX}")
    layers = given.get("layers", [])
    if not isinstance(layers, list) or not all(isinstance(one, dict) for one in layers):
        raise ScaleFault("layers are a list of objects")
    return Scale(factor, factor_y, (exact(origin[0]), exact(origin[1])), str(given.get("title", "")),
                 str(given.get("unit", "1")), None if crs is None else str(crs), digits, tuple(layers))


def read(path: pathlib.Path) -> Scale:
    """The scale that a file says."""
    try:
        return of_value(json.loads(path.read_text(encoding="utf-8-sig"), parse_float=Decimal))
    except OSError as fault:
        raise ScaleFault(ending.fault_text(path, fault)) from fault
    except (ValueError, RecursionError, ScaleFault) as fault:
        raise ScaleFault(f"{path}: no scale, as overlay import writes it: {fault}") from fault


def beside(path: pathlib.Path) -> pathlib.Path:
    """Where the scale of a script or a store NAME.* lies: NAME.scale.json beside it, one for NAME.1.*, NAME.2.* too."""
    if not path.name:
        raise ScaleFault(f"{path}: a folder, and no file")
    own = path.with_name(path.stem + ".scale.json")
    shared = path.with_name(re.sub(r"\.[0-9]+$", "", path.stem) + ".scale.json")
    return own if own.exists() else shared


def with_digits(scale: Scale, digits: int | None) -> Scale:
    return scale if digits is None else replace(scale, digits=digits)
