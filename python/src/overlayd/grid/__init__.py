"""The one rounding of coordinates: by every way in a map becomes the same whole numbers.

A coordinate is first the nearest double, as GDAL, PostGIS, QGIS and shapely read it, and a double stands for the
shortest decimal that prints as it. So a text and the double that is read of it are one number. Of two whole numbers
that are as near the greater one is taken.

A module for the tools and web/; it uses none of them."""

import math
from decimal import Decimal
from fractions import Fraction

SURE_DIGITS = 15  # a decimal of no more digits is the shortest one of its double
DOUBLE_DIGITS = 17  # with so many each double is spelled apart from all others


def spelled(double: float) -> Fraction:
    """The shortest decimal that prints as a double."""
    return Fraction(Decimal(repr(double)))


def stands_for(number: Fraction) -> Fraction:
    """The number that a coordinate stands for: what the double nearest to it is spelled as. One that no decimal spells,
    as 5/3, is itself; so is one beyond all doubles."""
    divisor = number.denominator
    for prime in (2, 5):
        while divisor % prime == 0:
            divisor //= prime
    try:
        return spelled(float(number)) if divisor == 1 else number
    except OverflowError:
        return number


def decimal_stands_for(given: int | Decimal) -> Fraction:
    """The same of a coordinate as JSON or Well-Known Text spells it."""
    if len(Decimal(given).as_tuple().digits) <= SURE_DIGITS:
        return Fraction(given)
    return spelled(float(given))


def is_longer(given: int | Decimal) -> bool:
    """Whether a coordinate has more digits than a double, so that it does not stand for all of them."""
    digits = Decimal(given).as_tuple().digits
    if len(digits) <= DOUBLE_DIGITS or len("".join(map(str, digits)).strip("0")) <= DOUBLE_DIGITS:
        return False
    return decimal_stands_for(given) != given


def nearest(number: Fraction) -> int:
    """The nearest whole number, of two the greater one."""
    return (2 * number.numerator + number.denominator) // (2 * number.denominator)


def power_below(most: Fraction) -> Fraction:
    """The greatest power of ten that is no greater than a number above 0."""
    digits = math.floor(math.log10(most)) + 1
    while Fraction(10) ** digits > most:
        digits -= 1
    return Fraction(10) ** digits
