"""Places of corners, finer than the grid's unit.

A place is an odd whole number of 2^-17 of a unit: 2 * floor(x * factor * 2^16) + 1, x being the decimal that a
coordinate stands for (../grid.py). So no place lies on the border of a pixel, which is the half-open square of one unit
round a whole point, and each corner lies in the pixel of the whole point that it is rounded to.
"""

from __future__ import annotations

from fractions import Fraction

import numpy as np

from .. import grid
from ..geometry.flat_arrays import Numbers
from ..geometry.shortest import decimals

FINE = 2**16
HALF, UNIT = FINE, 2 * FINE
FARTHEST = 2**41  # a coordinate is no greater than this either way, in units
SURE_DIGITS = grid.SURE_DIGITS
FEW = (3, 8)  # digits after the point of most maps in metres and in degrees


class BeyondRange(Exception):
    """A coordinate that is farther than FARTHEST from 0, or no number: which one of which map, and the greatest power
    of ten that would do for a factor (None where none does)."""

    map = 0

    def __init__(self, at: int, coordinate: float, factor: Fraction, would_do: Fraction | None) -> None:
        super().__init__(f"coordinate {coordinate!r} is beyond 2^41 units")
        self.at, self.coordinate, self.factor, self.would_do = at, coordinate, factor, would_do


def whole(places: Numbers) -> Numbers:
    """The whole points of places: the nearest ones, of two as near the greater."""
    return (places + HALF) >> 17


def places(doubles: Numbers, factor: Fraction) -> Numbers:
    """The places of coordinates."""
    check_range(doubles, factor)
    return 2 * floors(doubles, factor * FINE) + 1


def check_range(doubles: Numbers, factor: Fraction) -> None:
    """Refuses a coordinate that is too far."""
    with np.errstate(over="ignore", invalid="ignore"):
        far = np.flatnonzero(~(np.abs(doubles) * float(factor) <= FARTHEST))
    if len(far):
        worst = float(np.abs(doubles).max())
        would_do = grid.power_below(FARTHEST / Fraction(worst)) if np.isfinite(worst) else None
        raise BeyondRange(int(far[0]), float(doubles[far[0]]), factor, would_do)


def floors(doubles: Numbers, ratio: Fraction) -> Numbers:
    """floor(decimal * ratio), below 2^62, of the shortest decimals that print as doubles: at once of those with few
    digits, else by long doubles where half a last place either way does not matter, else by all digits."""
    found: Numbers = np.zeros(len(doubles), np.int64)
    left: Numbers = np.arange(len(doubles))
    for places in FEW:  # of most maps one of them serves all coordinates
        numbers = np.rint(doubles[left] * 10.0**places)
        few = (np.abs(numbers) < 10**SURE_DIGITS) & (numbers / 10.0**places == doubles[left])
        if few.all() and len(few) == len(doubles):
            return floors_of_products(numbers.astype(np.int64), ratio / 10**places)
        found[left[few]] = floors_of_products(numbers[few].astype(np.int64), ratio / 10**places)
        left = left[~few]
    found[left] = floors_by_long(doubles[left], ratio)
    return found


def floors_by_long(doubles: Numbers, ratio: Fraction) -> Numbers:
    """The same by long doubles, or by all digits."""
    by = np.longdouble(ratio.numerator) / np.longdouble(ratio.denominator)
    scaled = doubles.astype(np.longdouble) * by
    found: Numbers = scaled.astype(np.int64)
    part = (scaled - found).astype(float)
    found -= part < 0
    part += part < 0
    slack = np.spacing(np.abs(doubles)) * float(by) * 0.501 + 4 * float(np.finfo(np.longdouble).eps) * np.abs(found)
    unsure = np.flatnonzero((part <= slack) | (part >= 1 - slack))
    found[unsure] = floors_by_digits(doubles[unsure], ratio)
    return found


def floors_by_digits(doubles: Numbers, ratio: Fraction) -> Numbers:
    """The same by all digits, of many at once where long doubles tell them."""
    found: Numbers = np.zeros(len(doubles), np.int64)
    own = decimals(doubles)
    for places in np.unique(own.places[own.are]).tolist():
        at = np.flatnonzero(own.are & (own.places == places))
        found[at] = floors_of_products(own.numbers[at], ratio / 10**places)
    left = np.flatnonzero(~own.are)
    top, bottom = ratio.numerator, ratio.denominator
    found[left] = [one.numerator * top // (one.denominator * bottom)
                   for one in map(grid.spelled, doubles[left].tolist())]
    return found


def floors_of_products(numbers: Numbers, ratio: Fraction) -> Numbers:
    """floor(number * ratio) of whole numbers."""
    top, bottom = ratio.numerator, ratio.denominator
    if top * bottom >= 2**62:
        return np.array([one * top // bottom for one in numbers.tolist()], np.int64)
    if bottom == 1:
        return numbers * top
    return numbers // bottom * top + numbers % bottom * top // bottom
