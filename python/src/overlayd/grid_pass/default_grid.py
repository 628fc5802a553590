"""Which grid maps get where none is named.

The data's own digits where they have few; else a usual grid: 1e-8 degrees, a thousandth of a metre or of a foot. Ten
times coarser while long steps would be bent more than once for each corner (four times on the data's own grid), or a
coordinate is beyond the range. A register, or a run in parts, takes its grid once and keeps it.
"""

import enum
from collections.abc import Callable, Sequence
from dataclasses import dataclass
from fractions import Fraction

import numpy as np

from ..geometry.flat_arrays import Numbers, after_of
from .places import FARTHEST
from .steps import LONG

DEGREE_DIGITS, LENGTH_DIGITS = 8, 3
FARTHEST_DEGREE = 360
NEAR_PLACES = 4  # last places of a double that arithmetic may have left of a coordinate's digits
EXACT = 2**52
BENDS, BENDS_OWN = 1, 4  # for each corner, on a grid that was chosen and on the data's own


class Unit(enum.Enum):
    """What coordinates count."""

    DEGREE = "degree"
    LENGTH = "metre or foot"
    UNKNOWN = "unknown"


class Reason(enum.Enum):
    """Why a grid was chosen."""

    OWN = "all coordinates have so few digits"
    FLOATS = "all coordinates are 32-bit floats of so few digits"
    USUAL = "usual"


@dataclass(frozen=True)
class Given:
    """A map's corners as doubles, the sizes of its rings, and the unit."""

    x: Numbers
    y: Numbers
    sizes: Numbers
    unit: Unit


@dataclass(frozen=True)
class Choice:
    """A grid of 10^-digits; where it is coarser than what was to be taken, asked says that one."""

    digits: int
    asked: int
    reason: Reason
    bends: int

    def factor(self) -> Fraction:
        """How many units of the grid one of the map's is."""
        return Fraction(10) ** self.digits

    def is_coarser(self) -> bool:
        return self.digits < self.asked


def choose(maps: Sequence[Given]) -> Choice:
    """The one grid of some maps, which are not all empty: the finest of theirs, coarser where all together want it."""
    digits, reason = max((wanted(one) for one in maps), key=lambda found: found[0])
    asked = digits
    while True:
        own = reason is not Reason.USUAL and digits == asked
        bends = sum(bends_at(one, digits) for one in maps)
        corners = sum(len(one.x) for one in maps)
        if all(map(in_range, maps, [digits] * len(maps))) and bends <= (BENDS_OWN if own else BENDS) * corners:
            return Choice(digits, asked, reason, bends)
        digits -= 1


def wanted(given: Given) -> tuple[int, Reason]:
    """The digits of a map's grid by its own numbers and unit."""
    usual = usual_digits(given)
    values = np.concatenate([given.x, given.y])
    own = digits_of(values, usual + 1, is_near)
    if own is not None:
        return own, Reason.OWN
    floats = digits_of(values, usual + 1, is_float) if (values == values.astype(np.float32)).all() else None
    return (usual, Reason.USUAL) if floats is None else (floats, Reason.FLOATS)


def usual_digits(given: Given) -> int:
    """A map of no known system is taken as one of degrees, unless a coordinate cannot be one."""
    if given.unit is Unit.UNKNOWN:
        farthest = max(np.abs(given.x).max(initial=0), np.abs(given.y).max(initial=0))
        return LENGTH_DIGITS if farthest > FARTHEST_DEGREE else DEGREE_DIGITS
    return DEGREE_DIGITS if given.unit is Unit.DEGREE else LENGTH_DIGITS


def digits_of(values: Numbers, most: int, stands_for: Callable[[Numbers, Numbers], Numbers]) -> int | None:
    """The least number of digits, up to most, of decimals that stand for all values."""
    left = values
    for digits in range(most + 1):
        numbers = np.rint(left * 10.0**digits)
        left = left[~(stands_for(numbers / 10.0**digits, left) & (np.abs(numbers) < EXACT))]
        if not len(left):
            return digits
    return None


def is_near(decimals: Numbers, values: Numbers) -> Numbers:
    """Which decimals are at most so many last places off the values."""
    found: Numbers = np.abs(decimals - values) <= NEAR_PLACES * np.spacing(np.abs(values))
    return found


def is_float(decimals: Numbers, values: Numbers) -> Numbers:
    """Which values, all 32-bit floats, are the ones nearest to the decimals."""
    found: Numbers = decimals.astype(np.float32) == values.astype(np.float32)
    return found


def in_range(given: Given, digits: int) -> bool:
    return all(bool(np.abs(own).max(initial=0) * 10.0**digits <= FARTHEST) for own in (given.x, given.y))


def bends_at(given: Given, digits: int) -> int:
    """How often steps would be bent, a border of two rings counted for both."""
    after, factor = after_of(given.sizes), 10.0**digits
    reach = [np.abs(np.floor(own[after] * factor + 0.5) - np.floor(own * factor + 0.5)) for own in (given.x, given.y)]
    longest = np.maximum(*reach)
    return int(np.where(longest > LONG, longest // LONG, 0).sum())
