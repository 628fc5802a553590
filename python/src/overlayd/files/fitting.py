"""Proposes a factor and an origin from the box of a map, and says where those that were used do not fit it."""

from collections.abc import Iterable
from dataclasses import dataclass
from fractions import Fraction

from .. import grid
from ..grid import limits
from ..grid.scale import Scale, decimal_digits, decimals
from . import map_reading
from .map_reading import Shape

MARGIN = Fraction(101, 100)  # room for an origin that is rounded
COARSE = 1000  # a move of more than a part of so many of the extent is reported


@dataclass(frozen=True)
class Box:
    """The least and greatest coordinates of a map, and the most digits after a point; None for no end."""

    least: tuple[Fraction, Fraction]
    greatest: tuple[Fraction, Fraction]
    digits: int | None

    def half(self) -> Fraction:
        return max((high - low) / 2 for low, high in zip(self.least, self.greatest))

    def is_within_degrees(self) -> bool:
        """Whether the numbers may be longitude and latitude: in their range, with digits after the point."""
        return (-180 <= self.least[0] and self.greatest[0] <= 180 and -90 <= self.least[1]
                and self.greatest[1] <= 90 and self.digits != 0)

    def is_round_the_earth(self) -> bool:
        """Whether the numbers can be degrees at all, also those of a map that goes on beyond 180."""
        return max(abs(self.least[0]), abs(self.greatest[0])) <= 360 and -90 <= self.least[1] and self.greatest[1] <= 90


def box_of(shapes: Iterable[Shape]) -> Box | None:
    """The box of all positions that can be read; None where there are none."""
    found = {position for shape in shapes for position in map_reading.positions_of(shape)}
    if not found:
        return None
    xs, ys = zip(*found)
    digits = [decimal_digits(number) for position in found for number in position]
    known = [count for count in digits if count is not None]
    return Box((min(xs), min(ys)), (max(xs), max(ys)), max(known) if len(known) == len(digits) else None)


def largest_factor(half: Fraction) -> Fraction:
    """The greatest of 1, 2 and 5 times a power of ten by which a map of this half extent is in range."""
    most = limits.COORDINATE_MAX / (half * MARGIN)
    power = grid.power_below(most)
    return max(step * power for step in (1, 2, 5) if step * power <= most)


def proposed(box: Box) -> tuple[Fraction, tuple[Fraction, Fraction]]:
    """A factor and an origin with which the map is in range: the least factor by which nothing is rounded, where there
    is one, else the greatest that fits. Every whole number then has few digits in the world."""
    half = box.half()
    if not half:
        return Fraction(1), box.least
    factor = largest_factor(half)
    if box.digits is not None and 10**box.digits <= factor:
        factor = Fraction(10) ** box.digits
    step = max(grid.power_below(half / 100), 1 / factor)
    x, y = (round((low + high) / 2 / step) * step for low, high in zip(box.least, box.greatest))
    return factor, (x, y)


def words(factor: Fraction, origin: tuple[Fraction, Fraction]) -> str:
    """The words to type."""
    return f"--factor {shown(factor)} --origin {shown(origin[0])} {shown(origin[1])}"


def shown(number: Fraction) -> str:
    digits = decimal_digits(number)
    return str(number) if digits is None else decimals(number, digits)


def faults(collapsed: int, outside: int, furthest: Fraction, box: Box, scale: Scale) -> list[str]:
    """What is wrong with a scale, of what came of it."""
    found = [f"{outside} shapes are out of range"] if outside else []
    found += [f"{collapsed} rings collapse"] if collapsed else []
    if furthest * COARSE > 2 * box.half():
        found.append(f"coordinates move by up to {float(furthest):.3g}, more than a {COARSE}th of the extent, "
                     f"{float(2 * box.half()):.3g}")
    return found
