"""Areas of rings with exact corners: rounded, and as fractions where these are short or are asked for."""

from collections.abc import Iterable
from dataclasses import dataclass
from fractions import Fraction

from ..grid import scale as scales
from ..grid.scale import Scale
from ..program import Point as Corner
from . import plane
from .plane import Term

DIGITS_MAX = 60  # a fraction with more is written where it is asked for
WORKED_MAX = 2**16  # so many bits of denominators are added up unasked
BITS = 512  # of an area that is not exact, after the point


@dataclass(slots=True)
class Ring:
    """A ring with the inside on its left, begun at its least corner."""

    corners: list[Corner]
    outer: bool


def terms_of(rings: Iterable[Ring]) -> list[Term]:
    """Fractions whose sum is twice the area of outer rings without their holes."""
    return plane.terms(ring.corners for ring in rings)


def exact_sum(terms: list[Term]) -> Fraction:
    """The sum of fractions: first of those with one denominator, and then by pairs, so that few numbers are long."""
    by_denominator: dict[int, int] = {}
    for numerator, denominator in terms:
        by_denominator[denominator] = by_denominator.get(denominator, 0) + numerator
    sums = [Fraction(numerator, denominator) for denominator, numerator in by_denominator.items()]
    while len(sums) > 1:
        sums = [sum(sums[at : at + 2], Fraction(0)) for at in range(0, len(sums), 2)]
    return sums[0] if sums else Fraction(0)


def near_sum(terms: list[Term]) -> Fraction:
    """The sum of fractions, less by under 2^-BITS for each of them."""
    return Fraction(sum((numerator << BITS) // denominator for numerator, denominator in terms), 1 << BITS)


def area_of_all(polygons: Iterable[list[Ring]]) -> Fraction:
    """The area of polygons without their holes."""
    return exact_sum(terms_of(ring for polygon in polygons for ring in polygon)) / 2


def is_short(number: Fraction) -> bool:
    """Whether a fraction has few digits."""
    bits = number.numerator.bit_length() + number.denominator.bit_length()
    return bits <= 4 * DIGITS_MAX and sum(map(str.isdigit, scales.spelled_exactly(number))) <= DIGITS_MAX


def in_world(rings: Iterable[Ring], scale: Scale, with_fraction: bool) -> tuple[Fraction, str | None]:
    """The area of outer rings without holes in the world's unit, and its fraction where it is short or asked for.

    Where corners with many denominators would make it long, and it is not asked for, it is worked out nearly."""
    terms = terms_of(rings)
    bits = sum(denominator.bit_length() for denominator in {denominator for _, denominator in terms})
    if bits > WORKED_MAX and not with_fraction:
        return scale.area(near_sum(terms) / 2), None
    area = scale.area(exact_sum(terms) / 2)
    return area, scales.spelled_exactly(area) if with_fraction or is_short(area) else None
