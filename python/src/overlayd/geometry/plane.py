"""Points, rings and boxes with exact corners, and what is worked out of them: turns, areas, where a point lies.

A point (x, y, w) is the place (x / w, y / w), w > 0, as the program's replies have it. A ring is its corners; whether
the first of them stands once more at its end makes no difference here. What is inside of rings is so by even-odd."""

from collections.abc import Iterable, Iterator, Sequence
from fractions import Fraction
from typing import NamedTuple, Self

from ..program import Point

Whole = tuple[int, int]  # a point whose coordinates are whole
Ring = Sequence[Point]
Term = tuple[int, int]  # a fraction
IN, OUT, EDGE = "in", "out", "edge"


def homogeneous(x: Fraction | int, y: Fraction | int) -> Point:
    """A place as a point."""
    return x.numerator * y.denominator, y.numerator * x.denominator, x.denominator * y.denominator


def whole(ring: Iterable[Whole]) -> list[Point]:
    """A ring of whole points as one of points."""
    return [(x, y, 1) for x, y in ring]


class Box(NamedTuple):
    """The places with left <= x <= right and low <= y <= high."""

    left: Fraction | int
    low: Fraction | int
    right: Fraction | int
    high: Fraction | int

    @classmethod
    def of(cls, points: Iterable[Point]) -> Self:
        """The least box round some points, of which there is one at least."""
        xs, ys = zip(*((x, y) if w == 1 else (Fraction(x, w), Fraction(y, w)) for x, y, w in points))
        return cls(min(xs), min(ys), max(xs), max(ys))

    @classmethod
    def of_whole(cls, points: Iterable[Whole]) -> Self:
        """The same of whole points."""
        xs, ys = zip(*points)
        return cls(min(xs), min(ys), max(xs), max(ys))

    @classmethod
    def round(cls, boxes: Iterable[Self]) -> Self | None:
        """The least box round some boxes, or None where there are none."""
        found = list(boxes)
        if not found:
            return None
        lefts, lows, rights, highs = zip(*found)
        return cls(min(lefts), min(lows), max(rights), max(highs))

    def corners(self) -> list[Point]:
        return [homogeneous(x, y) for x in (self.left, self.right) for y in (self.low, self.high)]

    def has(self, point: Point) -> bool:
        x, y, w = point
        return self.left * w <= x <= self.right * w and self.low * w <= y <= self.high * w

    def meets(self, other: "Box") -> bool:
        """Whether two boxes have a common place."""
        return (self.left <= other.right and other.left <= self.right and self.low <= other.high
                and other.low <= self.high)


def turn(a: Point, b: Point, c: Point) -> int:
    """Greater than 0 where c lies to the left of the line from a to b, less where to the right, 0 on it."""
    return (
        a[0] * (b[1] * c[2] - b[2] * c[1]) - a[1] * (b[0] * c[2] - b[2] * c[0]) + a[2] * (b[0] * c[1] - b[1] * c[0])
    )


def compare(a: Point, b: Point) -> int:
    """The order of points: by x, then by y."""
    across = a[0] * b[2] - b[0] * a[2]
    return across if across else a[1] * b[2] - b[1] * a[2]


def edges(rings: Iterable[Ring]) -> Iterator[tuple[Point, Point]]:
    for ring in rings:
        yield from zip(ring, [*ring[1:], *ring[:1]])


def terms(rings: Iterable[Ring]) -> list[Term]:
    """Fractions whose sum is twice the area of rings, counter-clockwise ones counted as greater than 0."""
    return [(a[0] * b[1] - a[1] * b[0], a[2] * b[2]) for a, b in edges(rings)]


def place(rings: Iterable[Ring], point: Point) -> str:
    """Where a point lies: in, out, or edge."""
    is_inside = False
    for a, b in edges(rings):
        left, right = (a, b) if compare(a, b) < 0 else (b, a)
        if left[0] * point[2] <= point[0] * left[2] and point[0] * right[2] <= right[0] * point[2]:
            side = turn(left, right, point)
            if side == 0 and Box.of([a, b]).has(point):
                return EDGE
            is_inside ^= side > 0 and point[0] * right[2] < right[0] * point[2]
    return IN if is_inside else OUT


def meets(rings: Sequence[Ring], box: Box) -> bool:
    """Whether a place of a polygon or of its boundary lies in a box."""
    corners = box.corners()
    for a, b in edges(rings):
        if Box.of([a, b]).meets(box):
            sides = [turn(a, b, corner) for corner in corners]
            if min(sides) <= 0 <= max(sides):
                return True
    return place(rings, corners[0]) != OUT
