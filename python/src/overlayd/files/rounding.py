"""Polygons in whole numbers of those in fractions, and what rounding did to them."""

from collections.abc import Callable
from dataclasses import dataclass
from fractions import Fraction
from typing import Any

from .. import grid
from ..grid import limits
from ..grid.scale import Scale
from .map_reading import Refused, number_of

Point = tuple[int, int]
Ring = list[Point]
Polygon = list[Ring]
COLLAPSED = "a ring that collapsed"
OUT_OF_RANGE = "out of range after scaling"


@dataclass
class Tally:
    """What rounding has done to some coordinates; the largest move is in the given unit. Longer ones had more digits
    than a double."""

    coordinates: int = 0
    rounded: int = 0
    longer: int = 0
    furthest: Fraction = Fraction(0)
    merged: int = 0
    heights: int = 0

    def add(self, other: "Tally") -> None:
        self.coordinates += other.coordinates
        self.rounded += other.rounded
        self.longer += other.longer
        self.furthest = max(self.furthest, other.furthest)
        self.merged += other.merged
        self.heights += other.heights

    def text(self) -> str:
        heights = f", further numbers of {self.heights} points dropped" if self.heights else ""
        return (f"{self.rounded} of {self.coordinates} coordinates rounded, largest move "
                f"{shown(self.furthest)}, {self.merged} equal points merged{heights}{longer_text(self.longer)}")


def longer_text(count: int) -> str:
    """What is said at the end of a line of so many coordinates of which a double does not have all digits."""
    return f", {count} coordinates of more digits than a double has, each taken for the nearest one" if count else ""


def shown(number: Fraction | float, digits: int = 3) -> str:
    """A fraction with a few significant digits."""
    return f"{float(number):.{digits}g}" if number else "0"


def closed(positions: Any) -> Any:
    """The positions of a ring, which is refused where it is not closed, or one of them is none."""
    for position in positions:
        if not isinstance(position, (list, tuple)) or len(position) < 2:
            raise Refused("a point that has no two coordinates")
    if len(positions) >= 2 and list(positions[0][:2]) != list(positions[-1][:2]):
        begin = " ".join(str(number) for number in positions[0][:2])
        raise Refused(f"a ring whose last point is not its first, {begin}")
    return positions


class Rounding:
    """Scaling and rounding of rings, and the tally of the ring that is read."""

    def __init__(self, scale: Scale) -> None:
        self.scale, self.tally = scale, Tally()
        self.factors = scale.factor, scale.factor_y

    def whole(self, axis: int, given: Any) -> int:
        """The whole number of a coordinate, as grid.py rounds it. Where it has more digits than a double, all of them
        count for how far it moves."""
        scaled = (number_of(given) - self.scale.origin[axis]) * self.factors[axis]
        nearest = grid.nearest(scaled)
        self.tally.coordinates += 1
        if grid.is_longer(given):
            self.tally.longer += 1
            scaled = (Fraction(given) - self.scale.origin[axis]) * self.factors[axis]
        if nearest != scaled:
            self.tally.rounded += 1
            self.tally.furthest = max(self.tally.furthest, abs(nearest - scaled) / self.factors[axis])
        return nearest

    def ring(self, positions: Any) -> Ring:
        """The ring in whole numbers, without equal points next to each other; range is not looked at here."""
        self.tally = Tally()
        points = []
        for position in closed(positions):
            self.tally.heights += len(position) > 2
            points.append((self.whole(0, position[0]), self.whole(1, position[1])))
        kept = points[:1] + [point for before, point in zip(points, points[1:]) if point != before]
        self.tally.merged += len(points) - len(kept)
        return kept

    def polygon(self, polygon: Any, say: Callable[[str], None]) -> tuple[Polygon, Tally]:
        """The polygon in whole numbers and its tally.

        A hole that cannot be written is left out; an outer ring takes the polygon along."""
        rings: Polygon = []
        tally = Tally()
        for number, positions in enumerate(polygon):
            if not isinstance(positions, (list, tuple)):
                raise Refused("a ring that is no list of points")
            ring = self.ring(positions)
            in_range(ring)
            reason = unusable_ring(positions, ring)
            if reason and number == 0:
                say(f"a polygon, for its outer ring: {reason}")
                return [], tally
            if reason:
                say(f"a hole: {reason}")
            else:
                rings.append(ring)
                tally.add(self.tally)
        return rings, tally


def in_range(ring: Ring) -> None:
    for x, y in ring:
        if max(abs(x), abs(y)) > limits.COORDINATE_MAX:
            raise Refused(f"{OUT_OF_RANGE}: {x} {y}")


def is_flat(ring: Ring) -> bool:
    """Whether all points of a ring are on one line."""
    first = ring[0]
    other = next((point for point in ring if point != first), first)
    across, up = other[0] - first[0], other[1] - first[1]
    return all(across * (y - first[1]) == up * (x - first[0]) for x, y in ring)


def unusable_ring(positions: Any, ring: Ring) -> str | None:
    """Why a ring in whole numbers cannot be written, or None."""
    if len(positions) < 4:
        return f"a ring of {len(positions)} points"
    if len(ring) < 4 or is_flat(ring):
        return COLLAPSED
    return None


def steps_of(polygons: list[Polygon]) -> int:
    return sum(len(ring) - 1 for polygon in polygons for ring in polygon)
