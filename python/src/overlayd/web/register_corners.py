"""Who has a corner: the features that change with it, and the corners of others on the borders that it moves."""

import math
from collections.abc import Iterator
from dataclasses import dataclass
from fractions import Fraction
from typing import Any

from ..register.geojson import geometry_of
from ..register.tables import Item, Table

NEAR = 2  # units of the grid: corners of others so near to a border lie on it
MOST = 1000  # features near a corner
Corner = tuple[int, int]


@dataclass(frozen=True)
class Shared:
    """A feature that has a corner; its geometry, to which so many corners of others were added."""

    item: Item
    geometry: dict[str, Any]
    added: int


def rings_of(geometry: dict[str, Any]) -> Iterator[list[list[float]]]:
    """The rings of a polygon or a multipolygon, as lists that can be changed."""
    for polygon in [geometry["coordinates"]] if geometry["type"] == "Polygon" else geometry["coordinates"]:
        yield from polygon


def with_corner(table: Table, factor: Fraction, x: Fraction, y: Fraction) -> list[Shared]:
    """The features that have a corner at a point. Where a border that begins there has the corner of another feature
    between its ends, this is taken in: so the border is moved up to it, and not beyond."""
    unit = float(factor)

    def on_grid(place: list[float]) -> Corner:
        return round(place[0] * unit), round(place[1] * unit)

    here, reach = on_grid([float(x), float(y)]), float(1 / factor)
    box = [float(x) - reach, float(y) - reach, float(x) + reach, float(y) + reach]
    found = [(item, geometry) for item in table.page(0, MOST, box) if (geometry := geometry_of(item.shape))
             and any(on_grid(place) == here for ring in rings_of(geometry) for place in ring)]
    places = [place for _, geometry in found for ring in rings_of(geometry) for a, b in zip(ring, ring[1:])
              if here in (on_grid(a), on_grid(b)) for place in (a, b)]
    if not places:
        return []
    around = [edge(own) for edge in (min, max) for own in zip(*places)]
    others = {on_grid(place): place for item in table.page(0, MOST, around) if (geometry := geometry_of(item.shape))
              for ring in rings_of(geometry) for place in ring}
    made = []
    for item, geometry in found:
        count = 0
        for ring in rings_of(geometry):
            own = {on_grid(place) for place in ring}
            whole = [place for a, b in zip(ring, ring[1:]) for place in (a, *(
                others[corner] for corner in between(on_grid(a), on_grid(b), here, others.keys() - own)))]
            count += len(whole) + 1 - len(ring)
            ring[:] = [*whole, whole[0]]
        made.append(Shared(item, geometry, count))
    return made


def between(a: Corner, b: Corner, here: Corner, others: set[Corner]) -> list[Corner]:
    """Which corners lie on a border that has its end here, in their order from its first end."""
    long = math.dist(a, b)
    if here not in (a, b) or not long:
        return []
    on = [(math.dist(a, q), q) for q in others if math.dist(a, q) < long and math.dist(b, q) < long and abs(
        (b[0] - a[0]) * (q[1] - a[1]) - (b[1] - a[1]) * (q[0] - a[0])) <= NEAR * long]
    return [q for _, q in sorted(on)]
