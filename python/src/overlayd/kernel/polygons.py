"""The polygons of a row's outline, each an outer ring with its holes, as shapes of their own with their areas."""

from dataclasses import dataclass
from fractions import Fraction

import numpy as np

from ..geometry.flat_arrays import Numbers, after_of, offsets, owners, spans
from .columns import Column
from .rows import NONE, Rows
from .shapes import column_of


@dataclass(frozen=True)
class Polygons:
    """By the order of their outer rings: shapes in coordinates of the map, areas in its square units, by doubles, and
    boxes in units of the grid, likewise: least x, least y, greatest x, greatest y."""

    outlines: Column
    areas: Numbers
    boxes: Numbers

    def part(self, places: Numbers) -> "Polygons":
        """Some of them."""
        return Polygons(self.outlines.part(places), self.areas[places], self.boxes[places])


def polygons_of(rows: Rows, factor: Fraction) -> Polygons:
    """All polygons of all rows, so many units being one of the map's."""
    rings, sizes = rows.rings, rows.rings["corners"].astype(np.int64)
    begins = np.searchsorted(rings["row"], rings["row"])  # where the rings of each one's row begin
    outer = np.where(rings["outer"] == NONE, np.arange(len(rings)), rings["outer"].astype(np.int64) + begins)
    order = np.lexsort((rings["outer"] != NONE, outer))
    at = spans(offsets(sizes)[:-1][order], sizes[order])
    x, y, sizes = rows.coordinates(0)[at], rows.coordinates(1)[at], sizes[order]
    first, polygon = np.unique(outer, return_inverse=True)
    whole = np.where(rings["outer"][order] == NONE, -1, np.searchsorted(outer[order], outer[order]))
    shapes = column_of(rows.coordinates(0, factor)[at], rows.coordinates(1, factor)[at], sizes, whole,
                       np.bincount(polygon, minlength=len(first)))
    areas = np.bincount(outer[order], ring_areas(x, y, sizes), len(rings))[first] if len(rings) else np.zeros(0)
    square = factor**2
    found: Numbers = areas * float(square.denominator) / float(square.numerator)
    return Polygons(shapes, found, boxes_of(x, y, sizes)[whole < 0])


def ring_areas(x: Numbers, y: Numbers, sizes: Numbers) -> Numbers:
    """Areas of rings, less than 0 where they turn with the clock."""
    ring, after, begins = owners(sizes), after_of(sizes), offsets(sizes)[:-1]
    own_x, own_y = x - x[begins][ring], y - y[begins][ring]
    found: Numbers = np.bincount(ring, own_x * own_y[after] - own_x[after] * own_y, len(sizes)) / 2
    return found


def boxes_of(x: Numbers, y: Numbers, sizes: Numbers) -> Numbers:
    """The boxes of rings that have corners."""
    if not len(sizes):
        return np.zeros((0, 4))
    at = offsets(sizes)[:-1]
    low, high = ([edge(own, at) for own in (x, y)] for edge in (np.minimum.reduceat, np.maximum.reduceat))
    return np.stack([*low, *high], axis=1)
