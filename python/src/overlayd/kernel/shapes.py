"""Polygons and multipolygons of Well-Known Binary as flat arrays, and back.

Of either order of bytes, with Z or M or both, which are left out, in the standard's form and in PostGIS's with a
system's number. A shape of another kind, as a curve or a point, has no rings and is named."""

from dataclasses import dataclass

import numpy as np

from ..geometry.flat_arrays import Numbers, offsets, owners, spans
from .columns import COUNT, WIDTH, Column, points_at, put_counts, put_points
from .ring_walk import HEAD, MULTIPOLYGON, POLYGON, Found, Reason, ShapeFault, walked

POINT = 2 * WIDTH


@dataclass(frozen=True)
class Shapes:
    """Rings without closing points, feature by feature: of each ring its size and whether it is the outer one of its
    polygon, of each feature how many it has; and which features are of another kind, with the number of that."""

    x: Numbers
    y: Numbers
    sizes: Numbers
    is_outer: Numbers
    counts: Numbers
    others: Numbers
    kinds: Numbers


def shapes(column: Column) -> Shapes:
    """The rings of a column of shapes; empty ones are left out."""
    found, others, kinds = walked(column)
    full = found.points > 0
    rings = Found(*(getattr(found, name)[full] for name in Found.__annotations__))
    sizes = rings.points - 1
    width = rings.width[:1] if (rings.width == rings.width[:1]).all() else np.repeat(rings.width, sizes)
    is_big = np.repeat(rings.is_big, sizes) if rings.is_big.any() else rings.is_big[:1]
    firsts = rings.begin - rings.width * offsets(sizes)[:-1]  # where the first point of all would be, by each ring
    x, y = points_at(column.data, np.repeat(firsts, sizes) + np.arange(int(sizes.sum())) * width, is_big)
    check(column, rings, x, y)
    counts = np.bincount(rings.feature, minlength=len(column))
    return Shapes(x, y, sizes, rings.is_outer, counts, others, kinds)


def check(column: Column, rings: Found, x: Numbers, y: Numbers) -> None:
    """Refuses rings that are not closed, and coordinates that are no numbers."""
    first_x, first_y = points_at(column.data, rings.begin, rings.is_big)
    last_x, last_y = points_at(column.data, rings.begin + (rings.points - 1) * rings.width, rings.is_big)
    is_open = (first_x != last_x) | (first_y != last_y)
    odd = np.flatnonzero(~(np.isfinite(x) & np.isfinite(y)))
    ring = np.searchsorted(np.cumsum(rings.points - 1), odd, "right")
    is_odd = np.bincount(ring, minlength=len(rings.begin)) > 0
    for wrong, reason in ((is_odd, Reason.NO_NUMBER), (is_open, Reason.OPEN)):
        if wrong.any():
            raise ShapeFault(np.unique(rings.feature[wrong]), reason)


def column_of(x: Numbers, y: Numbers, sizes: Numbers, outer: Numbers, counts: Numbers) -> Column:
    """Shapes as Well-Known Binary, lowest bytes first: of one polygon or of several or none. outer is of each ring -1
    where it is the outer one of a polygon, else the number of its polygon's outer ring, which is of the same shape."""
    number, shape = np.arange(len(sizes)), owners(counts)
    head = np.where(outer < 0, number, outer)
    order = np.lexsort((number, outer >= 0, head, shape))
    is_first = outer[order] < 0
    polygons = np.bincount(shape[outer < 0], minlength=len(counts))
    is_single = polygons == 1
    opened = (HEAD + COUNT) * (is_first & ~is_single[shape])
    bytes_of_ring = COUNT + POINT * (sizes[order] + 1)
    within = opened + bytes_of_ring
    shape_bytes = HEAD + COUNT + np.bincount(shape, within, len(counts)).astype(np.int64)
    at = offsets(shape_bytes)
    data: Numbers = np.zeros(int(at[-1]), np.uint8)
    put_heads(data, at[:-1], np.where(is_single, POLYGON, MULTIPOLYGON), np.where(is_single, counts, polygons))
    ring_at = offsets(within)[:-1] + (HEAD + COUNT) * (shape + 1)
    several = is_first & ~is_single[shape]
    holes = np.bincount(head, minlength=len(sizes))[order]
    put_heads(data, ring_at[several], np.full(int(several.sum()), POLYGON), holes[several])
    put_rings(data, ring_at + opened, x, y, sizes, order)
    return Column(data, at)


def put_heads(data: Numbers, at: Numbers, kinds: Numbers, counts: Numbers) -> None:
    """Writes orders of bytes, kinds and counts."""
    data[at] = 1
    put_counts(data, at + 1, kinds)
    put_counts(data, at + HEAD, counts)


def put_rings(data: Numbers, at: Numbers, x: Numbers, y: Numbers, sizes: Numbers, order: Numbers) -> None:
    """Writes rings in an order, each with its closing point."""
    begins, counts = offsets(sizes)[order], sizes[order] + 1
    put_counts(data, at, counts)
    place = spans(np.zeros_like(counts), counts)
    source = np.repeat(begins, counts) + place % np.repeat(np.maximum(sizes[order], 1), counts)
    target = np.repeat(at + COUNT, counts) + POINT * place
    put_points(data, target, x[source], y[source])
