"""How long the borders of shapes are, and how wide shapes are by that."""

import numpy as np

from ..geometry.flat_arrays import Numbers, after_of, owners
from .columns import Column
from .shapes import shapes


def perimeters(column: Column) -> Numbers:
    """The length of each shape's border, in units of the map."""
    found = shapes(column)
    after = after_of(found.sizes)
    lengths = np.hypot(found.x[after] - found.x, found.y[after] - found.y)
    of_rings: Numbers = np.bincount(owners(found.sizes), lengths, len(found.sizes))
    whole: Numbers = np.bincount(owners(found.counts), of_rings, len(found.counts))
    return whole


def widths(column: Column, areas: Numbers) -> Numbers:
    """Area by perimeter: of a long strip about half its width; 0 where there is no border."""
    lengths = perimeters(column)
    found: Numbers = np.divide(areas, lengths, out=np.zeros(len(areas)), where=lengths > 0)
    return found
