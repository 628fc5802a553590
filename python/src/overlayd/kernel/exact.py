"""Exact areas of outlines whose corners are fractions."""

from fractions import Fraction

import numpy as np

from ..geometry import areas, plane
from ..geometry.flat_arrays import Numbers, offsets
from ..program import Point
from .rows import Rows


def exact_areas(rows: Rows, name: str = "both", bound: str = "bound") -> Numbers:
    """Twice the area of each row: as it is where all corners are whole, else that of its outline by fractions."""
    found: Numbers = np.zeros(len(rows.rows), object)
    rings, counts = rings_of(rows), offsets(rows.rows["rings"].astype(np.int64)).tolist()
    for row, (begin, end) in enumerate(zip(counts, counts[1:])):
        if rows.exact(bound, row) == 0:
            found[row] = Fraction(rows.exact(name, row), 2**40)
        else:
            found[row] = areas.exact_sum(plane.terms(rings[begin:end]))
    return found


def rings_of(rows: Rows) -> list[list[Point]]:
    """The corners of all rings as they are."""
    axes = [[(high << 64) + low for high, low in zip(own["high"].tolist(), own["low"].tolist())]
            for own in rows.corners.T]
    corners, ends = list(zip(*axes)), offsets(rows.rings["corners"].astype(np.int64)).tolist()
    return [corners[begin:end] for begin, end in zip(ends, ends[1:])]
