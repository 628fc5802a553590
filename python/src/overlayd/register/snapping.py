"""Layers onto the register's grid in one pass over all of them, so that a border that two have in common stays one.

Where the grid moves a corner, corners that lay on a neighbour's border are taken into it. Features that are as they
were keep their bytes; so do those with heights, which would lose them, and those of which nothing would be left.
"""

import struct
from collections.abc import Collection
from fractions import Fraction

import numpy as np

from ..geometry.flat_arrays import owners
from ..grid_pass.onto_grid import Noding, Rings, onto_grid
from ..grid_pass.rings import WholeRings
from ..kernel.columns import Column
from ..kernel.shapes import Shapes, column_of
from .blobs import GATHERED, MULTIPOLYGON
from .engines import Engine, Found
from .model import Layer
from .tables import Table
from .taking import in_range, off_grid, read_all, with_heights


def snap(engine: Engine, layers: list[Layer], factor: Fraction) -> dict[str, int]:
    """Takes layers onto a grid, so many units of which are one of theirs; how many features of each are changed."""
    found = [engine.features(layer) for layer in layers]
    read = [in_range(read_all(one.column())[0], factor)[0] for one in found]
    given = [Rings(one.x, one.y, one.sizes) for one in read]
    counts = {}
    with engine.writing():
        for layer, own, shapes, done in zip(layers, found, read, onto_grid(given, factor, Noding.WHERE_MOVED)):
            whole = WholeRings(np.rint(shapes.x * float(factor)), np.rint(shapes.y * float(factor)), shapes.sizes)
            wanted = {*off_grid(shapes, factor), *changed(shapes, whole, done.rings)}
            written, table = shaped(own, shapes, done.rings, factor, wanted), Table(engine, layer)
            for place, shape in written.items():
                table.update(own.fids[place], shape, {})
            counts[layer.name] = len(written)
    return counts


def changed(read: Shapes, was: WholeRings, rings: WholeRings) -> list[int]:
    """Which features have other rings than they had."""
    is_other = rings.sizes != was.sizes
    same, before = np.repeat(~is_other, rings.sizes), np.repeat(~is_other, was.sizes)
    moved = (rings.x[same] != was.x[before]) | (rings.y[same] != was.y[before])
    is_other[owners(rings.sizes)[same][moved]] = True
    found: list[int] = np.unique(owners(read.counts)[is_other]).tolist()
    return found


def shaped(found: Found, read: Shapes, rings: WholeRings, factor: Fraction, wanted: Collection[int]
           ) -> dict[int, bytes]:
    """The shapes on the grid of some features, by their places: of those that have no heights, and of which something
    is left."""
    if not wanted:
        return {}
    column = written(read, rings, factor)
    live = np.bincount(owners(read.counts), rings.sizes, len(read.counts)) > 0
    kept = {*with_heights(found.column())}
    return {place: gathered(column.shape(place), found.shapes[place]) for place in sorted(wanted)
            if live[place] and place not in kept}


def gathered(shape: bytes, was: bytes | None) -> bytes:
    """A polygon as a multipolygon, where it was one."""
    kind = struct.unpack_from("<I" if (was or b"\0")[0] else ">I", was or b"", 1)[0] % 1000
    return GATHERED + shape if kind == MULTIPOLYGON and shape[1] != MULTIPOLYGON else shape


def written(read: Shapes, rings: WholeRings, factor: Fraction) -> Column:
    """All features on the grid as Well-Known Binary."""
    x, y = (own * float(factor.denominator) / float(factor.numerator) for own in (rings.x, rings.y))
    sizes, feature = rings.sizes, owners(read.counts)
    number = np.arange(len(sizes))
    first = np.maximum.accumulate(np.where(read.is_outer, number, 0)) if len(sizes) else number
    live = (sizes > 0) & (sizes[first] > 0)  # of a polygon that is gone the holes go, too
    outer = np.where(read.is_outer, -1, (np.cumsum(live) - 1)[first])[live]
    points = np.repeat(live, sizes)
    counts = np.bincount(feature[live], minlength=len(read.counts))
    return column_of(x[points], y[points], sizes[live], outer, counts)
