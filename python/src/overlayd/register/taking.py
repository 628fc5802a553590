"""Shapes of a layer on the register's grid, feature by feature: one that cannot be taken holds up no other.

Coordinates are rounded, and steps that are too long for the program bent at whole points; nothing else is done, so what
a feature is does not depend on the others.
"""

import enum
from dataclasses import dataclass
from fractions import Fraction

import numpy as np

from ..geometry.flat_arrays import Numbers, offsets, owners
from ..grid_pass.onto_grid import Noding, Rings, onto_grid
from ..grid_pass.places import FARTHEST
from ..kernel.columns import Column, counts_at
from ..kernel.features import Features, of_rings
from ..kernel.ring_walk import HAS_M, HAS_Z, HEAD, ShapeFault
from ..kernel.shapes import Shapes, shapes

NEAR = 1e-4  # of a unit: doubles of n / 1000 and of n * 0.001 are both on the grid
FAULTS = 2  # last places by which a double may be off besides
CURVES = range(8, 18)
FLAT = range(1000)  # kinds with two axes


class Problem(enum.Enum):
    """What is told of a feature. Of the first ones it has no shape for the register."""

    NO_GEOMETRY = "no geometry"
    EMPTY = "empty"
    NO_POLYGON = "no polygon"
    CURVED = "curved"
    UNREADABLE = "unreadable"
    OUT_OF_RANGE = "out of range"
    TOO_SMALL = "nothing is left of it on the grid"
    NO_AREA = "its rings enclose nothing"
    NO_ANSWER = "refused by the program"
    TOO_LARGE = "over too many cells"
    HEIGHTS = "heights are not looked at"
    OFF_GRID = "off the grid"
    CROSSING = "crosses itself"


Told = list[tuple[int, str]]


@dataclass(frozen=True)
class Taken:
    """Features on the grid, of which those that are refused have no ring; of each ring whether it is the outer one of
    its polygon; and what is told, by the features' places."""

    features: Features
    is_outer: Numbers
    told: Told

    def is_live(self) -> Numbers:
        """Which features have a shape."""
        found: Numbers = np.diff(self.features.feature_at) > 0
        return found

    def part(self, begin: int, end: int) -> "Taken":
        """The features from one to another."""
        rings = slice(*self.features.feature_at[[begin, end]])
        told = [(place - begin, what) for place, what in self.told if begin <= place < end]
        return Taken(self.features.part(np.arange(begin, end)), self.is_outer[rings], told)

    def without(self, places: Numbers, what: str) -> "Taken":
        """The same without the shapes of some, of which it is told."""
        counts = np.diff(self.features.feature_at)
        keeps = np.ones(len(counts), bool)
        keeps[places] = False
        rings = np.repeat(keeps, counts)
        sizes = np.diff(self.features.ring_at)
        points = np.repeat(rings, sizes)
        made = Features(self.features.x[points], self.features.y[points], offsets(sizes[rings]),
                        offsets(np.where(keeps, counts, 0)))
        return Taken(made, self.is_outer[rings], [*self.told, *((place, what) for place in places.tolist())])


def blanked(column: Column, places: Numbers) -> Column:
    """A column in which some shapes have no bytes."""
    sizes = np.diff(column.at)
    keeps: Numbers = np.ones(len(column), bool)
    keeps[places] = False
    return Column(column.data[np.repeat(keeps, sizes)], offsets(np.where(keeps, sizes, 0)))


def taken(column: Column, factor: Fraction) -> Taken:
    """The shapes of a column on a grid, so many units of which are one of the layer's."""
    missing = np.flatnonzero(np.diff(column.at) == 0)
    told = [(place, Problem.NO_GEOMETRY.value) for place in missing.tolist()]
    read, unreadable = read_all(column)
    told += [(place, Problem.UNREADABLE.value) for place in unreadable]
    told += [(int(place), (Problem.CURVED if kind in CURVES else Problem.NO_POLYGON).value)
             for place, kind in zip(read.others, read.kinds)]
    apart = {place for place, _ in told}
    told += [(place, Problem.EMPTY.value) for place in np.flatnonzero(read.counts == 0).tolist() if place not in apart]
    told += [(place, Problem.HEIGHTS.value) for place in with_heights(column) if place not in apart]
    read, far = in_range(read, factor)
    told += [(place, Problem.OUT_OF_RANGE.value) for place in far]
    told += [(place, Problem.OFF_GRID.value) for place in off_grid(read, factor)]
    (done,) = onto_grid([Rings(read.x, read.y, read.sizes)], factor, Noding.NEVER)
    features = of_rings(done.rings.x, done.rings.y, done.rings.sizes, read.counts)
    gone = np.flatnonzero((read.counts > 0) & (np.diff(features.feature_at) == 0))
    told += [(place, Problem.TOO_SMALL.value) for place in gone.tolist()]
    return Taken(features, read.is_outer[done.rings.sizes > 0], sorted(told))


def read_all(column: Column) -> tuple[Shapes, list[int]]:
    """The rings of a column, and which of its shapes cannot be read."""
    unreadable: list[int] = []
    while True:
        try:
            return shapes(column), unreadable
        except ShapeFault as fault:
            unreadable += fault.features
            column = blanked(column, np.array(fault.features))


def with_heights(column: Column) -> list[int]:
    """Which shapes have more than two axes, by their heads."""
    full = np.flatnonzero(np.diff(column.at) > HEAD)
    at = column.at[:-1][full]
    kinds = counts_at(column.data, at + 1, column.data[at] == 0)
    has = (kinds & (HAS_Z | HAS_M) > 0) | ((kinds & 0xFFFF) // len(FLAT) > 0)
    found: list[int] = full[has].tolist()
    return found


def in_range(read: Shapes, factor: Fraction) -> tuple[Shapes, list[int]]:
    """The shapes without those that are too far, and which these are."""
    with np.errstate(over="ignore", invalid="ignore"):
        is_far = ~((np.abs(read.x) * float(factor) <= FARTHEST) & (np.abs(read.y) * float(factor) <= FARTHEST))
    if not is_far.any():
        return read, []
    ring, feature = owners(read.sizes), owners(read.counts)
    far = np.unique(feature[np.unique(ring[is_far])])
    keeps: Numbers = np.ones(len(read.counts), bool)
    keeps[far] = False
    rings = keeps[feature]
    points = rings[ring]
    return Shapes(read.x[points], read.y[points], read.sizes[rings], read.is_outer[rings],
                  np.where(keeps, read.counts, 0), read.others, read.kinds), far.tolist()


def off_grid(read: Shapes, factor: Fraction) -> list[int]:
    """Which features have a coordinate that stands for no whole number."""
    wrong: Numbers = np.zeros(len(read.x), bool)
    for own in (read.x, read.y):
        scaled = own * factor.numerator / factor.denominator
        wrong |= np.abs(scaled - np.rint(scaled)) > NEAR + FAULTS * np.spacing(np.abs(scaled))
    found: list[int] = np.unique(owners(read.counts)[owners(read.sizes)[wrong]]).tolist()
    return found
