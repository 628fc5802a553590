"""Columns of shapes as features on one grid: all maps of a question in one pass, or a fault that says what would do."""

import enum
from collections.abc import Sequence
from dataclasses import dataclass
from fractions import Fraction

import numpy as np

from ..geometry.flat_arrays import Numbers, owners
from ..grid_pass.default_grid import Choice, Given, Unit, choose
from ..grid_pass.onto_grid import Noding, OnGrid, Rings, onto_grid
from ..grid_pass.places import BeyondRange
from ..grid_pass.telling import grid_line
from .columns import Column
from .features import Features, of_rings
from .ring_walk import ShapeFault
from .shapes import Shapes, shapes


class What(enum.Enum):
    """What is wrong with a feature."""

    SHAPE = "its shape cannot be read"
    KIND = "it is neither a polygon nor a multipolygon"
    RANGE = "a coordinate is too far for the grid"


class MapFault(Exception):
    """Why a map is not taken: which one, its first feature at fault, what is wrong with that and in which words; how
    far a coordinate is at fault, and the grid that would do, or None."""

    def __init__(self, number: int, feature: int, what: What, why: str, length: float | None = None,
                 grid: Fraction | None = None) -> None:
        super().__init__(f"map {number}, feature {feature}: {why}")
        self.map, self.feature, self.what, self.why, self.length, self.grid = number, feature, what, why, length, grid


@dataclass(frozen=True)
class Grid:
    """Which grid is asked for: so many units for one of the maps', or the default one of maps in some unit of length;
    whether corners are taken into steps that they lie on; and of maps in parts what lies beside, whose corners are."""

    factor: Fraction | None = None
    unit: Unit = Unit.UNKNOWN
    noding: Noding = Noding.WHERE_MOVED
    beside: Sequence[Column] = ()


@dataclass(frozen=True)
class Moves:
    """What a grid did to all maps together: how far the farthest coordinate was moved along an axis, in units of the
    maps; how many corners were taken into edges that they lie on; how many long edges were bent, and at how many
    places."""

    moved: float = 0.0
    taken: int = 0
    bent: int = 0
    bends: int = 0


@dataclass(frozen=True)
class Laid:
    """Maps on a grid, of which so many units are one of the maps', the line that says what the grid did, of each map
    the features that had rings and have none now, and what the line says as numbers."""

    maps: list[Features]
    factor: Fraction
    line: str
    collapsed: list[Numbers]
    moves: Moves = Moves()

    def alone(self, number: int) -> "Laid":
        """One of the maps."""
        return Laid([self.maps[number]], self.factor, self.line, [self.collapsed[number]], self.moves)


def lay(columns: Sequence[Column], grid: Grid = Grid()) -> Laid:
    """Maps on the grid that is asked for, or on their default one."""
    read = [shapes_of(number, column) for number, column in enumerate([*columns, *grid.beside])]
    choice = None if grid.factor is not None else default_of(read, grid.unit)
    factor = grid.factor or (Fraction(1) if choice is None else choice.factor())
    try:
        done = onto_grid([Rings(one.x, one.y, one.sizes) for one in read], factor, grid.noding)[:len(columns)]
    except BeyondRange as fault:
        raise too_far(read[fault.map], fault) from None
    maps = [of_rings(one.rings.x, one.rings.y, one.rings.sizes, own.counts) for one, own in zip(done, read)]
    gone = [np.flatnonzero((own.counts > 0) & (np.diff(one.feature_at) == 0)) for one, own in zip(maps, read)]
    return Laid(maps, factor, line_of(done, factor, grid.unit, choice), gone, moves_of(done, factor))


def shapes_of(number: int, column: Column) -> Shapes:
    """The rings of a map, each feature of which is a polygon, a multipolygon or empty."""
    try:
        found = shapes(column)
    except ShapeFault as fault:
        raise MapFault(number, fault.feature, What.SHAPE, fault.reason.value) from None
    if len(found.others):
        raise MapFault(number, int(found.others[0]), What.KIND, f"{What.KIND.value}, but of kind {found.kinds[0]}")
    return found


def default_of(read: Sequence[Shapes], unit: Unit) -> Choice | None:
    """The default grid of maps; None where they have no corner."""
    full = [Given(one.x, one.y, one.sizes, unit) for one in read if len(one.x)]
    return choose(full) if full else None


def too_far(read: Shapes, fault: BeyondRange) -> MapFault:
    """A fault of a coordinate as one of its feature."""
    feature = int(owners(read.counts)[owners(read.sizes)[fault.at]])
    grid = None if fault.would_do is None else 1 / fault.would_do
    return MapFault(fault.map, feature, What.RANGE, str(fault), fault.coordinate, grid)


def moves_of(done: Sequence[OnGrid], factor: Fraction) -> Moves:
    """What the grid did, as numbers."""
    farthest = max((one.moved for one in done), default=0.0) / float(factor)
    return Moves(farthest, *(sum(own) for own in zip(*((one.taken, one.bent, one.bends) for one in done))))


def line_of(done: Sequence[OnGrid], factor: Fraction, unit: Unit, choice: Choice | None) -> str:
    """What the grid did."""
    return grid_line(done, factor, {Unit.UNKNOWN: "unit"}.get(unit, unit.value), choice)
