"""All maps of a question onto one grid.

Rounding, bending and noding are one pass of snap rounding (chains.py), over all maps together, as a border that two
maps have in common is made the same only so. It is never done again on what it has made. Where no coordinate moves and
no step is long, maps stay as they are, so that a sliver that somebody made is found.
"""

import enum
import functools
from collections.abc import Sequence
from dataclasses import dataclass
from fractions import Fraction

import numpy as np

from ..geometry.flat_arrays import Numbers, after_of
from .chains import Choice, chains, every, inner
from .pixels import Hits, Hot, hot_of
from .places import UNIT, BeyondRange, places, whole
from .rings import WholeRings, joined, live, put_in, without_spikes
from .steps import LONG, Bends, Points, Steps, bends, steps_of, unique


class Noding(enum.Enum):
    """Whether corners on steps of others are taken into them."""

    NEVER = "never"  # rounding and bends alone
    WHERE_MOVED = "where moved"  # where the grid moves or bends something
    MOVED = "moved"  # as something is moved or bent, in another part of the maps
    ASKED = "asked"  # also where it does not: then with wide pixels, for corners that the map's maker rounded


@dataclass(frozen=True)
class Rings:
    """Rings of doubles without closing points, one after the other."""

    x: Numbers
    y: Numbers
    sizes: Numbers


@dataclass(frozen=True)
class Placed:
    """A map's corners in places."""

    x: Numbers
    y: Numbers
    sizes: Numbers

    @functools.cached_property
    def steps(self) -> Steps:
        return steps_of(self.x, self.y, self.sizes)

    @functools.cached_property
    def bent(self) -> Bends:
        """Where steps are bent."""
        return bends(self.steps)

    def is_moved(self) -> bool:
        """Whether a corner is more than 2^-16 of a unit off its whole point."""
        return any(bool((np.abs(own - whole(own) * UNIT) > 1).any()) for own in (self.x, self.y))

    def is_long(self) -> bool:
        """Whether a step is to be bent."""
        after = after_of(self.sizes)
        return any(bool((np.abs(own[after] - own) > LONG).any()) for own in map(whole, (self.x, self.y)))

    def farthest(self) -> float:
        """How far a coordinate is moved at most, in units."""
        return max(max(0, int(np.abs(own - whole(own) * UNIT).max(initial=1)) - 1) / UNIT for own in (self.x, self.y))

    def corners(self) -> Points:
        """Its corners and bends, in whole points, each once: what other parts of a question need of it."""
        return unique(np.concatenate([whole(self.x), self.bent.at.x]), np.concatenate([whole(self.y), self.bent.at.y]))


@dataclass(frozen=True)
class OnGrid:
    """A map in whole points, and what was done to it."""

    rings: WholeRings
    moved: float  # the farthest that a coordinate was moved by, in units
    bent: int  # steps that were bent, a border of two rings once
    bends: int
    taken: int  # corners taken into steps
    collapsed: Numbers  # the rings that are gone


def onto_grid(maps: Sequence[Rings], factor: Fraction, noding: Noding = Noding.WHERE_MOVED) -> list[OnGrid]:
    """Maps of doubles in whole points. A coordinate that is too far is refused by BeyondRange, of all maps in a row."""
    placed = []
    for number, one in enumerate(maps):
        try:
            placed.append(of_rings(one, factor))
        except BeyondRange as fault:
            fault.map = number
            raise
    moves = any(one.is_moved() for one in placed)
    if noding not in (Noding.ASKED, Noding.MOVED) and not moves and not any(one.is_long() for one in placed):
        return [rounded(one) for one in placed]
    if noding is Noding.NEVER:
        return [snapped(one, None) for one in placed]
    corners = [one.corners() for one in placed]
    hot = hot_of(together(corners), noding is Noding.ASKED and not moves)
    return [snapped(one, hot) for one in placed]


def of_rings(rings: Rings, factor: Fraction) -> Placed:
    """A map in places."""
    return Placed(places(rings.x, factor), places(rings.y, factor), rings.sizes)


def together(corners: Sequence[Points]) -> Points:
    """Whole points of several maps or parts, each once."""
    return unique(np.concatenate([one.x for one in corners]), np.concatenate([one.y for one in corners]))


def rounded(placed: Placed) -> OnGrid:
    """A map that is on the grid already, and has no long step."""
    rings = live(joined(WholeRings(whole(placed.x), whole(placed.y), placed.sizes)))
    return OnGrid(rings, placed.farthest(), 0, 0, 0, collapsed(placed, rings))


def collapsed(placed: Placed, rings: WholeRings) -> Numbers:
    """The rings of which nothing is left."""
    return np.flatnonzero((rings.sizes == 0) & (placed.sizes > 0))


def snapped(placed: Placed, hot: Hot | None, chosen: Choice = every) -> OnGrid:
    """One map, or a part of one, with the hot points of all: where there are none, as rounding and bends leave it."""
    found = chains(placed.steps, placed.bent, hot, chosen)
    rings = put_in(placed.x, placed.y, placed.sizes, placed.steps, found)
    rings = live(rings if hot is None else without_spikes(rings))
    own = inner(placed.steps, Hits(placed.bent.step, placed.bent.at, placed.bent.step))
    return OnGrid(rings, placed.farthest(), len(np.unique(placed.bent.step)), len(placed.bent.step),
                  len(found) - len(own.step), collapsed(placed, rings))
