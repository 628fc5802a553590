"""Steps of rings as they were given, and where long ones are bent.

A step is bent where its whole ends are more than LONG apart in x or in y: along the axis that it goes farther along as
it was given (x where both are equal), at each multiple of LONG strictly between its ends, on the whole point there that
is nearest to its exact height, half up. The bends are the same from either end, monotone, and no farther apart than
LONG.
"""

from dataclasses import dataclass

import numpy as np

from ..geometry.flat_arrays import Numbers, after_of, firsts, mixed, owners, spans
from .places import HALF, UNIT, whole

LONG = 2**19


@dataclass(frozen=True)
class Steps:
    """Steps from their lower ends (by x, then y) to the others, in places; of[k] is the one that begins at corner k, or
    -1 where its ends are in one pixel; turned[k]: whether the ring runs the other way there."""

    ax: Numbers
    ay: Numbers
    bx: Numbers
    by: Numbers
    of: Numbers
    turned: Numbers

    def __len__(self) -> int:
        return len(self.ax)

    def reach(self) -> Numbers:
        """How far apart the whole ends of each are, along the axis where that is more."""
        across, along = whole(self.bx) - whole(self.ax), whole(self.by) - whole(self.ay)
        found: Numbers = np.maximum(np.abs(across), np.abs(along))
        return found


@dataclass(frozen=True)
class Points:
    """Whole points."""

    x: Numbers
    y: Numbers

    def __len__(self) -> int:
        return len(self.x)


@dataclass(frozen=True)
class Bends:
    """Whole points, each with the step that is bent there."""

    step: Numbers
    at: Points


def steps_of(x: Numbers, y: Numbers, sizes: Numbers) -> Steps:
    """The steps of rings of places, each once however many rings have it."""
    after = after_of(sizes)
    next_x, next_y = x[after], y[after]
    turned = (x > next_x) | ((x == next_x) & (y > next_y))
    live = np.flatnonzero((whole(x) != whole(next_x)) | (whole(y) != whole(next_y)))
    back = turned[live]
    ax, ay = np.where(back, next_x[live], x[live]), np.where(back, next_y[live], y[live])
    bx, by = np.where(back, x[live], next_x[live]), np.where(back, y[live], next_y[live])
    order = np.argsort(mixed(ax, ay, bx, by), kind="stable")
    first = firsts(ax[order], ay[order], bx[order], by[order])
    found = np.sort(order[first])  # in the order of the map, whose neighbours lie near each other
    rank: Numbers = np.zeros(len(live), np.int64)
    rank[found] = np.arange(len(found))
    of: Numbers = np.full(len(x), -1, np.int64)
    of[live[order]] = rank[order[first]][np.cumsum(first) - 1]
    return Steps(ax[found], ay[found], bx[found], by[found], of, turned)


def quotients(factor: Numbers, rise: Numbers, run: Numbers) -> Numbers:
    """floor(factor * rise / run) for 0 <= factor <= run < 2^62 and |rise| <= run, where the product has up to 124 bits:
    by long doubles, then exactly by what is left modulo 2^64."""
    near: Numbers = np.rint(factor.astype(np.longdouble) * (rise.astype(np.longdouble) / run)).astype(np.int64)
    return near + (factor * rise - near * run) // run


def bends(steps: Steps, long: int = LONG) -> Bends:
    """Where steps are bent."""
    of = np.flatnonzero(steps.reach() > long)
    ax, ay, bx, by = steps.ax[of], steps.ay[of], steps.bx[of], steps.by[of]
    tall = np.abs(by - ay) > np.abs(bx - ax)
    main, other = np.where(tall, ay, ax), np.where(tall, ax, ay)
    main_end, other_end = np.where(tall, by, bx), np.where(tall, bx, by)
    back = main > main_end
    main, main_end = np.where(back, main_end, main), np.where(back, main, main_end)
    other, other_end = np.where(back, other_end, other), np.where(back, other, other_end)
    first = main // (UNIT * long) + 1
    count = -(-main_end // (UNIT * long)) - first
    which = owners(count)
    at = spans(first, count) * long
    run, rise = (main_end - main)[which], (other_end - other)[which]
    height = (other[which] + HALF + quotients(at * UNIT - main[which], rise, run)) // UNIT
    return Bends(of[which], Points(np.where(tall[which], height, at), np.where(tall[which], at, height)))


def unique(x: Numbers, y: Numbers) -> Points:
    """Whole points, each once."""
    order = np.argsort(mixed(x, y), kind="stable")
    x, y = x[order], y[order]
    first = firsts(x, y)
    return Points(x[first], y[first])
