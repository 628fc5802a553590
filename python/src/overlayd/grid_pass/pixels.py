"""Which steps meet the pixels of which whole points.

A point's pixel is the square of one unit round it. Where wide ones are asked for, a point with none of the others among
the eight whole points around it has a square of two units: squares still have no common place.
"""

from collections.abc import Iterator
from dataclasses import dataclass

import numpy as np

from ..geometry.flat_arrays import Numbers, offsets, spans
from .places import HALF, UNIT
from .steps import Points, Steps

AT_ONCE = 1 << 19  # parts of steps that are looked at together
LEAST_CELL = 4.0  # units
FINEST = 4.0  # so many cells side by side have one point, were these spread evenly: borders have more in a row
WIDEST = 2.0  # a cell is no wider than so many points' distance
ROOM = 2.0  # units round a step in which its candidates lie: half a pixel, and what doubles are off there
MODULAR = 2.0**110  # products up to which what doubles cannot tell is told modulo 2^64


@dataclass(frozen=True)
class Hot:
    """Whole points whose pixels count, each once, and half the side of each pixel, in 2^-17 of a unit."""

    at: Points
    half: Numbers


@dataclass(frozen=True)
class Hits:
    """Steps and the whole points whose pixels they meet, and half the side of these."""

    step: Numbers
    at: Points
    half: Numbers

    def part(self, keeps: Numbers) -> "Hits":
        """Some of them."""
        return Hits(self.step[keeps], Points(self.at.x[keeps], self.at.y[keeps]), self.half[keeps])


def hot_of(points: Points, wide: bool) -> Hot:
    """Points, each of them given once, with their pixels."""
    return Hot(points, HALF + HALF * (alone(points) if wide else np.zeros(len(points), np.int64)))


def ranks(values: Numbers) -> Numbers:
    """Small numbers in the order of the values, of which two differ by 1 exactly where the values do."""
    own, back = np.unique(values, return_inverse=True)
    found: Numbers = offsets(np.minimum(np.diff(own), 2))[back]
    return found


def alone(points: Points) -> Numbers:
    """Which of some points, each given once, have none of the others among the eight around them."""
    if not len(points):
        return np.zeros(0, bool)
    row, height = ranks(points.y) + 1, 2 * len(points) + 3
    key = ranks(points.x) * height + row
    all_keys = np.sort(key)
    near: Numbers = np.zeros(len(key), bool)
    for off in (1, height - 1, height, height + 1):
        for wanted in (key - off, key + off):
            near |= all_keys[np.minimum(np.searchsorted(all_keys, wanted), len(key) - 1)] == wanted
    return ~near


class Cells:
    """Points by the cells of a grid that they lie in, column by column."""

    def __init__(self, points: Points, steps: Steps) -> None:
        self.left, self.low = int(points.x.min()), int(points.y.min())
        x, y = (points.x - self.left).astype(float), (points.y - self.low).astype(float)
        apart = max(x.max(), y.max(), 1.0) / np.sqrt(len(points))
        reach = float(np.median(steps.reach())) if len(steps) else 0.0
        self.side = max(apart / FINEST, min(reach, WIDEST * apart), LEAST_CELL)
        self.columns, self.rows = int(x.max() / self.side) + 1, int(y.max() / self.side) + 1
        cell = (x / self.side).astype(np.int64) * self.rows + (y / self.side).astype(np.int64)
        self.order = np.argsort(cell, kind="stable")
        self.begins = offsets(np.bincount(cell, minlength=self.columns * self.rows))

    def cut(self, values: Numbers, count: int) -> Numbers:
        """The columns or rows in which some values lie, the nearest ones of those that are beyond."""
        found: Numbers = np.clip(np.floor(values / self.side), 0, count - 1).astype(np.int64)
        return found


def candidates(steps: Steps, points: Points) -> Iterator[tuple[Numbers, Numbers]]:
    """Steps and points that may be near each other, each pair once or more: some after the others."""
    if not len(points) or not len(steps):
        return
    cells = Cells(points, steps)
    parts = (steps.reach() / cells.side).astype(np.int64) + 1
    ends = np.cumsum(parts)
    at = 0
    while at < len(parts):
        done = int(ends[at - 1]) if at else 0
        stop = max(at + 1, int(np.searchsorted(ends, done + AT_ONCE)))
        yield from candidates_of(steps, cells, np.arange(at, stop), parts[at:stop])
        at = stop


def candidates_of(steps: Steps, cells: Cells, which: Numbers, parts: Numbers) -> Iterator[tuple[Numbers, Numbers]]:
    """The same of some steps, in parts that are no longer than a cell is wide."""
    step, part = np.repeat(which, parts), spans(np.zeros_like(parts), parts)
    share = np.repeat(1.0 / parts, parts)
    low, high = [], []
    for begin, end, origin, count in ((steps.ax, steps.bx, cells.left, cells.columns),
                                      (steps.ay, steps.by, cells.low, cells.rows)):
        base = (begin - origin * UNIT)[step] / UNIT
        run = (end - begin)[step] / UNIT
        one, other = base + run * (part * share), base + run * ((part + 1) * share)
        low.append(cells.cut(np.minimum(one, other) - ROOM, count))
        high.append(cells.cut(np.maximum(one, other) + ROOM, count))
    for more in range(int((high[0] - low[0]).max()) + 1):
        at = np.flatnonzero(low[0] + more <= high[0])
        column = (low[0][at] + more) * cells.rows
        begin = cells.begins[column + low[1][at]]
        many: Numbers = cells.begins[column + high[1][at] + 1] - begin
        yield np.repeat(step[at], many), cells.order[spans(begin, many)]


def meets(steps: Steps, step: Numbers, hot: Hot, point: Numbers) -> Numbers:
    """The places at which some steps meet the pixel of the hot point beside each: where their boxes do, and the pixel's
    corners are not all on one side of the step."""
    px, half = hot.at.x[point] * UNIT, hot.half[point]
    at = np.flatnonzero((steps.bx[step] > px - half) & (steps.ax[step] < px + half))
    px, half, step = px[at], half[at], step[at]
    py, ax, ay, bx, by = hot.at.y[point[at]] * UNIT, steps.ax[step], steps.ay[step], steps.bx[step], steps.by[step]
    met = np.flatnonzero((np.maximum(ay, by) > py - half) & (np.minimum(ay, by) < py + half))
    dx, dy, px, py = (one[met] for one in (bx - ax, by - ay, px - ax, py - ay))
    found: Numbers = at[met[crosses(dx, dy, px, py, half[met])]]
    return found


def crosses(dx: Numbers, dy: Numbers, px: Numbers, py: Numbers, half: Numbers) -> Numbers:
    """Whether |dx py - dy px| < half (|dx| + |dy|), exactly."""
    one, other = dx.astype(float) * py, dy.astype(float) * px
    wide = half * (np.abs(dx).astype(float) + np.abs(dy))
    excess = np.abs(one - other) - wide
    found: Numbers = excess < 0
    size = np.abs(one) + np.abs(other) + wide
    unsure = np.flatnonzero(np.abs(excess) <= size * 2.0**-49)
    sign = np.where(one < other, -1, 1)  # right wherever the two sides are nearly equal
    for at, kind in ((unsure[size[unsure] > MODULAR], object), (unsure[size[unsure] <= MODULAR], np.int64)):
        found[at] = is_less(*(column[at].astype(kind) for column in (sign, dx, dy, px, py, half)))
    return found


def is_less(sign: Numbers, dx: Numbers, dy: Numbers, px: Numbers, py: Numbers, half: Numbers) -> Numbers:
    """The same where both sides are nearly equal, so that their difference is right modulo 2^64 too."""
    excess: Numbers = sign * (dx * py - dy * px) - half * (abs(dx) + abs(dy))
    return np.asarray(excess < 0, bool)
