"""Snap rounding (Hobby; Guibas and Marimont) of steps as they were given, not as rounded.

Each step becomes the chain of the whole points whose hot pixels it meets, in its order. Hot are the pixels of all
corners of all maps of a question, and of all bends. No chain is off its step by more than half a unit an axis, and no
two chains cross whose steps did not. With wide pixels neither holds: chains move by at most one unit, and a few cross.
"""

from collections.abc import Callable
from dataclasses import dataclass

import numpy as np

from ..geometry.flat_arrays import Numbers, firsts
from .pixels import Hits, Hot, candidates, meets
from .places import HALF, UNIT, whole
from .steps import Bends, Points, Steps


Choice = Callable[[Hits], Numbers]
"""Which of some hits count."""


@dataclass(frozen=True)
class Chains:
    """The inner points of the chains of steps: of each its step, these in order, and in a step's order."""

    step: Numbers
    at: Points

    def __len__(self) -> int:
        return len(self.step)


def every(hits: Hits) -> Numbers:
    """All of them."""
    return np.ones(len(hits.step), bool)


def chains(steps: Steps, bent: Bends, hot: Hot | None, chosen: Choice = every) -> Chains:
    """The chains of steps: where hot is None through their bends alone."""
    own = Hits(bent.step, bent.at, np.full(len(bent.step), HALF))
    if hot is not None:
        met = found(steps, hot)
        own = with_bends(met.part(chosen(met)), bent)
    hits = inner(steps, own)
    wide = bool((hits.half != HALF).any())
    order = np.lexsort((entering(steps, hits), hits.step)) if wide else by_centres(steps, hits)
    step, x, y = hits.step[order], hits.at.x[order], hits.at.y[order]
    first = firsts(step, x, y)
    return Chains(step[first], Points(x[first], y[first]))


def found(steps: Steps, hot: Hot) -> Hits:
    """Which steps meet which hot pixels."""
    which, points = [np.zeros(0, np.int64)], [np.zeros(0, np.int64)]
    for step, point in candidates(steps, hot.at):
        met = meets(steps, step, hot, point)
        which.append(step[met])
        points.append(point[met])
    step, point = np.concatenate(which), np.concatenate(points)
    return Hits(step, Points(hot.at.x[point], hot.at.y[point]), hot.half[point])


def with_bends(hits: Hits, bent: Bends) -> Hits:
    """The same and the bends of the steps themselves, whose pixels these meet; with wide pixels bends are hit as all
    others are."""
    if (hits.half != HALF).any():
        return hits
    return Hits(np.concatenate([hits.step, bent.step]), Points(np.concatenate([hits.at.x, bent.at.x]),
                np.concatenate([hits.at.y, bent.at.y])), np.full(len(hits.step) + len(bent.step), HALF))


def inner(steps: Steps, hits: Hits) -> Hits:
    """The hits that are no end of their step."""
    x, y, step = hits.at.x, hits.at.y, hits.step
    ends = (x == whole(steps.ax)[step]) & (y == whole(steps.ay)[step])
    ends |= (x == whole(steps.bx)[step]) & (y == whole(steps.by)[step])
    return hits.part(~ends)


def by_centres(steps: Steps, hits: Hits) -> Numbers:
    """The order of hits by their steps, and along each: a straight step meets pixels of one size monotonely in both
    axes."""
    x = hits.at.x * np.sign(steps.bx - steps.ax)[hits.step]
    y = hits.at.y * np.sign(steps.by - steps.ay)[hits.step]
    order: Numbers = np.lexsort((y, x, hits.step))
    return order


def entering(steps: Steps, hits: Hits) -> Numbers:
    """Where along its step each pixel begins, 0 to 1: pixels of two sizes are not met by their centres' order."""
    met: Numbers = np.zeros(len(hits.step), np.longdouble)
    for begin, end, centre in ((steps.ax, steps.bx, hits.at.x), (steps.ay, steps.by, hits.at.y)):
        run = (end - begin)[hits.step]
        way = centre * UNIT - begin[hits.step] - np.sign(run) * hits.half
        share = way.astype(np.longdouble) / np.where(run == 0, 1, run)
        met = np.where(run == 0, met, np.maximum(met, share))
    return met
