"""Features in whole numbers: rings of points in flat arrays, as blocks and pairs of boxes take them."""

from collections.abc import Sequence
from dataclasses import dataclass

import numpy as np

from ..geometry.flat_arrays import Numbers, offsets, spans


@dataclass(frozen=True)
class Features:
    """Feature k has the rings feature_at[k] up to feature_at[k + 1], ring r the points ring_at[r] up to ring_at[r + 1].
    A ring does not repeat its first point."""

    x: Numbers
    y: Numbers
    ring_at: Numbers
    feature_at: Numbers

    def __len__(self) -> int:
        return len(self.feature_at) - 1

    def points(self) -> Numbers:
        """How many points each feature has."""
        found: Numbers = np.diff(self.ring_at[self.feature_at])
        return found

    def part(self, features: Numbers) -> "Features":
        """Some of the features."""
        rings = np.diff(self.feature_at)[features]
        own = spans(self.feature_at[:-1][features], rings)
        points = np.diff(self.ring_at)[own]
        at = spans(self.ring_at[:-1][own], points)
        return Features(self.x[at], self.y[at], offsets(points), offsets(rings))

    def boxes(self) -> Numbers:
        """Least x, least y, greatest x, greatest y of each; 1, 1, 0, 0 of one without a point."""
        found: Numbers = np.zeros((len(self), 4), np.int64)
        found[:, :2] = 1
        full = self.points() > 0
        begins = self.ring_at[self.feature_at[:-1][full]]
        if len(begins):
            for axis, own in ((0, self.x), (1, self.y)):
                found[full, axis] = np.minimum.reduceat(own, begins)
                found[full, axis + 2] = np.maximum.reduceat(own, begins)
        return found


def of_rings(x: Numbers, y: Numbers, sizes: Numbers, counts: Numbers) -> Features:
    """Features of rings: of each ring its size, of each feature how many rings it has; rings without points go."""
    full = sizes > 0
    number = np.bincount(np.repeat(np.arange(len(counts)), counts)[full], minlength=len(counts))
    return Features(x.astype(np.int64), y.astype(np.int64), offsets(sizes[full]), offsets(number))


def joined(parts: Sequence[Features]) -> Features:
    """The features of several lists in one."""
    rings, numbers = [np.diff(part.ring_at) for part in parts], [np.diff(part.feature_at) for part in parts]
    x, y = (np.concatenate([getattr(part, axis) for part in parts]) for axis in ("x", "y"))
    return Features(x, y, offsets(np.concatenate(rings)), offsets(np.concatenate(numbers)))
