"""Jobs of one block, each an expression over some features by layers within the box of one feature or of several."""

from collections.abc import Callable, Iterator
from dataclasses import dataclass

import numpy as np

from ..geometry.flat_arrays import Numbers, offsets, spans
from .blocks import PAIRS, Asked, Kind, Wants, block
from .features import Features
from .spelling import name_of

FARTHEST = 2**41
CORE_WORDS = 8  # of four bytes
Spell = Callable[[int], str]  # the expression of so many layers


@dataclass(frozen=True)
class Jobs:
    """Of each job its box, as least x, least y, greatest x, greatest y, and how many members it has; of each member its
    feature and its layer, job by job."""

    boxes: Numbers
    counts: Numbers
    features: Numbers
    layers: Numbers

    def part(self, begin: int, end: int) -> "Jobs":
        """Those from one up to another."""
        at = offsets(self.counts)
        own = slice(int(at[begin]), int(at[end]))
        return Jobs(self.boxes[begin:end], self.counts[begin:end], self.features[own], self.layers[own])

    def words(self) -> Numbers:
        """As a block has them, in numbers of four bytes. A core has one unit more on each side than its box."""
        low, high = np.maximum(self.boxes[:, :2] - 1, -FARTHEST), np.minimum(self.boxes[:, 2:] + 1, FARTHEST)
        cores = np.stack([low[:, 0], high[:, 0], low[:, 1], high[:, 1]], axis=1).astype("<i8")
        at = offsets(CORE_WORDS + 1 + 2 * self.counts)
        found: Numbers = np.zeros(int(at[-1]), "<u4")
        found[at[:-1, None] + np.arange(CORE_WORDS)] = cores.view("<u4").reshape(-1, CORE_WORDS)
        found[at[:-1] + CORE_WORDS] = self.counts
        places = np.repeat(at[:-1] + CORE_WORDS + 1, self.counts) + 2 * spans(np.zeros_like(self.counts), self.counts)
        found[places], found[places + 1] = self.features, self.layers
        return found


def of_members(boxes: Numbers, job: Numbers, features: Numbers, layers: Numbers) -> Jobs:
    """Jobs of members in any order: of each its job, its feature and its layer."""
    order = np.argsort(job, kind="stable")
    return Jobs(boxes, np.bincount(job, minlength=len(boxes)), features[order], layers[order])


def minus(layers: int) -> str:
    """The first layer without the others."""
    return f"{name_of(0)} - ({union_from(1, layers)})" if layers > 1 else name_of(0)


def within(layers: int) -> str:
    """What the first layer has in common with any of the others."""
    return f"{name_of(0)} & ({union_from(1, layers)})"


def union(layers: int) -> str:
    """All layers together."""
    return union_from(0, layers)


def union_from(first: int, layers: int) -> str:
    """The layers from one on together."""
    return " | ".join(name_of(number) for number in range(first, layers))


def blocks(features: Features, jobs: Jobs, spell: Spell, wants: Wants, size: int = PAIRS) -> Iterator[bytes]:
    """The blocks of jobs, so many in each, with an expression over as many layers as its own jobs have."""
    for begin in range(0, len(jobs.counts), size):
        some = jobs.part(begin, min(begin + size, len(jobs.counts)))
        own, place = np.unique(some.features, return_inverse=True)
        layers = int(some.layers.max(initial=0)) + 1
        numbered = Jobs(some.boxes, some.counts, place, some.layers)
        asked = Asked(Kind.CELLS, numbered.words(), len(some.counts), spell(layers).encode(), layers)
        yield block(features.part(own), asked, wants)
