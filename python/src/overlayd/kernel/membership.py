"""In which layers of an expression the features of a map are, so that all layers together are the union of these.

A layer is even-odd over its features, so it is their union where no two of them overlap. Features that overlap get
different layers as long as these do. Where they do not, features that lie within others are left out, and those that
still get none are each in several layers, by mixed numbers. A place of such a feature is in some layer but where all
layers are even there: by chance one place in 2 to the number of layers. So the program is asked what each of them has
that no layer has, which must be nothing; else it gets another number."""

from dataclasses import dataclass

import numpy as np

from ..geometry.flat_arrays import Numbers, spans
from .asking import Ask
from .blocks import PAIRS, Wants
from .cell_jobs import blocks, minus, of_members
from .colouring import FREE, TooManyColours, some_colours
from .features import Features
from .overlaying import Overlay
from .rows import Relation
from .spelling import LAYERS

ROUNDS = 16  # of mixed numbers
SPARSE = 24  # layers from which a quarter of them does, in the place of half of them
MIXERS = (0xBF58476D1CE4E5B9, 0x94D049BB133111EB)


@dataclass(frozen=True)
class Members:
    """Of each membership the feature, by which they are in order, and the layer; and which features are in several
    layers."""

    feature: Numbers
    layer: Numbers
    several: Numbers

    def count(self) -> int:
        """The number after the last layer's."""
        return int(self.layer.max(initial=-1)) + 1

    def after(self, begun: int) -> "Members":
        """The same in layers after so many."""
        return Members(self.feature, self.layer + begun, self.several)

    def single(self, count: int) -> Numbers:
        """Of each of so many features its one layer; -1 where it is in none or in several."""
        found: Numbers = np.full(count, FREE)
        found[self.feature] = self.layer
        found[self.several] = FREE
        return found

    def spread(self, features: Numbers) -> tuple[Numbers, Numbers]:
        """Of each layer of each of these features the place of the feature among them, and the layer."""
        begin, end = np.searchsorted(self.feature, features), np.searchsorted(self.feature, features, "right")
        return np.repeat(np.arange(len(features)), end - begin), self.layer[spans(begin, end - begin)]


def overlapping(rows: Overlay) -> Overlay:
    """The pairs of one map that overlap, or may, as the program has no answer."""
    return rows.part(np.flatnonzero((rows.relations() >= Relation.OVERLAPS) | (rows.rows["fault"] > 0)))


def plain(layer: Numbers) -> Members:
    """Each feature in its own layer."""
    return Members(np.arange(len(layer)), layer, np.zeros(0, np.int64))


def members_of(features: Features, apart: Overlay, ask: Ask, most: int = LAYERS - 1) -> Members:
    """The members of a map in at most so many layers; apart are its pairs that overlap."""
    layer = some_colours(len(features), apart.pairs, most)
    return plain(layer) if (layer != FREE).all() else in_several(features, apart, ask, min(most, LAYERS - 1))


def in_several(features: Features, apart: Overlay, ask: Ask, most: int) -> Members:
    """The same where some features are in several layers."""
    is_kept: Numbers = np.ones(len(features), bool)
    is_kept[inner(apart)] = False
    pairs = apart.pairs[is_kept[apart.pairs].all(axis=1)]
    layer = some_colours(len(features), pairs, most)
    own, several = np.flatnonzero(is_kept & (layer != FREE)), np.flatnonzero(layer == FREE)
    turns: Numbers = np.zeros(len(several), np.int64)
    for _ in range(ROUNDS):
        place, other = np.nonzero(numbers_of(several, turns, most)[:, None] >> np.arange(most) & 1)
        feature, layers = np.concatenate([own, several[place]]), np.concatenate([layer[own], other])
        order = np.argsort(feature, kind="stable")
        found = Members(feature[order], layers[order], several)
        missed = missing(features, pairs, found, ask)
        if not missed.any():
            return found
        turns += missed
    raise TooManyColours(int(several[np.argmax(missed)]), most)


def inner(apart: Overlay) -> Numbers:
    """The features that lie within another one; of equal ones all but the first."""
    relations = apart.relations()
    first, second = apart.pairs[:, 0], apart.pairs[:, 1]
    is_second = (relations == Relation.CONTAINS) | (relations == Relation.EQUALS)
    return np.concatenate([first[relations == Relation.WITHIN], second[is_second]])


def numbers_of(features: Numbers, turns: Numbers, most: int) -> Numbers:
    """A mixed number for each feature, a bit for each layer, not 0."""
    own = (features * ROUNDS + turns + 1).astype(np.uint64)
    for by in MIXERS:
        own = own * np.uint64(by)
        own ^= own >> np.uint64(31)
    low, high = own & np.uint64((1 << most) - 1), own >> np.uint64(64 - most)
    bits = (low & high if most >= SPARSE else low).astype(np.int64)
    return np.where(bits == 0, 1, bits)


def missing(features: Features, pairs: Numbers, members: Members, ask: Ask) -> Numbers:
    """Which of the features in several layers have something that no layer has, or may have. Within a feature only
    those that overlap it count."""
    own = members.several
    near = np.concatenate([pairs, pairs[:, ::-1]])
    near = near[np.isin(near[:, 0], own)]
    whose = np.concatenate([np.arange(len(own)), np.searchsorted(own, near[:, 0])])
    others = np.concatenate([own, near[:, 1]])
    place, layer = members.spread(others)
    jobs = of_members(features.boxes()[own], np.concatenate([np.arange(len(own)), whose[place]]),
                      np.concatenate([own, others[place]]), np.concatenate([np.zeros_like(own), 1 + layer]))
    found = [np.zeros(0, bool)]
    for rows in ask.rows(blocks(features, jobs, minus, Wants.NOTHING), -(-len(own) // PAIRS)):
        found.append((rows.rows["pieces"] > 0) | (rows.faults() > 0))
    return np.concatenate(found)
