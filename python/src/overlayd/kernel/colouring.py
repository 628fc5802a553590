"""Colours for the features of a map such that two that overlap differ: what has one colour is, even-odd, its union."""

import numpy as np

from ..geometry.flat_arrays import Numbers

FREE = -1
NONE = -2


class TooManyColours(Exception):
    """Features that need more colours than an expression may have layers: one of them."""

    def __init__(self, feature: int, most: int) -> None:
        super().__init__(f"feature {feature} overlaps so many that {most} colours do not do")
        self.feature, self.most = feature, most


def colours(count: int, pairs: Numbers, most: int) -> Numbers:
    """A colour from 0 for each feature, the ends of each pair differing."""
    found = some_colours(count, pairs, most)
    if (found == FREE).any():
        raise TooManyColours(int(np.argmin(found)), most)
    return found


def some_colours(count: int, pairs: Numbers, most: int) -> Numbers:
    """A colour from 0 for each feature, the ends of each pair differing: the least that is free where it is its turn;
    FREE where so many are all taken by then.

    In rounds: those take their colours that come before all neighbours without one, by how many neighbours they have,
    the most first, then by a mixed number."""
    found: Numbers = np.full(count, FREE)
    taken: Numbers = np.zeros(count, np.int64)  # a bit for each colour that a neighbour has
    rank = ranks(count, pairs)
    i, j = pairs[:, 0], pairs[:, 1]
    while len(left := np.flatnonzero(found == FREE)):
        waits: Numbers = np.zeros(count, bool)
        waits[np.where(rank[i] > rank[j], i, j)] = True
        now = left[~waits[left]]
        found[now] = least_free(taken[now])
        found[now[found[now] >= most]] = NONE
        for own, other in ((i, j), (j, i)):
            done = found[own] >= 0
            np.bitwise_or.at(taken, other[done], np.int64(1) << found[own[done]])
        both = (found[i] == FREE) & (found[j] == FREE)
        i, j = i[both], j[both]
    found[found == NONE] = FREE
    return found


def ranks(count: int, pairs: Numbers) -> Numbers:
    """Of each feature its place in the order of turns."""
    neighbours = np.bincount(pairs.ravel(), minlength=count)
    mixed = (np.arange(count) * 0x9E3779B1) & 0xFFFFFFFF
    order = np.lexsort((mixed, -neighbours))
    found: Numbers = np.empty(count, np.int64)
    found[order] = np.arange(count)
    return found


def least_free(taken: Numbers) -> Numbers:
    """The least bit that is not set of each."""
    bits = ~taken & (taken + 1)
    found: Numbers = np.log2(bits.astype(float)).astype(np.int64)
    return found
