"""Rings of places as rings of whole points, with the chains of their steps put in."""

from dataclasses import dataclass

import numpy as np

from ..geometry.flat_arrays import Numbers, after_of, offsets, owners, spans
from .chains import Chains
from .places import whole
from .steps import Steps

Corner = tuple[int, int]


@dataclass(frozen=True)
class WholeRings:
    """Rings of whole points without closing points, one after the other; a ring that has collapsed has none."""

    x: Numbers
    y: Numbers
    sizes: Numbers


def put_in(x: Numbers, y: Numbers, sizes: Numbers, steps: Steps, chains: Chains) -> WholeRings:
    """The rings in whole points, each corner followed by the chain of the step that begins there."""
    counts = np.bincount(chains.step, minlength=len(steps))
    begins = offsets(counts)
    own = np.maximum(steps.of, 0)
    more = np.where(steps.of >= 0, np.append(counts, 0)[own], 0)
    corner = owners(more + 1)
    place = spans(np.zeros(len(x), np.int64), more + 1) - 1
    from_start, from_end = begins[own[corner]] + place, begins[own[corner]] + more[corner] - 1 - place
    at = np.where(steps.turned[corner], from_end, from_start)
    found_x, found_y = whole(x)[corner], whole(y)[corner]
    taken = np.flatnonzero(place >= 0)
    found_x[taken], found_y[taken] = chains.at.x[at[taken]], chains.at.y[at[taken]]
    return joined(WholeRings(found_x, found_y, np.bincount(owners(sizes)[corner], minlength=len(sizes))))


def joined(rings: WholeRings) -> WholeRings:
    """The same with equal neighbours once; of a ring of equal corners nothing is left."""
    after = after_of(rings.sizes)
    return kept_of(rings, (rings.x != rings.x[after]) | (rings.y != rings.y[after]))


def kept_of(rings: WholeRings, kept: Numbers) -> WholeRings:
    """Some corners of rings."""
    sizes = np.bincount(owners(rings.sizes)[kept], minlength=len(rings.sizes))
    return WholeRings(rings.x[kept], rings.y[kept], sizes)


def without_spikes(rings: WholeRings) -> WholeRings:
    """The same without spikes, which are ways from a corner to another and straight back, until there are none.
    Even-odd insides stay as they are."""
    ring, after = owners(rings.sizes), after_of(rings.sizes)
    second = after[after]
    spiked = np.unique(ring[(rings.x == rings.x[second]) & (rings.y == rings.y[second])])
    begins, kept, x, y = offsets(rings.sizes), np.ones(len(rings.x), bool), rings.x.copy(), rings.y.copy()
    for one in spiked.tolist():  # few of a map's rings, and in each the spikes one after the other
        begin, end = int(begins[one]), int(begins[one + 1])
        corners = unspiked(list(zip(x[begin:end].tolist(), y[begin:end].tolist())))
        kept[begin + len(corners) : end] = False
        x[begin : begin + len(corners)] = [corner[0] for corner in corners]
        y[begin : begin + len(corners)] = [corner[1] for corner in corners]
    return kept_of(WholeRings(x, y, rings.sizes), kept)


def live(rings: WholeRings) -> WholeRings:
    """The same, but of rings of less than three corners nothing."""
    return kept_of(rings, np.repeat(rings.sizes > 2, rings.sizes))


def unspiked(corners: list[Corner]) -> list[Corner]:
    """A ring without its spikes: what is left does not depend on the order in which they go."""
    way: list[Corner] = []
    for corner in corners:
        if len(way) > 1 and way[-2] == corner:
            way.pop()
        elif not way or way[-1] != corner:
            way.append(corner)
    first, last = 0, len(way)
    while last - first > 2:
        if way[first] in (way[last - 1], way[last - 2]):
            last -= 1
        elif way[first + 1] == way[last - 1]:
            first += 1
        else:
            break
    return way[first:last]
