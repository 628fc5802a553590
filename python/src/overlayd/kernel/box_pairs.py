"""Which boxes of two lists have a common part, by grids of cells as wide as the larger of two boxes.

Each box has a level, the least power of two that is no less than its width and its height, so it meets at most four
cells of a grid of that width. Two boxes are looked for on the grid of the greater level of the two; a pair that shares
several cells is found in the one that has the least corner of the common part."""

from collections.abc import Iterator

import numpy as np

from ..geometry.flat_arrays import Numbers, mixed, spans

PAIRS_AT_ONCE = 1 << 20
FEW = 1 << 16  # pairs that are sooner looked at all together than by grids


def pairs(a: Numbers, b: Numbers, touching: bool = False) -> Numbers:
    """The rows (i, j) for which boxes a[i] and b[j] have a common part with an area, or where touching a common point,
    by i, then j."""
    if len(a) * len(b) <= FEW:
        low, high = np.maximum(a[:, None, :2], b[None, :, :2]), np.minimum(a[:, None, 2:], b[None, :, 2:])
        return np.argwhere((low <= high if touching else low < high).all(axis=2))
    of_a, of_b = levels_of(a), levels_of(b)
    found = [np.zeros(0, np.int64)]
    for level in levels_in(of_a, of_b):
        upto, under = np.flatnonzero((of_a >= 0) & (of_a <= level)), np.flatnonzero((of_b >= 0) & (of_b < level))
        # Each pair on the grid of its greater level: b's own with all of a up to it, and a's own with less of b.
        for first, second in ((upto, np.flatnonzero(of_b == level)), (np.flatnonzero(of_a == level), under)):
            found += (i * len(b) + j for i, j in met_on(level, first, a, second, b, touching))
    return rows(np.concatenate(found), len(b))


def pairs_within(boxes: Numbers, touching: bool = False) -> Numbers:
    """The pairs of boxes of one list, the first before the second."""
    if len(boxes)**2 <= FEW:
        both = pairs(boxes, boxes, touching)
        return both[both[:, 0] < both[:, 1]]
    levels = levels_of(boxes)
    found = [np.zeros(0, np.int64)]
    for level in levels_in(levels):
        upto = np.flatnonzero((levels >= 0) & (levels <= level))
        for i, j in met_on(level, upto, boxes, np.flatnonzero(levels == level), boxes, touching):
            once = (levels[i] < level) | (i < j)
            found.append((np.minimum(i, j) * len(boxes) + np.maximum(i, j))[once])
    return rows(np.concatenate(found), len(boxes))


def levels_in(*levels: Numbers) -> list[int]:
    """The levels that some boxes have, the least first."""
    return sorted({level for own in levels for level in np.unique(own).tolist()} - {-1})


def rows(keys: Numbers, count: int) -> Numbers:
    """The rows that were put into one number each, in order."""
    keys = np.sort(keys)
    return np.stack([keys // max(1, count), keys % max(1, count)], axis=1)


def levels_of(boxes: Numbers) -> Numbers:
    """The least powers of two that are no less than the width and the height; -1 where there is no point."""
    wide = (boxes[:, 2:] - boxes[:, :2]).max(axis=1)
    levels = np.ceil(np.log2(np.maximum(wide, 1).astype(float))).astype(np.int64)
    levels += (np.int64(1) << levels) < wide  # where the logarithm of a wide box is rounded
    levels -= (levels > 0) & ((np.int64(1) << np.maximum(levels - 1, 0)) >= wide)
    found: Numbers = np.where((boxes[:, 2:] < boxes[:, :2]).any(axis=1), -1, levels)
    return found


def in_cells(boxes: Numbers, places: Numbers, level: int) -> tuple[Numbers, Numbers]:
    """The cells of a grid that boxes meet, as one number each, and whose they are."""
    low, high = boxes[places, :2] >> level, boxes[places, 2:] >> level
    counts = high - low + 1
    many = counts[:, 0] * counts[:, 1]
    within = spans(np.zeros_like(many), many)
    who = np.repeat(np.arange(len(places)), many)
    rows = counts[who, 1]
    return mixed(low[who, 0] + within // rows, low[who, 1] + within % rows), places[who]


def met_on(level: int, first: Numbers, a: Numbers, second: Numbers, b: Numbers,
           touching: bool) -> Iterator[tuple[Numbers, Numbers]]:
    """The pairs of some boxes of a and of b that have a common part, looked for on one grid."""
    cells_a, who_a = in_cells(a, first, level)
    cells_b, who_b = in_cells(b, second, level)
    order = np.argsort(cells_b, kind="stable")
    cells_b, who_b = cells_b[order], who_b[order]
    low, high = np.searchsorted(cells_b, cells_a, "left"), np.searchsorted(cells_b, cells_a, "right")
    a_columns, b_columns = (np.ascontiguousarray(own.T) for own in (a, b))
    ends = np.cumsum(high - low)
    at = 0
    while at < len(cells_a):
        stop = max(at + 1, int(np.searchsorted(ends, (ends[at - 1] if at else 0) + PAIRS_AT_ONCE)))
        many = (high - low)[at:stop]
        i, j = np.repeat(who_a[at:stop], many), who_b[spans(low[at:stop], many)]
        cell = np.repeat(cells_a[at:stop], many)
        least: list[Numbers] = []
        for axis in (0, 1):
            begin = np.maximum(a_columns[axis][i], b_columns[axis][j])
            end = np.minimum(a_columns[axis + 2][i], b_columns[axis + 2][j])
            real = np.flatnonzero(begin <= end if touching else begin < end)
            i, j, cell = i[real], j[real], cell[real]
            least = [own[real] for own in (*least, begin >> level)]
        here = mixed(*least) == cell
        yield i[here], j[here]
        at = stop
