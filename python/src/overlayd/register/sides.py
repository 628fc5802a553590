"""Features of a layer that a piece of work looks at, on the grid, and the rows that they make."""

from collections.abc import Iterator, Mapping
from dataclasses import dataclass, field
from fractions import Fraction
from typing import Any

import numpy as np

from ..geometry.flat_arrays import Numbers
from ..kernel.box_pairs import pairs, pairs_within
from ..kernel.features import Features, joined
from .answers import Pair, Program, cells_of, counted
from .engines import NOTHING, Found
from .model import Kept, Kind
from .taking import Problem, Taken, taken

MOST_CELLS = 250_000  # of one feature: a wrong corner may not stop a register
NO_BOXES: Numbers = np.zeros((0, 4), np.int64)
Row = tuple[Any, ...]


def no_boxes() -> Numbers:
    """No boxes."""
    return NO_BOXES


@dataclass(frozen=True)
class Side:
    """Features, their shapes on the grid, which of them have changed, and where they were seen before."""

    found: Found
    taken: Taken
    is_changed: Numbers
    were: Numbers = field(default_factory=no_boxes)

    def boxes(self) -> Numbers:
        """The boxes of all; of one without a shape none that meets any."""
        return self.taken.features.boxes()

    def changed(self) -> Numbers:
        """The places of those that have changed and have a shape."""
        return np.flatnonzero(self.is_changed & self.taken.is_live())

    def touched(self) -> Numbers:
        """Where something has changed: the boxes that were, and those that are."""
        return np.concatenate([self.were, self.boxes()[self.changed()]])

    def only(self, keeps: Numbers) -> "Side":
        """The same, in which the others have no shape."""
        own = self.taken.without(np.flatnonzero(~keeps), "")
        return Side(self.found, own, self.is_changed, self.were)


def side_of(found: Found, factor: Fraction, is_changed: bool = True) -> Side:
    """Features, of which all have changed or none."""
    return Side(found, taken(found.column(), factor), np.full(len(found.fids), is_changed))


EMPTY = side_of(NOTHING, Fraction(1))


def sides_near(found: Mapping[str, Found], factor: Fraction) -> dict[str, Side]:
    """Features of layers that have not changed, taken all at once: of a few it costs as much as of one layer's."""
    fids, shapes, idents = ([one for own in found.values() for one in getattr(own, name)]
                            for name in ("fids", "shapes", "idents"))
    whole, begin, made = taken(Found(fids, shapes, idents).column(), factor), 0, {}
    for name, own in found.items():
        end = begin + len(own.fids)
        made[name] = Side(own, whole.part(begin, end), np.zeros(len(own.fids), bool))
        begin = end
    return made


def together(first: Side, second: Side) -> Side:
    """The features of two in one."""
    count = len(first.found.fids)
    made = Taken(joined([first.taken.features, second.taken.features]),
                 np.concatenate([first.taken.is_outer, second.taken.is_outer]),
                 [*first.taken.told, *((place + count, what) for place, what in second.taken.told)])
    return Side(first.found.and_then(second.found), made, np.concatenate([first.is_changed, second.is_changed]),
                np.concatenate([first.were, second.were]))


def pairs_to_ask(a: Side, b: Side) -> Numbers:
    """The pairs of features of two layers whose boxes have a common point, one at least of which has changed."""
    own, others = a.changed(), np.flatnonzero(~a.is_changed)
    changed = b.changed()
    first = pairs(a.boxes()[own], b.boxes(), touching=True)
    second = pairs(a.boxes()[others], b.boxes()[changed], touching=True)
    found: Numbers = np.concatenate([np.stack([own[first[:, 0]], first[:, 1]], axis=1),
                                     np.stack([others[second[:, 0]], changed[second[:, 1]]], axis=1)])
    return found


def pairs_to_check(a: Side) -> Numbers:
    """The pairs of features of one layer whose boxes have a common part, one at least of which has changed; the one
    with the lesser key first."""
    own, fids = a.changed(), np.array(a.found.fids, np.int64)
    if len(own) == len(fids):
        found = pairs_within(a.boxes())
    else:
        near = pairs(a.boxes()[own], a.boxes())
        found = np.stack([own[near[:, 0]], near[:, 1]], axis=1)
        found = found[found[:, 0] != found[:, 1]]
    found = np.where((fids[found[:, 0]] > fids[found[:, 1]])[:, None], found[:, ::-1], found)
    unique: Numbers = np.unique(found, axis=0).reshape(-1, 2)
    return unique


def pair_rows(kept: Kept, sides: Mapping[str, Side], program: Program) -> Iterator[list[Row]]:
    """The rows of pairs that have changed, as tables have them."""
    assert kept.a is not None
    a = sides.get(kept.a, EMPTY)
    is_check = kept.kind is Kind.CHECK
    b = a if is_check or kept.b is None else sides.get(kept.b, EMPTY)
    asked = pairs_to_check(a) if is_check else pairs_to_ask(a, b)
    for some in program.pairs(a.taken.features, b.taken.features, asked):
        yield [row_of(one, a.found, b.found) for one in some if not is_check or one[2] != "touches"]


def row_of(pair: Pair, a: Found, b: Found) -> Row:
    """One row: keys and what users call the two, relation, area and bound."""
    i, j, *rest = pair
    return (a.fids[i], b.fids[j], a.idents[i], b.idents[j], *rest)


def with_few_cells(kept: Kept, sides: Mapping[str, Side]) -> tuple[dict[str, Features], list[tuple[str, int]]]:
    """The maps of an expression without features that are over too many cells, and which these are."""
    maps, large = {}, []
    for name in kept.layers():
        side = sides.get(name, EMPTY)
        live = np.flatnonzero(side.taken.is_live())
        wide = live[counted(side.boxes()[live], kept.cell) > MOST_CELLS]
        own = side.taken.without(wide, Problem.TOO_LARGE.value) if len(wide) else side.taken
        maps[name] = own.features
        large += [(name, side.found.fids[place]) for place in wide.tolist()]
    return maps, large


def cells_touched(kept: Kept, sides: Mapping[str, Side]) -> Numbers:
    """The cells of an expression in which something may have changed."""
    boxes = np.concatenate([NO_BOXES, *(sides[name].touched() for name in kept.layers() if name in sides)])
    boxes = boxes[counted(boxes, kept.cell) <= MOST_CELLS]
    return cells_of(boxes, kept.cell)


def cores_of(cells: Numbers, width: int) -> Numbers:
    """The boxes of cells."""
    found: Numbers = np.concatenate([cells * width, (cells + 1) * width], axis=1)
    return found


def cell_rows(kept: Kept, sides: Mapping[str, Side], cells: Numbers, program: Program) -> Iterator[list[Row]]:
    """The rows of cells, as tables have them."""
    assert kept.expression is not None
    maps, _ = with_few_cells(kept, sides)
    for some in program.cells(maps, kept.expression, cells, kept.cell):
        yield [*some]
