"""Where features break a rule: of what has changed and of what is near it, each violation with its area and outline."""

from collections.abc import Mapping
from typing import NamedTuple

import numpy as np

from ..geometry.flat_arrays import Numbers, offsets, owners
from ..grid_pass.places import FARTHEST
from ..kernel.asking import Areas
from ..kernel.blocks import Wants
from ..kernel.box_pairs import pairs
from ..kernel.columns import Column
from ..kernel.measuring import perimeters
from ..kernel.polygons import Polygons, polygons_of
from ..kernel.rows import NONE, Relation, Rows
from ..kernel.shapes import shapes
from .answers import CORE, Program
from .model import Must, Rule
from .sides import EMPTY, NO_BOXES, Side, pairs_to_ask, pairs_to_check

GROWTH = 8  # the first window of a gap is by so much narrower than the last
Sides = Mapping[str, Side]
Who = tuple[int | None, int | None, str | None, str | None]
"""Two features by their keys and names."""
NOBODY: Who = (None, None, None, None)


class Violation(NamedTuple):
    """What breaks a rule: one feature or two by their keys and names, or none for a gap; then area, bound and width in
    units of the layers, None where the program has no answer; the box; and the outline as Well-Known Binary."""

    a: int | None
    b: int | None
    a_id: str | None
    b_id: str | None
    area: float | None
    bound: float | None
    width: float | None
    minx: float
    miny: float
    maxx: float
    maxy: float
    outline: bytes | None

    def __str__(self) -> str:
        both = (self.a, self.a_id), (self.b, self.b_id)
        keys = [fid if name is None else name for fid, name in both if fid is not None]
        area = "no answer" if self.area is None else f"area {self.area:g}, width {self.width:g}"
        return f"{' and '.join(map(str, keys)) or 'a gap'}, {area}, at {self.minx:.10g} {self.miny:.10g}"

    def box(self) -> tuple[float, float, float, float]:
        return self.minx, self.miny, self.maxx, self.maxy

    def is_wider(self, least: float) -> bool:
        """Whether it is wider than so much, or may be."""
        return self.width is None or self.width > least


class Measured(NamedTuple):
    """Shapes with areas, how far these may be off, widths and boxes."""

    areas: Numbers
    bounds: Numbers
    widths: Numbers
    boxes: Numbers
    outlines: list[bytes]

    def violation(self, place: int, who: Who = NOBODY) -> Violation:
        """One of them, of features by their keys and names."""
        sizes = float(self.areas[place]), float(self.bounds[place]), float(self.widths[place])
        return Violation._make([*who, *sizes, *self.boxes[place].tolist(), self.outlines[place]])


def measured(outlines: Column, areas: Numbers, bounds: Numbers) -> Measured:
    """Shapes with their widths and boxes."""
    lengths = perimeters(outlines)
    widths = np.divide(areas, lengths, out=np.zeros(len(areas)), where=lengths > 0)
    return Measured(areas, bounds, widths, boxes_of(outlines), outlines.to_list())


def boxes_of(column: Column) -> Numbers:
    """The boxes of shapes, in their own coordinates; zeros of one without a corner."""
    found = shapes(column)
    counts = np.bincount(owners(found.counts), found.sizes, len(found.counts)).astype(np.int64)
    made: Numbers = np.zeros((len(column), 4))
    full = counts > 0
    begins = offsets(counts)[:-1][full]
    if len(begins):
        for axis, own in enumerate((found.x, found.y)):
            made[full, axis] = np.minimum.reduceat(own, begins)
            made[full, axis + 2] = np.maximum.reduceat(own, begins)
    return made


def violations(rule: Rule, sides: Sides, program: Program, is_whole: bool = False) -> list[Violation]:
    """What breaks a rule of what has changed. is_whole: the sides have all features, and all have changed."""
    if rule.must is Must.NOT_HAVE_GAPS:
        side = sides.get(rule.a, EMPTY)
        return all_gaps(rule, side, program) if is_whole else gaps(rule, side, program)
    return uncovered(rule, sides, program) if rule.must is Must.BE_COVERED else shared(rule, sides, program)


def needed(rule: Rule, name: str, sides: Sides) -> Numbers:
    """The boxes near which features of a layer are needed to know what breaks a rule."""
    found = [NO_BOXES]
    if rule.must is Must.NOT_HAVE_GAPS and name == rule.a and name in sides:
        found.append(widened(sides[name].touched(), rule.reach))
    elif rule.must is Must.BE_COVERED:
        found += [sides[rule.b or ""].touched()] if name == rule.a and rule.b in sides else []
        found += [covered_boxes(rule, sides)] if name == rule.b else []
    elif rule.must is not Must.NOT_HAVE_GAPS:
        of = (rule.a, rule.b or rule.a), (rule.b or rule.a, rule.a)
        others = [sides[other] for own, other in of if name == own and other in sides]
        found += [side.boxes()[side.changed()] for side in others]
    return np.concatenate(found)


def covered_boxes(rule: Rule, sides: Sides) -> Numbers:
    """The boxes of features that are to be looked at whether they are covered."""
    side = sides.get(rule.a, EMPTY)
    return side.boxes()[to_cover(rule, sides)]


def to_cover(rule: Rule, sides: Sides) -> Numbers:
    """Which features are to be looked at whether they are covered: those that have changed, or near which what covers
    has."""
    a, b = sides.get(rule.a, EMPTY), sides.get(rule.b or "", EMPTY)
    near = pairs(a.boxes(), b.touched())[:, 0]
    return np.union1d(a.changed(), near)


def shared(rule: Rule, sides: Sides, program: Program) -> list[Violation]:
    """What features of one layer, or of two, have in common."""
    a = sides.get(rule.a, EMPTY)
    b = a if rule.b is None else sides.get(rule.b, EMPTY)
    of_a, of_b = a.taken.features, b.taken.features
    rows = program.overlay(of_a, of_b, pairs_to_check(a) if rule.b is None else pairs_to_ask(a, b))
    asked = rows.pairs[(rows.relations() >= Relation.OVERLAPS) | (rows.rows["fault"] > 0)]
    found = program.overlay(of_a, of_b, asked, Wants.OUTLINES)
    assert found.outlines is not None
    own = measured(found.outlines, found.areas().doubles(), found.areas().bounds())
    made, faults = [], {*found.faults().tolist()}
    for place, (i, j) in enumerate(found.pairs.tolist()):
        who = a.found.fids[i], b.found.fids[j], a.found.idents[i], b.found.idents[j]
        made.append(unanswered(a.boxes()[i], program, who) if place in faults else own.violation(place, who))
    return made


def unanswered(box: Numbers, program: Program, who: Who = NOBODY) -> Violation:
    """What the program has no answer to, within a box of the grid."""
    return Violation._make([*who, None, None, None, *(box / float(program.factor)).tolist(), None])


def uncovered(rule: Rule, sides: Sides, program: Program) -> list[Violation]:
    """What features have that no feature of the other layer covers."""
    a, b = sides.get(rule.a, EMPTY), sides.get(rule.b or "", EMPTY)
    own = to_cover(rule, sides)
    cores = a.boxes()[own]
    members = {"a": np.stack([np.arange(len(own))] * 2, axis=1)}
    maps = {"a": a.taken.features.part(own), "b": b.taken.features}
    made = []
    for places, rows in program.within(maps, "a - b", cores, members, Wants.OUTLINES):
        who: list[Who] = [(a.found.fids[place], None, a.found.idents[place], None) for place in own[places].tolist()]
        if rows is None:
            made += [unanswered(cores[place], program, one) for place, one in zip(places.tolist(), who)]
            continue
        areas = Areas(rows.rows["both"], rows.rows["bound"], program.factor)
        found = measured(rows.outlines(program.factor), areas.doubles(), areas.bounds())
        made += [unanswered(cores[places[at]], program, one) if rows.rows["fault"][at] else found.violation(at, one)
                 for at, one in enumerate(who) if rows.rows["fault"][at] or rows.rows["pieces"][at]]
    return made


def widened(boxes: Numbers, by: int) -> Numbers:
    """Boxes that are wider by so much on each side, where there is room."""
    found: Numbers = np.clip(boxes + np.array([-by, -by, by, by]), -FARTHEST, FARTHEST)
    return found


def gaps(rule: Rule, side: Side, program: Program) -> list[Violation]:
    """The gaps that meet what has changed, by windows round it: where one is not closed in a window, it may be in a
    wider one."""
    touched = np.unique(side.touched(), axis=0)
    found: dict[tuple[float, ...], Violation] = {}
    for margin in dict.fromkeys((max(1, rule.reach // GROWTH), rule.reach + 1)):
        cores, is_open = widened(touched, margin), np.zeros(len(touched), bool)
        maps = {"a": side.taken.features}
        for places, rows in program.within(maps, f"{CORE} - a", cores, wants=Wants.OUTLINES):
            if rows is None:
                is_open[places] = True
                missed = [unanswered(one, program) for one in touched[places] if margin > rule.reach]
                found.update((one.box(), one) for one in missed)
                continue
            own, row = polygons_by_row(rows, program)
            box, near = cores[places][row], touched[places][row] / float(program.factor)
            edges = boxes_of(own.outlines)  # as its table has them, so that the same ones go and come
            is_near = ((edges[:, :2] <= near[:, 2:]) & (edges[:, 2:] >= near[:, :2])).all(axis=1)
            is_closed = ((own.boxes[:, :2] > box[:, :2]) & (own.boxes[:, 2:] < box[:, 2:])).all(axis=1)
            is_open[places[row[is_near & ~is_closed]]] = True
            closed = as_gaps(rule, own.part(np.flatnonzero(is_near & is_closed)), program)
            found.update((one.box(), one) for one in closed)
        touched = touched[is_open]
    return [*found.values()]


def all_gaps(rule: Rule, side: Side, program: Program) -> list[Violation]:
    """All gaps of a layer, by one window round it."""
    boxes = side.boxes()[side.taken.is_live()]
    if not len(boxes):
        return []
    low, high = boxes[:, :2].min(axis=0), boxes[:, 2:].max(axis=0)
    core = widened(np.concatenate([low, high])[None], 1)
    made = []
    for _, rows in program.within({"a": side.taken.features}, f"{CORE} - a", core, wants=Wants.OUTLINES):
        if rows is None:
            made.append(unanswered(core[0], program))
            continue
        own, _ = polygons_by_row(rows, program)
        is_closed = ((own.boxes[:, :2] > core[:, :2]) & (own.boxes[:, 2:] < core[:, 2:])).all(axis=1)
        made += as_gaps(rule, own.part(np.flatnonzero(is_closed)), program)
    return made


def polygons_by_row(rows: Rows, program: Program) -> tuple[Polygons, Numbers]:
    """The polygons of rows, and of each the row."""
    row: Numbers = rows.rings["row"][rows.rings["outer"] == NONE].astype(np.int64)
    return polygons_of(rows, program.factor), row


def as_gaps(rule: Rule, own: Polygons, program: Program) -> list[Violation]:
    """Those of some polygons that are no wider and no higher than a gap may be."""
    small = own.part(np.flatnonzero((own.boxes[:, 2:] - own.boxes[:, :2] <= rule.reach).all(axis=1)))
    off = perimeters(small.outlines) * np.spacing(np.abs(small.boxes).max(axis=1, initial=1)) / float(program.factor)
    found = measured(small.outlines, small.areas, 4 * off)
    return [found.violation(place) for place in range(len(found.areas))]
