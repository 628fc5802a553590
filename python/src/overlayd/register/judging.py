"""Whether a change of features makes a violation, or enlarges one: what is in violation after it and was not before.

So an old fault is in nobody's way, and a parcel that is split may keep it: of a feature that has changed all counts
that any changed feature of its layer had before.
"""

from collections.abc import Mapping
from typing import NamedTuple

import numpy as np

from ..kernel.asking import Areas
from ..kernel.blocks import Wants
from ..kernel.features import Features, joined
from .answers import Program
from .model import Must, Rule
from .sides import EMPTY, Side, together
from .violating import Violation, gaps, measured, unanswered, violations


class Broken(NamedTuple):
    """A rule that a change breaks: what is in violation now, and what of that is new."""

    rule: Rule
    violation: Violation
    new: Violation


class Sides(NamedTuple):
    """The features of layers that a change has, as they were and as they are, the latter with those near."""

    before: Mapping[str, Side]
    after: Mapping[str, Side]

    def was(self, name: str) -> Side:
        return self.before.get(name, EMPTY)

    def now(self, name: str) -> Side:
        return self.after.get(name, EMPTY)


def broken(rules: list[Rule], sides: Sides, program: Program) -> list[Broken]:
    """What a change breaks, by more than the rules allow."""
    found = []
    for rule in rules:
        wide = [one for one in violations(rule, sides.after, program) if one.is_wider(rule.least)]
        if wide:
            new = new_gaps(rule, wide, sides, program) if rule.must is Must.NOT_HAVE_GAPS else \
                [new_part(rule, one, sides, program) for one in wide]
            found += [Broken(rule, one, part) for one, part in zip(wide, new)
                      if part is not None and part.is_wider(rule.least)]
    return found


def new_part(rule: Rule, found: Violation, sides: Sides, program: Program) -> Violation | None:
    """What of a violation is new."""
    if found.area is None:
        return found
    covers = rule.must is Must.BE_COVERED
    maps, expression = to_be_covered(rule, found, sides) if covers else to_be_apart(rule, found, sides)
    core = maps["p"].boxes()
    ((_, rows),) = program.within(maps, expression, core, wants=Wants.OUTLINES)
    who = found.a, found.b, found.a_id, found.b_id
    if rows is None or rows.rows["fault"][0]:
        return unanswered(core[0], program, who)
    areas = Areas(rows.rows["both"], rows.rows["bound"], program.factor)
    own = measured(rows.outlines(program.factor), areas.doubles(), areas.bounds())
    return own.violation(0, who) if rows.rows["pieces"][0] else None


def to_be_apart(rule: Rule, found: Violation, sides: Sides) -> tuple[dict[str, Features], str]:
    """The maps and the expression of what two features have in common that no changed ones had."""
    p, p_changed = feature(sides.now(rule.a), found.a)
    q, q_changed = feature(sides.now(rule.b or rule.a), found.b)
    x, y = sides.was(rule.a).taken.features, sides.was(rule.b or rule.a).taken.features
    maps = {"p": p, "q": q}
    if not (p_changed and q_changed):
        return maps | {"x": x if p_changed else y}, "p & q - x"
    if rule.b is not None:
        return maps | {"x": x, "y": y}, "p & q - (x & y)"
    one_by_one = {f"x{place}": x.part(np.array([place])) for place in near(x, p) if place in near(x, q)}
    names = [*one_by_one]
    both = " | ".join(f"({first} & {second})" for at, first in enumerate(names) for second in names[at + 1:])
    return maps | one_by_one, f"p & q - ({both})" if both else "p & q"


def to_be_covered(rule: Rule, found: Violation, sides: Sides) -> tuple[dict[str, Features], str]:
    """The same of what a feature has that nothing covers."""
    p, p_changed = feature(sides.now(rule.a), found.a)
    b = sides.now(rule.b or "")
    stays = b.taken.features.part(np.flatnonzero(~b.is_changed))
    before = joined([stays, sides.was(rule.b or "").taken.features])
    x = sides.was(rule.a).taken.features if p_changed else p
    return {"p": p, "b": b.taken.features, "x": x, "y": before}, "(p - b) - (x - y)"


def feature(side: Side, fid: int | None) -> tuple[Features, bool]:
    """A feature by its key, and whether it has changed."""
    place = side.found.fids.index(fid or 0)
    return side.taken.features.part(np.array([place])), bool(side.is_changed[place])


def near(features: Features, own: Features) -> list[int]:
    """The places of features whose boxes meet that of one."""
    boxes, ((low_x, low_y, high_x, high_y),) = features.boxes(), own.boxes()
    meets = (boxes[:, 0] < high_x) & (boxes[:, 2] > low_x) & (boxes[:, 1] < high_y) & (boxes[:, 3] > low_y)
    found: list[int] = np.flatnonzero(meets).tolist()
    return found


def new_gaps(rule: Rule, found: list[Violation], sides: Sides, program: Program) -> list[Violation | None]:
    """Of each gap itself with the area by which it is larger than the gaps that were in its place."""
    now = sides.now(rule.a)
    stays = Side(now.found, now.taken.without(np.flatnonzero(now.is_changed), ""), np.zeros(len(now.found.fids), bool))
    was = together(sides.was(rule.a), stays)
    was = Side(was.found, was.taken, was.is_changed, now.touched())
    old = [one for one in gaps(rule, was, program) if one.box() not in {own.box() for own in found}]
    return [grown(one, [own for own in old if meet(one, own)], found) for one in found]


def grown(own: Violation, old: list[Violation], found: list[Violation]) -> Violation | None:
    """A gap with what it has more than others."""
    if own.area is None or own.width is None:
        return own
    more = own.area - sum(one.area or 0.0 for one in old)
    return own._replace(area=more, width=more * own.width / own.area) if more > 0 else None


def meet(first: Violation, second: Violation) -> bool:
    """Whether two boxes have a common part."""
    return first.minx < second.maxx and second.minx < first.maxx and first.miny < second.maxy and \
        second.miny < first.maxy
