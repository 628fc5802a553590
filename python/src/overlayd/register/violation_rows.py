"""The rows of violations: which of them a change may have ended, and those that take their place. One that was accepted
stays so where it is found again no larger."""

from collections.abc import Mapping, Sequence
from fractions import Fraction
from typing import NamedTuple

from ..geometry.flat_arrays import Numbers
from . import statements
from .engines import Engine
from .model import Must, Rule
from .sides import EMPTY, Side
from .violating import Violation, to_cover


class Listed(NamedTuple):
    """A violation as its table has it: by its number and that of its rule, and who has accepted it, why and when."""

    number: int
    rule: int
    who: str | None
    why: str | None
    accepted: str | None
    violation: Violation


def listed(engine: Engine, where: str = "", *values: object) -> list[Listed]:
    """Violations as the table has them."""
    rows = engine.ask(statements.VIOLATIONS + where, *values)
    return [Listed._make([*row[:5], Violation._make([*row[5:-1], row[-1] and bytes(row[-1])])]) for row in rows]


def affected(engine: Engine, rule: Rule, sides: Mapping[str, Side], changed: Mapping[str, Numbers], factor: Fraction
             ) -> list[Listed]:
    """The violations of a rule that may be others after a change."""
    asked: list[tuple[str, Sequence[object]]] = []
    if rule.must is Must.NOT_HAVE_GAPS:
        boxes = sides.get(rule.a, EMPTY).touched() / float(factor)
        asked = [(statements.OF_BOX, (max_x, min_x, max_y, min_y)) for min_x, min_y, max_x, max_y in boxes.tolist()]
    else:
        asked = [(statements.OF_FIRST, (fid,)) for fid in fids_of(changed, rule.a)]
        if rule.must is Must.BE_COVERED:
            a = sides.get(rule.a, EMPTY)
            asked += [(statements.OF_FIRST, (a.found.fids[place],)) for place in to_cover(rule, sides).tolist()]
        else:
            asked += [(statements.OF_SECOND, (fid,)) for fid in fids_of(changed, rule.b or rule.a)]
    found = [one for where, values in asked for one in listed(engine, where, rule.number, *values)]
    return [*{one.number: one for one in found}.values()]


def fids_of(changed: Mapping[str, Numbers], name: str) -> list[int]:
    """The keys of a layer's features that have changed."""
    found: list[int] = changed[name].tolist() if name in changed else []
    return found


def replaced(engine: Engine, rule: Rule, gone: list[Listed], found: Sequence[Violation]) -> None:
    """Puts violations into the place of others. One that is as it was keeps its row."""
    stays = {one.violation for one in gone} & {*found}
    accepted = [one for one in gone if one.accepted is not None]
    engine.many(statements.DROP_VIOLATION, [(one.number,) for one in gone if one.violation not in stays])
    rows = []
    for one in found:
        was = next((own for own in accepted if is_no_larger(one, own.violation)), None)
        if one not in stays:
            rows.append((rule.number, *((was.who, was.why, was.accepted) if was else (None,) * 3), *one))
    engine.many(statements.ADD_VIOLATION, rows)


def is_no_larger(own: Violation, was: Violation) -> bool:
    """Whether a violation is one that was, or a part of it."""
    if own[:2] != was[:2] or own.area is None or was.area is None:
        return own[:2] == was[:2] and own.area is was.area and own.box() == was.box()
    off = (own.bound or 0) + (was.bound or 0)
    is_inside = all(one >= other - off for one, other in zip(own.box()[:2], was.box()[:2])) and \
        all(one <= other + off for one, other in zip(own.box()[2:], was.box()[2:]))
    return is_inside and own.area <= was.area + off
