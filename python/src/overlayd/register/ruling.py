"""Rules come and go, and violations of them are accepted."""

from __future__ import annotations

import time

from . import statements
from .answers import Program
from .filling import seen_side
from .model import Must, Refused, Rule
from .refreshing import TRIES, refresh
from .registers import Register, Say, in_silence
from .statements import SIZES
from .engines import filled
from .violating import violations
from .violation_rows import replaced

SIDES_OF_GAP = 8  # a gap is no wider and no higher than so many mean features


def add_rule(register: Register, must: Must, a: str, b: str | None, program: Program, least: float | None = None,
             reach: int | None = None, say: Say = in_silence) -> Rule:
    """Adds a rule, and lists what breaks it. least: by default one unit of the grid."""
    state = register.need()
    for name in (a, *([b] if b is not None else [])):
        register.layer(name)
    if must.has_other() != (b is not None) or a == b:
        raise Refused(f"{must.value}: it is of {'two layers' if must.has_other() else 'one layer'}")
    wide = float(1 / state.factor) if least is None else least
    if wide < 0 or (reach or 0) < 0:
        raise Refused("a width is not below 0")
    if any((one.must, one.a, one.b) == (must, a, b) for one in register.rules()):
        raise Refused(f"{a} {must.value} {b or ''}".strip() + ": that is a rule already")
    for _ in range(TRIES):
        refresh(register, program, say)
        made = added(register, Rule(0, must, a, b, wide, reach or gap_size(register, a)), program)
        if made is not None:
            return made
    raise Refused("layers are changed faster than they can be looked through")


def added(register: Register, rule: Rule, program: Program) -> Rule | None:
    """Adds a rule with its violations; None where a change came between."""
    engine = register.engine
    with engine.reading():
        version, pending = register.state().version, engine.ask(statements.SOME_PENDING, 1)
        sides = {name: seen_side(register, name) for name in rule.layers()} if not pending else {}
    if pending:
        return None
    found = violations(rule, sides, program, is_whole=True)
    with register.own_change():
        if register.state().version != version:
            return None
        engine.show_violations(register.layer(rule.a))
        engine.ask(statements.ADD_RULE, rule.must.value, rule.a, rule.b, rule.least, rule.reach)
        made = register.rules()[-1]
        replaced(engine, made, [], found)
        engine.ask(statements.NEXT, register.state().at)
    return made


def gap_size(register: Register, name: str) -> int:
    """How many units of the grid wide and high a gap is at most, where nothing is said."""
    ((count, wide, high),) = register.engine.ask(filled(register.engine, SIZES, layer=register.layer(name)))
    if not count:
        return 1
    return max(1, round(SIDES_OF_GAP * float(max(wide, high)) * float(register.state().factor)))


def drop_rule(register: Register, number: int) -> None:
    """Takes a rule away, and its violations."""
    register.need()
    with register.engine.writing():
        if number not in [one.number for one in register.rules()]:
            raise Refused(f"{number}: no rule; `overlay register status` lists them")
        register.engine.ask(statements.DROP_RULE, number)
        register.engine.ask(statements.DROP_VIOLATIONS, number)
        register.engine.ask(statements.NEXT, register.state().at)


def accept(register: Register, number: int, who: str, why: str) -> None:
    """Has a violation accepted."""
    register.need()
    if not who.strip() or not why.strip():
        raise Refused("who accepts a violation, and why, is to be said")
    at = time.strftime("%Y-%m-%dT%H:%M:%SZ", time.gmtime())
    with register.engine.writing():
        if not register.engine.ask("SELECT 1 FROM overlay_violation WHERE id = ?", number):
            raise Refused(f"{number}: no violation; `overlay register status` lists them")
        register.engine.ask(statements.ACCEPT, who, why, at, number)
