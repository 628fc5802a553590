"""One refresh: what has changed, and what is near it, is read from one state; rows are worked out with no transaction
open; one short transaction writes them, if nobody else has refreshed meanwhile and the schema is the same.

So tables of results are those of one state of the layers, whole, and nobody who edits waits for geometry. What is
edited meanwhile stays in the list of pending changes, of which a refresh takes away just those that it read.
"""

from __future__ import annotations

import dataclasses
import time
from collections.abc import Callable
from dataclasses import dataclass, field
from fractions import Fraction

import numpy as np

from ..geometry.flat_arrays import Numbers
from . import statements
from .answers import Program
from .engines import NOTHING, Engine, Found, filled
from .looking import look_through
from .model import Kept, Kind, Layer, Must, Refused, Rule
from .registers import Register, Say, in_silence
from .sides import (EMPTY, NO_BOXES, Row, Side, cell_rows, cells_touched, cores_of, pair_rows, side_of, sides_near,
                    together, with_few_cells)
from .taking import Problem
from .violating import Violation, needed, violations
from .violation_rows import affected, replaced

TRIES = 100  # a refresh begins anew where another came between
FIRST = 5000  # changes that are worked in together where nothing is kept yet, so that who edits waits for no more
ALL = 2**62
Hook = Callable[[], None]


def nothing() -> None:
    """Does nothing."""


@dataclass
class Work:
    """What a refresh has read, and the rows that it has made of it."""

    version: int
    schema: int
    factor: Fraction
    layers: dict[str, Layer]
    kept: list[Kept]
    rules: list[Rule]
    pending: list[tuple[int, str, int]]
    changed: dict[str, Numbers] = field(default_factory=dict)  # keys of changed features, those that are gone too
    sides: dict[str, Side] = field(default_factory=dict)
    near: dict[str, Found] = field(default_factory=dict)
    cells: dict[str, Numbers] = field(default_factory=dict)
    rows: dict[str, list[Row]] = field(default_factory=dict)
    violations: dict[int, list[Violation]] = field(default_factory=dict)  # by the numbers of rules
    problems: list[tuple[str, int, str, str | None]] = field(default_factory=list)


def refresh(register: Register, program: Program, say: Say = in_silence, most: int | None = None,
            before_write: Hook = nothing) -> int:
    """Brings all tables up to date, or at least so many changes; how many changes are in them now."""
    register.need()
    done = tries = 0
    while tries < TRIES:
        if register.engine.schema() != register.state().schema_was:
            look_through(register, say)
        work = read(register, most or (ALL if register.kept() or register.rules() else FIRST))
        if work is None:
            return done
        make_rows(work, program)
        before_write()
        if not write(register, work):
            tries += 1
        elif most or work.kept or work.rules or len(work.pending) < FIRST:
            return done + len(work.pending)
        else:
            done += len(work.pending)
    raise Refused("another refresh comes between each time")


def read(register: Register, most: int) -> Work | None:
    """What a refresh of so many changes needs, of one state; None where nothing has changed."""
    engine = register.engine
    engine.ask(statements.MAKE_ASKED)
    engine.ask(statements.MAKE_BOXES)
    with engine.reading():
        state, schema = register.state(), engine.schema()
        pending = [(row[0], row[1], row[2]) for row in engine.ask(statements.SOME_PENDING, most)]
        if not pending:
            return None
        work = Work(state.version, schema, state.factor, register.layers(), register.kept(), register.rules(), pending)
        for layer in work.layers.values():
            fids = sorted({fid for _, name, fid in pending if name == layer.name})
            if fids:
                read_changed(engine, work, layer, fids)
        for kept in work.kept:
            if kept.kind is Kind.DERIVE:
                work.cells[kept.name] = cells_touched(kept, work.sides)
        read_all_near(engine, work)
    return work


def read_changed(engine: Engine, work: Work, layer: Layer, fids: list[int]) -> None:
    """The features of a layer that differ from what was seen of them, and where they were."""
    engine.ask(statements.NO_ASKED)
    engine.many(statements.ADD_ASKED, [(fid,) for fid in fids])
    now = engine.features(layer, filled(engine, statements.IS_ASKED, layer=layer))
    seen = {row[0]: row[1:] for row in engine.ask(filled(engine, statements.SEEN, layer=layer))}
    same = {fid for fid, own in zip(now.fids, now.digests) if fid in seen and bytes(seen[fid][0]) == own}
    changed = now.part([fid not in same for fid in now.fids])
    side = side_of(changed, work.factor)
    were = np.array([row[1:] for fid, row in seen.items() if fid not in same], float).reshape(-1, 4)
    work.sides[layer.name] = Side(changed, side.taken, side.is_changed, on_grid(were, work.factor))
    work.changed[layer.name] = np.array([fid for fid in fids if fid not in same], np.int64)


def on_grid(boxes: Numbers, factor: Fraction) -> Numbers:
    """Boxes of the layers' coordinates in whole units, none smaller."""
    scaled = boxes * float(factor)
    found: Numbers = np.concatenate([np.floor(scaled[:, :2]), np.ceil(scaled[:, 2:])], axis=1).astype(np.int64)
    return found


def off_grid(boxes: Numbers, factor: Fraction) -> Numbers:
    """Boxes in whole units in the layers' coordinates: of a greater number never a lesser one."""
    found: Numbers = boxes / float(factor)
    return found


def needed_near(work: Work, layer: Layer) -> Numbers:
    """The boxes near which features of a layer are needed."""
    found = [NO_BOXES]
    for kept in work.kept:
        if kept.kind is Kind.DERIVE:
            if layer.name in kept.layers():
                found.append(cores_of(work.cells[kept.name], kept.cell))
            continue
        for name, other in ((kept.a, kept.b or kept.a), (kept.b or kept.a, kept.a)):
            if name == layer.name and other in work.sides:
                side = work.sides[other]
                found.append(side.boxes()[side.changed()])
    found += [needed(rule, layer.name, work.sides) for rule in work.rules]
    own: Numbers = np.unique(np.concatenate(found), axis=0).reshape(-1, 4)
    return own


def read_all_near(engine: Engine, work: Work, waits: bool = False) -> None:
    """The features that have not changed, where they are needed. waits: some changes may be unseen, and wait."""
    for layer in work.layers.values():
        read_near(engine, work, layer, needed_near(work, layer), waits)
    covering = [rule for rule in work.rules if rule.must is Must.BE_COVERED and rule.b in work.sides]
    for rule in covering:  # what else covers a feature that lost some of its cover
        read_near(engine, work, work.layers[rule.b or ""], needed(rule, rule.b or "", with_near(work)), waits)


def read_near(engine: Engine, work: Work, layer: Layer, boxes: Numbers, waits: bool) -> None:
    """The features of a layer near boxes that have not changed and were not read."""
    if len(boxes):
        engine.ask(statements.NO_BOXES)
        engine.many(statements.ADD_BOX, off_grid(boxes, work.factor).tolist())
        near, known = engine.features_near(layer, waits), work.near.get(layer.name, NOTHING)
        own = {*work.changed.get(layer.name, np.zeros(0)).tolist(), *known.fids}
        work.near[layer.name] = known.and_then(near.part([fid not in own for fid in near.fids]))


def with_near(work: Work) -> dict[str, Side]:
    """What has changed of layers, and what is near."""
    near = sides_near(work.near, work.factor)
    return work.sides | {name: together(work.sides.get(name, EMPTY), own) for name, own in near.items()}


def take_shapes(work: Work, program: Program) -> None:
    """Leaves out what the program refuses of what has changed, and puts what is near beside it."""
    for name, side in work.sides.items():
        work.sides[name] = dataclasses.replace(side, taken=program.accepted(side.taken))
    work.sides = with_near(work)


def make_rows(work: Work, program: Program) -> None:
    """Works out all rows."""
    take_shapes(work, program)
    for kept in work.kept:
        if kept.kind is Kind.DERIVE:
            made = [*cell_rows(kept, work.sides, work.cells[kept.name], program)]
            _, large = with_few_cells(kept, work.sides)
            own = {(name, fid) for name, fids in work.changed.items() for fid in fids.tolist()}
            work.problems += [(*one, Problem.TOO_LARGE.value, kept.name) for one in large if one in own]
        else:
            made = [*pair_rows(kept, work.sides, program)]
        work.rows[kept.name] = [row for some in made for row in some]
    for rule in work.rules:
        work.violations[rule.number] = violations(rule, work.sides, program)
    for name, side in work.sides.items():
        work.problems += [(name, side.found.fids[place], what, None) for place, what in side.taken.told
                          if side.is_changed[place]]


def write(register: Register, work: Work) -> bool:
    """Puts all into the tables; False where another refresh or a change of the schema came between."""
    engine = register.engine
    with engine.writing():
        if register.state().version != work.version or engine.schema() != work.schema:
            return False
        for kept in work.kept:
            write_rows(engine, work, kept)
        for rule in work.rules:
            replaced(engine, rule, affected(engine, rule, work.sides, work.changed, work.factor),
                     work.violations[rule.number])
        for name, fids in work.changed.items():
            write_seen(engine, work, work.layers[name], fids)
        engine.many(statements.ADD_PROBLEM, sorted(work.problems, key=str))
        engine.many(statements.DONE, [(number,) for number, _, _ in work.pending])
        engine.ask(statements.NEXT, time.strftime("%Y-%m-%dT%H:%M:%SZ", time.gmtime()))
    return True


def write_rows(engine: Engine, work: Work, kept: Kept) -> None:
    """The rows of one table."""
    if kept.kind is Kind.DERIVE:
        engine.many(filled(engine, statements.DROP_CELL, kept), work.cells[kept.name].tolist())
        engine.many(filled(engine, statements.ADD_CELL, kept), work.rows[kept.name])
        return
    for name, text in ((kept.a, statements.DROP_A), (kept.b or kept.a, statements.DROP_B)):
        gone = work.changed.get(name or "", np.zeros(0, np.int64)).tolist()
        engine.many(filled(engine, text, kept), [(fid,) for fid in gone])
    engine.many(filled(engine, statements.ADD_PAIR, kept), work.rows[kept.name])


def write_seen(engine: Engine, work: Work, layer: Layer, fids: Numbers) -> None:
    """What is seen of a layer now."""
    engine.many(filled(engine, statements.DROP_SEEN, layer=layer), [(fid,) for fid in fids.tolist()])
    engine.many(statements.DROP_PROBLEM, [(layer.name, fid) for fid in fids.tolist()])
    side = work.sides.get(layer.name, EMPTY)
    live = side.changed()
    seen = seen_rows(side.found.part(np.isin(np.arange(len(side.found.fids)), live)), side.boxes()[live], work.factor)
    engine.many(filled(engine, statements.ADD_SEEN, layer=layer), seen)


def seen_rows(found: Found, boxes: Numbers, factor: Fraction) -> list[Row]:
    """Rows of an index: keys, digests, boxes."""
    return [(fid, own, *box) for fid, own, box in
            zip(found.fids, found.digests, off_grid(boxes, factor).tolist())]
