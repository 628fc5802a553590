"""Begins to keep a table of results: it is filled from one state of the layers, part by part by another connection, and
counts from the last transaction on, if nobody refreshed meanwhile. A filling that is ended leaves nothing that counts.
"""

from __future__ import annotations

from collections.abc import Iterable

import numpy as np

from ..geometry.flat_arrays import Numbers
from ..kernel.blocks import Asked, Kind as Jobs, block
from ..kernel.features import of_rings
from ..kernel.rows import BlockRefused
from . import statements
from .answers import Program, cells_of, counted
from .engines import Engine, filled
from .model import NAME, Kept, Kind, Refused, names_in, spelled
from .refreshing import TRIES, refresh
from .registers import Register, Say, in_silence
from .sides import MOST_CELLS, NO_BOXES, Row, Side, cell_rows, pair_rows, side_of, with_few_cells
from .taking import Problem

CELLS_A_FEATURE = 1.0  # a cell is at least as wide as the mean feature is


def keep(register: Register, kept: Kept, program: Program, say: Say = in_silence) -> int:
    """Keeps a table of results; how many rows it has."""
    register.need()
    check(register, kept, program)
    if kept.kind is Kind.DERIVE and not kept.cell:
        refresh(register, program, say)
        kept = Kept(kept.name, kept.kind, None, None, kept.expression, cell_for(register, kept))
    other = register.engine.second()
    try:
        for _ in range(TRIES):
            refresh(register, program, say)
            count = fill(register, other, kept, program)
            if count is not None:
                return count
    finally:
        other.close()
    raise Refused("layers are changed faster than they can be looked through")


def check(register: Register, kept: Kept, program: Program) -> None:
    """Refuses what cannot be kept."""
    if not NAME.fullmatch(kept.name):
        raise Refused(f"{kept.name}: a name has letters, digits and _, and begins with a letter")
    if kept.table().lower() in {one.table().lower() for one in register.kept()}:  # SQLite's names have no case
        raise Refused(f"{kept.name} is kept already: `overlay register unkeep` it first")
    if kept.cell < 0:
        raise Refused("a cell is at least one unit of the grid wide")
    for name in kept.layers():
        register.layer(name)
    if kept.expression is not None:
        check_expression(kept.expression, program)


def check_expression(expression: str, program: Program) -> None:
    """Refuses an expression that the program cannot read."""
    names = names_in(expression)
    own = spelled(expression, dict.fromkeys(names, "Laa")).encode()
    nobody = of_rings(*(np.zeros(0, np.int64) for _ in range(4)))
    core = np.array([0, 1, 0, 1], "<i8").view("<u4")
    job = np.concatenate([core, [0]]).astype("<u4")
    try:
        for _ in program.ask.rows([block(nobody, Asked(Jobs.CELLS, job, 1, own, 1))], 1):
            pass
    except BlockRefused as fault:
        raise Refused(f"{expression}: no expression: layers, & | - ^ and brackets ({fault.fault})") from None
    if not names:
        raise Refused(f"{expression}: no expression: it names no layer")


def cell_for(register: Register, kept: Kept) -> int:
    """How wide cells are to be: the power of two above the mean side of features."""
    sides = []
    for name in kept.layers():
        ((count, wide, high),) = register.engine.ask(
            filled(register.engine, statements.SIZES, layer=register.layer(name)))
        if count:
            sides.append(max(wide, high) * float(register.state().factor))
    least = min(sides, default=1.0)
    return 1 << max(0, int(np.ceil(np.log2(max(1.0, least * CELLS_A_FEATURE)))))


def fill(register: Register, other: Engine, kept: Kept, program: Program) -> int | None:
    """Makes and fills a table; None where a change came between."""
    is_cells, engine, count = kept.kind is Kind.DERIVE, register.engine, 0
    columns = statements.CELLS if is_cells else statements.PAIRS
    with Register(other).own_change():
        other.drop(kept.table())  # of a filling that was ended
        other.create(kept.table(), columns, is_listed=True)
        for number, index in enumerate(statements.INDEXES[columns]):  # of a full table each holds up who edits
            unique = "" if number else "UNIQUE "
            name = other.named(f"{kept.table()}_{number}")
            other.ask(f"CREATE {unique}INDEX {name} ON {other.named(kept.table())} ({index})")
    with engine.reading():
        version, pending = register.state().version, engine.ask(statements.SOME_PENDING, 1)
        sides = {name: seen_side(register, name) for name in kept.layers()} if not pending else {}
    if pending:
        return None
    text = filled(other, statements.ADD_CELL if is_cells else statements.ADD_PAIR, kept)
    for some in rows_of(kept, sides, program):
        with other.writing():
            other.many(text, some)
        count += len(some)
    with register.own_change():
        if register.state().version != version:
            return None
        engine.ask(statements.ADD_KEPT, kept.name, kept.kind.value, kept.a, kept.b, kept.expression, kept.cell)
        if is_cells:
            _, large = with_few_cells(kept, sides)
            engine.many(statements.ADD_PROBLEM, [(*one, Problem.TOO_LARGE.value, kept.name) for one in large])
        engine.ask(statements.NEXT, register.state().at)
    return count


def seen_side(register: Register, name: str) -> Side:
    """All features of a layer that count."""
    engine, layer = register.engine, register.layer(name)
    seen = {fid for fid, _ in engine.ask(filled(engine, statements.DIGESTS, layer=layer))}
    found = engine.features(layer)
    return side_of(found.part([fid in seen for fid in found.fids]), register.state().factor)


def rows_of(kept: Kept, sides: dict[str, Side], program: Program) -> Iterable[list[Row]]:
    """All rows of a table, from nothing."""
    if kept.kind is Kind.DERIVE:
        return cell_rows(kept, sides, all_cells(kept, sides), program)
    return pair_rows(kept, sides, program)


def all_cells(kept: Kept, sides: dict[str, Side]) -> Numbers:
    """The cells that any feature of an expression meets."""
    boxes = np.concatenate([NO_BOXES, *(side.boxes()[side.changed()] for side in sides.values())])
    boxes = boxes[counted(boxes, kept.cell) <= MOST_CELLS]
    parts = [cells_of(boxes[at : at + 100_000], kept.cell) for at in range(0, len(boxes), 100_000)]
    found: Numbers = np.unique(np.concatenate([np.zeros((0, 2), np.int64), *parts]), axis=0).reshape(-1, 2)
    return found
