"""Compares tables of results with what the program answers anew to the features as they are in the database."""

import random
from collections.abc import Sequence
from dataclasses import dataclass

import numpy as np

from ..geometry.flat_arrays import Numbers
from . import statements
from .answers import Program
from .engines import Row, filled
from .filling import all_cells
from .looking import need_layers
from .model import Kept, Kind, Rule
from .registers import Register
from .sides import Side, cell_rows, pair_rows, side_of
from .violating import Violation, violations
from .violation_rows import listed

SHOWN = 5
NO_CELLS: Numbers = np.zeros((0, 2), np.int64)


@dataclass(frozen=True)
class Audit:
    """Of one table: rows that were compared, those that are missing, and those that are there and should not be, or
    are others; and how many changes wait, for which rows may differ."""

    name: str
    rows: int
    missing: list[Row]
    wrong: list[Row]
    pending: int

    def is_right(self) -> bool:
        """Whether the table is what it is to be."""
        return not self.missing and not self.wrong

    def __str__(self) -> str:
        if self.is_right():
            return f"{self.name}: {self.rows} rows, all as worked out anew"
        told = [f"{len(rows)} {word}, as {', '.join(map(str, rows[:SHOWN]))}"
                for word, rows in (("missing", self.missing), ("wrong", self.wrong)) if rows]
        return f"{self.name}: {self.rows} rows, {'; '.join(told)}"


def audit(register: Register, program: Program, part: int = 1, draw: random.Random | None = None) -> list[Audit]:
    """Audits all tables in one state of the layers: whole, or by one of so many features of the first layer."""
    state, engine = register.need(), register.engine
    with engine.reading():
        need_layers(register)
        kept = register.kept()
        rules = register.rules() if part <= 1 else []
        of_kept, of_rules = (one.layers() for one in kept), (one.layers() for one in rules)
        names = sorted({name for layers in (*of_kept, *of_rules) for name in layers})
        found = {name: engine.features(register.layer(name)) for name in names}
        have = {one.name: rows_in(register, one) for one in kept}
        broken = {rule.number: [one.violation for one in listed(engine, " WHERE rule = ?", rule.number)]
                  for rule in rules}
        pending = len(engine.ask(statements.PENDING))
    sides = {name: side_of(own, state.factor) for name, own in found.items()}
    sides = {name: Side(own.found, program.accepted(own.taken), own.is_changed) for name, own in sides.items()}
    return [*(compared(one, have[one.name], sides, program, pending, chosen(sides, one, part, draw)) for one in kept),
            *(ruled(rule, broken[rule.number], sides, program, pending) for rule in rules)]


def ruled(rule: Rule, have: list[Violation], sides: dict[str, Side], program: Program, pending: int) -> Audit:
    """The violations of a rule beside those that are found anew."""
    want = {(*one[:2], one.box()): one for one in violations(rule, sides, program, is_whole=True)}
    there = {(*one[:2], one.box()): one for one in have}
    missing = [one for key, one in want.items() if key not in there]
    wrong = [one for key, one in there.items() if key not in want or not is_same(
        (one.area, one.bound), (want[key].area, want[key].bound))]
    return Audit(f"rule {rule.number}", len(have), [*missing], [*wrong], pending)


def chosen(sides: dict[str, Side], kept: Kept, part: int, draw: random.Random | None) -> set[object] | None:
    """The keys of the features of the first layer, or the cells, by which a table is audited; None for all."""
    if part <= 1:
        return None
    of: list[object] = [*sides[kept.layers()[0]].found.fids]
    if kept.kind is Kind.DERIVE:
        of = [*map(tuple, all_cells(kept, sides).tolist())]
    return set((draw or random.Random()).sample(of, -(-len(of) // part)))


def compared(kept: Kept, have: list[Row], sides: dict[str, Side], program: Program, pending: int,
             only: set[object] | None) -> Audit:
    """One table beside what is worked out anew."""
    own = dict(sides)
    cells = all_cells(kept, sides) if kept.kind is Kind.DERIVE else NO_CELLS
    if only is not None and kept.kind is Kind.DERIVE:
        cells = np.array([one for one in cells.tolist() if tuple(one) in only], np.int64).reshape(-1, 2)
        have = [row for row in have if row[:2] in only]
    elif only is not None:
        name = kept.layers()[0]
        side = sides[name]
        is_chosen = np.array([fid in only for fid in side.found.fids])
        own[name] = Side(side.found, side.taken, is_chosen)
        others = {other: Side(one.found, one.taken, np.zeros(len(one.found.fids), bool))
                  for other, one in sides.items() if other != name}
        own |= others
        have = [row for row in have if row[0] in only or (kept.kind is Kind.CHECK and row[1] in only)]
    made = cell_rows(kept, own, cells, program) if kept.kind is Kind.DERIVE else pair_rows(kept, own, program)
    want = {key_of(kept, row): row for some in made for row in some}
    there = {key_of(kept, row): row for row in have}
    missing = [row for key, row in want.items() if key not in there]
    wrong = [row for key, row in there.items() if key not in want or not is_same(row, want[key])]
    if len(there) < len(have):
        wrong += [row for row in have if there[key_of(kept, row)] is not row]
    return Audit(kept.name, len(have), missing, wrong, pending)


def rows_in(register: Register, kept: Kept) -> list[Row]:
    """The rows of a table."""
    text = statements.CELL_ROWS if kept.kind is Kind.DERIVE else statements.PAIR_ROWS
    return register.engine.ask(filled(register.engine, text, kept))


def key_of(kept: Kept, row: Row) -> Row:
    """What a row is of, and what is to be equal."""
    return row[:2] if kept.kind is Kind.DERIVE else row[:5]


def is_same(first: Sequence[float | None], second: Sequence[float | None]) -> bool:
    """Whether two rows have the same area, as far as their bounds say."""
    (area, bound), (other, other_bound) = first[-2:], second[-2:]
    if area is None or other is None:
        return area is other
    return abs(area - other) <= (bound or 0) + (other_bound or 0)
