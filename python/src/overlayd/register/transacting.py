"""Changes of any features of any layers as one: all or nothing, judged by the rules at the end, and one in the log."""

import dataclasses
import enum
import json
from collections.abc import Callable, Iterable, Mapping, Sequence
from dataclasses import dataclass, field
from typing import Any

import numpy as np

from . import statements
from .answers import Program
from .corners import only_takes, taken_in
from .engines import Found
from .judging import Broken, Sides, broken
from .model import Refused
from .refreshing import Work, read_all_near, take_shapes
from .registers import Register
from .sides import Side, side_of
from .tables import Item, Table, Unknown
from .taking import Problem

MOST = 10_000  # changes of one transaction
UNFIT = {one.value for one in Problem} - {Problem.HEIGHTS.value, Problem.OFF_GRID.value, Problem.CROSSING.value}


class What(enum.Enum):
    """What becomes of a feature."""

    INSERT = "insert"
    UPDATE = "update"
    DELETE = "delete"


class Stale(Refused):
    """A feature that is another one than is told."""


class Unfit(Refused):
    """A shape that no register takes."""


class Breaks(Refused):
    """Rules that a change would break."""

    def __init__(self, found: list[Broken]) -> None:
        super().__init__("; ".join(dict.fromkeys(str(one.rule) for one in found)))
        self.found = found


@dataclass(frozen=True)
class Change:
    """A change of one feature: of a new one the key where it is to have a certain one, of others the columns that
    change, the shape where that does, whether it has none from then on or just takes corners in, what its digest has to
    be where that is said, and another key."""

    what: What
    layer: str
    fid: int | None = None
    shape: bytes | None = None
    values: Mapping[str, Any] = field(default_factory=dict)
    etag: str | None = None
    key: int | None = None
    has_no_shape: bool = False
    takes_corners: bool = False

    def is_harmless(self) -> bool:
        """Whether no rule can be broken by it."""
        is_of_words = self.what is What.UPDATE and self.shape is None and self.key is None and not self.has_no_shape
        return is_of_words or self.takes_corners


@dataclass(frozen=True)
class Done:
    """The number of a change in the log, and the features as they are now, with layer and key; None for one gone."""

    number: int
    features: list[tuple[str, int, Item | None]]


class Transaction:
    """What is under way: the tables of a register's layers, and what their changed features were."""

    def __init__(self, register: Register, program: Program) -> None:
        self.register, self.program = register, program
        self.tables: dict[str, Table] = {}
        self.before: dict[str, dict[int, bytes | None]] = {}
        self.now: dict[str, set[int]] = {}

    def table(self, name: str) -> Table:
        if name not in self.tables:
            self.tables[name] = Table(self.register.engine, self.register.layer(name))
        return self.tables[name]

    def make(self, change: Change) -> tuple[str, int]:
        """Makes one change; the layer and the key."""
        table, fid = self.table(change.layer), change.fid
        was, now = self.before.setdefault(change.layer, {}), self.now.setdefault(change.layer, set())
        if change.what is What.INSERT:
            fid = table.insert(fid, change.shape, change.values)
            now.add(fid)
            return change.layer, fid
        if fid is None:
            raise Refused("the key of a feature is wanted")
        item = table.item(fid)
        if change.etag is not None and change.etag != item.etag():
            raise Stale(f"{change.layer}: feature {fid} has been changed since: it is {item.etag()}")
        if fid not in now and not change.is_harmless():
            was.setdefault(fid, item.shape)
            now.add(fid)
        if change.what is What.DELETE:
            now.discard(fid)
            table.delete(fid)
            return change.layer, fid
        key = fid if change.key is None else change.key
        table.update(fid, change.shape, change.values, change.key, change.has_no_shape)
        if fid in now:
            now.discard(fid)
            now.add(key)
        return change.layer, key

    def judge(self) -> None:
        """Refuses what breaks a rule."""
        register, engine = self.register, self.register.engine
        own = {name for name in self.before if self.before[name] or self.now[name]}
        rules = [rule for rule in register.rules() if own & {*rule.layers()}]
        if not rules:
            return
        state = register.state()
        work = Work(state.version, 0, state.factor, register.layers(), [], rules, [])
        before: dict[str, Side] = {}
        for name in own:
            was = self.before[name]
            before[name] = side_of(Found([*was], [*was.values()], [None] * len(was)), state.factor)
            engine.ask(statements.NO_ASKED)
            engine.many(statements.ADD_ASKED, [(fid,) for fid in sorted(self.now[name])])
            now = engine.features(work.layers[name], statements.IS_ASKED.format(key=self.table(name).key))
            side = side_of(now, state.factor)
            boxes = before[name].boxes()[before[name].taken.is_live()]
            work.sides[name] = Side(now, side.taken, side.is_changed, boxes)
            work.changed[name] = np.array(sorted({*was, *self.now[name]}), np.int64)
        read_all_near(engine, work, waits=True)
        take_shapes(work, self.program)
        found = broken(rules, Sides(before, work.sides), self.program)
        if found:
            raise Breaks(found)


def nothing_more() -> None:
    """Nothing."""


def transact(register: Register, program: Program, changes: Sequence[Change], who: str | None = None,
             before_end: Callable[[], None] = nothing_more) -> Done:
    """Makes changes as one, or none of them: Breaks where a rule would be broken."""
    register.need()
    if not 1 <= len(changes) <= MOST:
        raise Refused(f"a transaction has 1 to {MOST} changes")
    for name in {change.layer for change in changes}:
        register.layer(name)
    check_shapes(changes, program)
    return made(register, program, lambda: on_grid(register, changes, program), who, before_end)


def made(register: Register, program: Program, planned: Callable[[], Iterable[Change]], who: str | None,
         before_end: Callable[[], None] = nothing_more) -> Done:
    """Makes the changes that are planned once nobody else changes anything."""
    engine = register.engine
    engine.ask(statements.MAKE_ASKED)
    engine.ask(statements.MAKE_BOXES)
    try:
        with engine.editing(who) as number:
            own = Transaction(register, program)
            keys = [own.make(change) for change in planned()]
            own.judge()
            before_end()
            found = [(name, fid, next(iter(own.table(name).items(f"WHERE t.{own.table(name).key} = ?", fid)), None))
                     for name, fid in dict.fromkeys(keys)]
    except engine.unfit as fault:
        raise Refused(str(fault).strip()) from None
    return Done(number, found)


def shapes_in(changes: Sequence[Change]) -> Found:
    """The shapes that changes have, by their places."""
    shaped = [place for place, change in enumerate(changes) if change.shape is not None]
    return Found(shaped, [changes[place].shape for place in shaped], [None] * len(shaped))


def check_shapes(changes: Sequence[Change], program: Program) -> None:
    """Unfit where a shape is none."""
    found = shapes_in(changes)
    told = program.accepted(side_of(found, program.factor).taken).told
    wrong = [f"{changes[found.fids[place]].layer}, change {found.fids[place] + 1}: {what}" for place, what in told
             if any(what.startswith(one) for one in UNFIT)]
    if wrong:
        raise Unfit("; ".join(wrong))


def on_grid(register: Register, changes: Sequence[Change], program: Program) -> list[Change]:
    """The same with all shapes on the grid, and the changes of neighbours into which corners of these are taken."""
    found, own = shapes_in(changes), dict[str, set[int]]()
    if not found.fids:
        return [*changes]
    for change in changes:
        if change.fid is not None and not change.is_harmless():
            own.setdefault(change.layer, set()).add(change.fid)
    layers = {name: layer for name, layer in register.layers().items() if register.engine.may_write(layer)}
    shapes, near = taken_in(register.engine, layers, program.factor, found, own)
    made = [*changes, *(Change(What.UPDATE, name, fid, shape, takes_corners=True) for name, fid, shape in near)]
    for place, shape in shapes.items():
        made[found.fids[place]] = dataclasses.replace(made[found.fids[place]], shape=shape)
    return made


def undo(register: Register, program: Program, number: int, who: str | None = None) -> Done:
    """Takes back a whole change, if its features are as it has left them."""
    register.need()
    return made(register, program, lambda: inverse(register, number), who)


def is_as_it_was(table: Table, fid: int, what: str, geom: object, old: str | None) -> bool:
    """Whether a feature is again what it was before a row of the log."""
    item = next(iter(table.items(f"WHERE t.{table.key} = ?", fid)), None)
    if item is None or what == "insert":
        return item is None and what == "insert"
    values = json.loads(old or "{}")
    return item.shape == table.engine.shape_read(geom) and all(
        values.get(name) == value for name, value in item.values.items())


def inverse(register: Register, number: int) -> list[Change]:
    """The changes that take one back, the last first."""
    engine = register.engine
    rows = engine.ask(statements.LOG_OF_CHANGE, number, number)
    if not rows:
        raise Unknown(f"{number}: no change in the log")
    found = []
    for row, name, fid, what, geom, old in rows:
        now = int(what.rpartition(" ")[2]) if what.startswith("moved") else fid
        table = Table(engine, register.layer(name))
        since = [(later, state) for later, *state in engine.ask(statements.LOG_SINCE, name, now, row, number)
                 if not is_as_it_was(table, now, *state)]
        for later, (_, left, left_old) in since:
            both = engine.shape_read(geom), engine.shape_read(left)
            if what != "update" or old != left_old or not only_takes(*both, register.state().factor):
                raise Stale(f"{name}: feature {now} has been changed since, by change {later}")
        if since:
            continue  # it has corners on its borders that it had not
        values = {column: value for column, value in json.loads(old or "{}").items() if column in table.columns}
        shape, kind = engine.shape_read(geom), {"insert": What.DELETE, "delete": What.INSERT}.get(what, What.UPDATE)
        found.append(Change(kind, name, now, shape, values, None, None if now == fid else fid, geom is None))
    return found
