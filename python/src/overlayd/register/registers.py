"""A register, as its own tables have it: what it is made of, and how layers come and go."""

from __future__ import annotations

import contextlib
import datetime
from collections.abc import Callable, Iterator
from fractions import Fraction

from . import statements
from .engines import Engine, filled
from .model import FORM, Kept, Kind, Layer, Must, Refused, Rule, State

Say = Callable[[str], None]


def now() -> str:
    """The time as the log has it."""
    return datetime.datetime.now(datetime.timezone.utc).isoformat(timespec="milliseconds").replace("+00:00", "Z")


def in_silence(text: str) -> None:
    """Says nothing."""


class Register:
    """A register over a database."""

    def __init__(self, engine: Engine) -> None:
        self.engine = engine

    def need(self) -> State:
        """Its state; refused where there is none, or tables of another version."""
        if not self.engine.is_register():
            raise Refused("no register here: `overlay register init` or `adopt` makes one")
        state = self.state()
        if state.form != FORM:
            raise Refused(f"tables of version {state.form}, and not {FORM}: `overlay register upgrade` brings them over"
                          if state.form < FORM else f"tables of version {state.form}: a newer overlay made them")
        return state

    def state(self) -> State:
        ((form, version, at, schema_was, factor),) = self.engine.ask(statements.STATE)
        return State(form, version, at, schema_was, Fraction(factor))

    def layers(self) -> dict[str, Layer]:
        return {row[0]: Layer(*row) for row in self.engine.ask(statements.LAYERS)}

    def kept(self) -> list[Kept]:
        return [Kept(name, Kind(kind), *rest) for name, kind, *rest in self.engine.ask(statements.KEPT)]

    def rules(self) -> list[Rule]:
        return [Rule(number, Must(must), *rest) for number, must, *rest in self.engine.ask(statements.RULES)]

    def layer(self, name: str) -> Layer:
        """One of its layers."""
        own = self.layers()
        if name not in own:
            raise Refused(f"{name}: no layer of the register; there are {', '.join(own) or 'none'}")
        return own[name]

    def begin(self, factor: Fraction) -> None:
        """Makes a register without layers."""
        if self.engine.is_register():
            raise Refused("there is a register already")
        self.engine.hold()
        with self.engine.writing():
            self.engine.begin()
            for text in statements.INDEXES_OF_TABLES:
                self.engine.ask(text)
            self.engine.ask(statements.BEGIN_STATE, FORM, str(factor))
            self.engine.ask(statements.SCHEMA_IS, self.engine.schema())

    def adopt(self, name: str, ident: str | None = None) -> None:
        """Takes a layer of the database in: each of its features is a change that waits for a refresh."""
        self.need()
        with self.own_change():
            if name in self.layers():
                raise Refused(f"{name} is a layer of the register already")
            layer = self.engine.layer(name, ident)
            self.engine.many(statements.ADD_LAYER, [(layer.name, layer.geom, layer.key, layer.ident, now())])
            self.engine.make_index(layer)
            self.engine.arm(layer)
            self.engine.ask(filled(self.engine, statements.ADD_ALL_PENDING, layer=layer), name)

    def remove(self, name: str) -> None:
        """Takes a layer out of the register; its own table stays."""
        self.need()
        with self.own_change():
            layer = self.layer(name)
            users = [one.name for one in self.kept() if name in one.layers()]
            if users:
                raise Refused(f"{name} is needed by {', '.join(users)}: `overlay register unkeep` these first")
            rules = [f"{one.number}: {one}" for one in self.rules() if name in one.layers()]
            if rules:
                raise Refused(f"{name} has rules ({'; '.join(rules)}): `overlay register unrule` these first")
            self.engine.disarm(layer)
            self.engine.drop(layer.index())
            for text in (statements.DROP_LAYER, statements.DROP_PENDING, statements.DROP_PROBLEMS):
                self.engine.ask(text, name)

    def delete_column(self, name: str, column: str) -> None:
        """Deletes a column of a layer. SQLite by itself does not, as the triggers name it."""
        self.need()
        with self.own_change():
            layer = self.layer(name)
            if column not in self.engine.columns(layer) or column == layer.ident:
                left = ", ".join(one for one in self.engine.columns(layer) if one != layer.ident)
                raise Refused(f"{column}: no column of {name} that may be deleted; there are {left or 'none'}")
            self.engine.disarm(layer)
            self.engine.ask(f"ALTER TABLE {self.engine.place(layer)} DROP COLUMN {self.engine.named(column)}")
            self.engine.arm(layer)

    def unkeep(self, name: str) -> None:
        """Keeps a table of results no longer."""
        self.need()
        with self.own_change():
            kept = {one.name: one for one in self.kept()}
            if name not in kept:
                raise Refused(f"{name}: not kept; there are {', '.join(kept) or 'none'}")
            self.engine.ask(statements.DROP_KEPT, name)
            self.engine.ask(statements.DROP_PROBLEMS_OF_KEPT, name)
            self.engine.drop(kept[name].table())

    @contextlib.contextmanager
    def own_change(self) -> Iterator[None]:
        """A transaction that changes the schema: it is not taken for somebody else's."""
        with self.engine.writing():
            was_seen = self.state().schema_was == self.engine.schema()
            yield
            if was_seen:
                self.engine.ask(statements.SCHEMA_IS, self.engine.schema())

    def forget_schema(self) -> None:
        """Has the next refresh look all layers through."""
        self.engine.ask(statements.SCHEMA_IS, -1)

    def upgrade(self) -> bool:
        """Brings tables of an earlier version over; whether there was something to do."""
        if not self.engine.is_register():
            raise Refused("no register here: `overlay register init` or `adopt` makes one")
        form = self.state().form
        if form >= FORM:
            self.need()
            return False
        with self.own_change():
            for name in ("overlay_rule", "overlay_violation") if form < 2 else ():
                self.engine.create(name, statements.LISTED[name], is_listed=True)
            for text in statements.INDEXES_OF_TABLES:
                self.engine.ask(text)
            self.engine.ask("ALTER TABLE overlay_layer ADD COLUMN since TEXT")
            self.engine.ask(statements.BEGIN_SINCE, now())
            self.engine.make_functions()
            for layer in self.layers().values():
                self.engine.arm(layer)
            for rule in self.rules()[:1]:
                self.engine.show_violations(self.layer(rule.a))
            self.engine.ask(statements.SET_FORM, FORM)
        return True

    def problems(self) -> list[tuple[str, int, str, str | None]]:
        """What is told of features: layer, key, what, and of which table of results alone."""
        return [(layer, fid, what, kept) for layer, fid, what, kept in self.engine.ask(statements.PROBLEMS)]

    def count(self, kept: Kept) -> tuple[int, int]:
        """How many rows a table of results has, and how many of these have no answer."""
        texts = (statements.COUNT, statements.UNANSWERED)
        rows, unanswered = (self.engine.ask(filled(self.engine, text, kept))[0][0] for text in texts)
        return rows, unanswered
