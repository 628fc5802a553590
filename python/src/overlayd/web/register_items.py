"""Rows of a register as items: features of its layers, rows of its tables of results, and violations."""

import urllib.parse
from collections.abc import Callable, Mapping
from dataclasses import dataclass
from fractions import Fraction
from typing import Any

from ..geometry import plane
from ..geometry.plane import Box, homogeneous
from ..register import statements
from ..register.geojson import geometry_of
from ..register.model import Kept, Kind, Rule
from ..register.past import Past
from ..register.registers import Register
from ..register.tables import Item as Row, Table, plain
from ..register.violation_rows import listed
from ..program import Point


@dataclass(frozen=True)
class RowItem:
    """A row as an item: its number, its properties, its geometry in the register's system, a digest of it, and links to
    others by their relation, collection and number."""

    number: int
    properties: Mapping[str, Any]
    geometry: dict[str, Any] | None
    etag: str | None = None
    others: tuple[tuple[str, str, int], ...] = ()

    def geojson(self) -> dict[str, Any]:
        return {"type": "Feature", "id": self.number, "properties": dict(self.properties), "geometry": self.geometry}

    def meets(self, box: Box) -> bool:
        return any(plane.meets(rings, box) for rings in self._polygons())

    def _polygons(self) -> list[list[list[Point]]]:
        if self.geometry is None:
            return []
        own = self.geometry["coordinates"]
        polygons = [own] if self.geometry["type"] == "Polygon" else own
        return [[[homogeneous(Fraction(repr(x)), Fraction(repr(y))) for x, y in ring] for ring in polygon if ring]
                for polygon in polygons if polygon and polygon[0]]


def of_row(row: Row) -> RowItem:
    """A feature of a layer."""
    return RowItem(row.fid, row.values, geometry_of(row.shape), row.etag())


@dataclass(frozen=True)
class Collection:
    """What is listed: its name, what it is, the layer where it is one, and so many items after one, in a box where one
    is given."""

    name: str
    text: str
    layer: str | None
    page: Callable[[int, int, tuple[float, ...] | None], list[RowItem]]

    def path(self) -> str:
        """Its name as addresses have it."""
        return urllib.parse.quote(self.name, safe="")


def collections_of(register: Register) -> dict[str, Collection]:
    """All that is listed of a register: layers, tables of results, violations."""
    found = [of_layer(register, name) for name in register.layers()]
    found += [of_kept(register, kept) for kept in register.kept()]
    rules = register.rules()
    if rules:
        found.append(of_violations(register, rules))
    return {one.name: one for one in found}


def of_layer(register: Register, name: str, at: str | None = None) -> Collection:
    """A layer, as it is or as it was at a time of the log."""
    layer = register.layer(name)
    table = Table(register.engine, layer) if at is None else Past(register.engine, layer, at)
    return Collection(name, "features of a layer", name, lambda after, limit, box: [
        *map(of_row, table.page(after, limit, box))])


def of_kept(register: Register, kept: Kept) -> Collection:
    """A table of results."""
    columns = ("i", "j", "area", "bound") if kept.kind is Kind.DERIVE else (
        "a", "b", "a_id", "b_id", "relation", "area", "bound")
    text = (f"SELECT id, {', '.join(columns)} FROM {register.engine.named(kept.table())} WHERE id > ? ORDER BY id"
            " LIMIT ?")

    def page(after: int, limit: int, _: tuple[float, ...] | None) -> list[RowItem]:
        rows = register.engine.ask(text, after, limit)
        return [RowItem(row[0], dict(zip(columns, map(plain, row[1:]))), None, None, linked(kept.a, kept.b, row[1:3]))
                for row in rows]

    return Collection(kept.table(), f"{kept.kind.value} {kept.expression or ' '.join(kept.layers())}", None, page)


def linked(a: str | None, b: str | None, keys: tuple[int | None, ...]) -> tuple[tuple[str, str, int], ...]:
    """Links to the features of a row."""
    return tuple(("related", name, fid) for name, fid in zip((a, b), keys) if name is not None and fid is not None)


def of_violations(register: Register, rules: list[Rule]) -> Collection:
    """What breaks rules."""
    named = {rule.number: rule for rule in rules}

    def page(after: int, limit: int, box: tuple[float, ...] | None) -> list[RowItem]:
        where, values = " WHERE id > ?", list[float]([after])
        if box is not None:
            where += " AND maxx >= ? AND maxy >= ? AND minx <= ? AND miny <= ?"
            values += [*box]
        made = []
        for one in listed(register.engine, f"{where} ORDER BY id LIMIT ?", *values, limit):
            rule, own = named.get(one.rule), one.violation
            properties = {"rule": str(rule), "a": own.a, "b": own.b, "a_id": own.a_id, "b_id": own.b_id,
                          "area": own.area, "bound": own.bound, "width": own.width, "who": one.who, "why": one.why,
                          "accepted": one.accepted}
            others = linked(rule.a, rule.b or rule.a, (own.a, own.b)) if rule else ()
            made.append(RowItem(one.number, properties, geometry_of(own.outline), None, others))
        return made

    return Collection("overlay_violation", "what breaks rules", None, page)


def box_of(register: Register, name: str) -> Box | None:
    """The box of what was seen of a layer."""
    index = register.engine.named(register.layer(name).index())
    ((*edges,),) = register.engine.ask(statements.EXTENT.format(index=index))
    return None if edges[0] is None else Box(*map(Fraction, edges))
