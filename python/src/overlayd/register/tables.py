"""The rows of a layer's own table: read one by one and page by page, and written."""

import datetime
import decimal
import hashlib
import json
import uuid
from collections.abc import Mapping, Sequence
from dataclasses import dataclass
from typing import Any

from .engines import DIGEST, Engine
from .model import Layer, Refused

Box = Sequence[float]


class Unknown(Refused):
    """A feature that is not there."""


@dataclass(frozen=True)
class Item:
    """A feature as its layer has it: its key, Well-Known Binary, and the other columns."""

    fid: int
    shape: bytes | None
    values: Mapping[str, Any]

    def etag(self) -> str:
        """A digest of the row, so that it needs neither triggers nor a log."""
        own = json.dumps(self.values, sort_keys=True, default=str).encode()
        return hashlib.blake2b((self.shape or b"") + b"\0" + own, digest_size=DIGEST).hexdigest()


class Table:
    """A layer's own table."""

    def __init__(self, engine: Engine, layer: Layer) -> None:
        self.engine, self.layer, self.place = engine, layer, engine.place(layer)
        self.columns = engine.columns(layer)
        self.key, self.geom = engine.named(layer.key), engine.named(layer.geom)
        self.names = {name: engine.named(name) for name in self.columns}

    def items(self, where: str, *values: object) -> list[Item]:
        """The features of a condition."""
        own = "".join(f", t.{name}" for name in self.names.values())
        of = f"t.{self.key}, {self.engine.shape_out(self.geom)}{own}"
        rows = self.engine.ask(f"SELECT {of} FROM {self.place} t {where}", *values)
        return [Item(row[0], self.engine.shape_read(row[1]), dict(zip(self.columns, map(plain, row[2:]))))
                for row in rows]

    def item(self, fid: int) -> Item:
        """One feature, or Unknown."""
        found = self.items(f"WHERE t.{self.key} = ?", fid)
        if not found:
            raise Unknown(f"{self.layer.name} has no feature {fid}")
        return found[0]

    def page(self, after: int, limit: int, box: Box | None = None) -> list[Item]:
        """So many features after one, by their keys: where a box is given those that were seen in it, or whose change
        is pending."""
        ordered = f"ORDER BY t.{self.key} LIMIT ?"
        if box is None:
            return self.items(f"WHERE t.{self.key} > ? {ordered}", after, limit)
        index = self.engine.named(self.layer.index())
        seen = f"SELECT id FROM {index} WHERE {self.engine.in_box} AND id > ? ORDER BY id LIMIT ?"
        waits = "SELECT fid FROM overlay_pending WHERE layer = ? AND fid > ?"
        return self.items(f"WHERE t.{self.key} IN (SELECT id FROM ({seen}) AS seen UNION {waits}) {ordered}",
                          *box, after, limit, self.layer.name, after, limit)

    def count(self) -> int:
        """How many features there are."""
        return int(self.engine.ask(f"SELECT count(*) FROM {self.place}")[0][0])

    def insert(self, fid: int | None, shape: bytes | None, values: Mapping[str, Any]) -> int:
        """A new feature; its key, which the database gives where none is said."""
        own = self._sets(shape, values, True) | ({self.key: ("?", fid)} if fid is not None else {})
        texts = ", ".join(text for text, _ in own.values())
        rows = self.engine.ask(f"INSERT INTO {self.place} ({', '.join(own)}) VALUES ({texts}) RETURNING {self.key}",
                               *[value for _, value in own.values()])
        return int(rows[0][0])

    def update(self, fid: int, shape: bytes | None, values: Mapping[str, Any], key: int | None = None,
               has_no_shape: bool = False) -> None:
        """Other values of some columns, another shape where one is given or it has none, and another key likewise."""
        own = self._sets(shape, values, has_no_shape) | ({self.key: ("?", key)} if key is not None else {})
        if own:
            sets = ", ".join(f"{name} = {text}" for name, (text, _) in own.items())
            self.engine.ask(f"UPDATE {self.place} SET {sets} WHERE {self.key} = ?",
                            *[one for _, one in own.values()], fid)

    def delete(self, fid: int) -> None:
        """A feature goes."""
        self.engine.ask(f"DELETE FROM {self.place} WHERE {self.key} = ?", fid)

    def _sets(self, shape: bytes | None, values: Mapping[str, Any], is_shaped: bool) -> dict[str, tuple[str, Any]]:
        """By the names of columns what is to stand there, as SQL has it and as a value."""
        unknown = values.keys() - self.names.keys()
        if unknown:
            raise Refused(f"{self.layer.name} has no {', '.join(sorted(unknown))}: it has {', '.join(self.columns)}")
        own = {self.names[name]: ("?", written(value)) for name, value in values.items()}
        if shape is not None or is_shaped:
            own[self.geom] = self.engine.shape_in(self.layer, shape)
        return own


def plain(value: object) -> Any:
    """A value of a column as JSON has it."""
    if isinstance(value, (bytes, memoryview)):
        return bytes(value).hex()
    if isinstance(value, decimal.Decimal):
        return int(value) if value == value.to_integral_value() else float(value)
    if isinstance(value, (datetime.date, datetime.time)):
        return value.isoformat()
    return str(value) if isinstance(value, (datetime.timedelta, uuid.UUID)) else value


def written(value: object) -> object:
    """A value of JSON as a column takes it."""
    return json.dumps(value) if isinstance(value, (list, dict)) else value
