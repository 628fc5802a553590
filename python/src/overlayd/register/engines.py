"""What a register asks of a database: the same of a GeoPackage and of PostGIS."""

from __future__ import annotations

import functools
import hashlib
from collections.abc import Iterable, Sequence
from contextlib import AbstractContextManager
from dataclasses import dataclass
from typing import Any, Protocol

import numpy as np

from ..geometry.flat_arrays import Numbers
from ..kernel.columns import Column, of_bytes
from .model import Kept, Layer

DIGEST = 12  # bytes
Row = tuple[Any, ...]


@dataclass(frozen=True)
class Found:
    """Features as a layer has them, by their keys: Well-Known Binary, and how users call them."""

    fids: list[int]
    shapes: list[bytes | None]
    idents: list[str | None]

    def column(self) -> Column:
        return of_bytes(self.shapes)

    @functools.cached_property
    def digests(self) -> list[bytes]:
        """What tells each from what it was."""
        return [digest(shape, ident) for shape, ident in zip(self.shapes, self.idents)]

    def part(self, keeps: Sequence[bool] | Numbers) -> Found:
        """Some of them."""
        own = np.flatnonzero(keeps).tolist()
        if len(own) == len(self.fids):
            return self
        return Found([self.fids[place] for place in own], [self.shapes[place] for place in own],
                     [self.idents[place] for place in own])

    def and_then(self, other: Found) -> Found:
        """These, and others after them."""
        return Found(self.fids + other.fids, self.shapes + other.shapes, self.idents + other.idents)


NOTHING = Found([], [], [])


def digest(shape: bytes | None, ident: str | None) -> bytes:
    """A digest of a feature."""
    own = b"" if ident is None else b"\0" + ident.encode()
    return hashlib.blake2b((shape or b"") + own, digest_size=DIGEST).digest()


class Engine(Protocol):
    """A database with layers in it, by one connection."""

    @property
    def busy(self) -> tuple[type[Exception], ...]:
        """What is raised where others are in the way."""

    @property
    def unfit(self) -> tuple[type[Exception], ...]:
        """What is raised where a table does not take a value."""

    def ask(self, text: str, *values: object) -> list[Row]:
        """The rows of a statement."""

    def many(self, text: str, rows: Iterable[Sequence[object]]) -> None:
        """A statement for each row of values."""

    def named(self, name: str) -> str:
        """A name as statements have it."""

    def reading(self) -> AbstractContextManager[None]:
        """A transaction that sees one state."""

    def writing(self) -> AbstractContextManager[None]:
        """A transaction that writes, and is undone where it is left by a fault."""

    def is_register(self) -> bool:
        """Whether the tables of a register are there."""

    def begin(self) -> None:
        """Makes the tables of a register."""

    def make_functions(self) -> None:
        """Makes the functions that triggers call, where they call any."""

    def create(self, name: str, columns: str, is_listed: bool) -> None:
        """Makes a table; for people, or for the register alone."""

    def drop(self, name: str) -> None:
        """Takes a table away, where it is there."""

    def schema(self) -> int:
        """Another number after each change of the schema."""

    def layer(self, name: str, ident: str | None) -> Layer:
        """A layer by the database's own tables, or Refused."""

    def make_index(self, layer: Layer) -> None:
        """Makes the table of what is seen of a layer."""

    def arm(self, layer: Layer) -> None:
        """Makes the triggers of a layer anew."""

    def disarm(self, layer: Layer) -> None:
        """Takes the triggers of a layer away."""

    def is_armed(self, layer: Layer) -> bool:
        """Whether the triggers of a layer are as they are made."""

    def others(self, layer: Layer) -> list[str]:
        """The triggers of a layer that are neither the register's nor those of every GeoPackage."""

    def may_write(self, layer: Layer) -> bool:
        """Whether who asks may change a layer."""

    def show_violations(self, layer: Layer) -> None:
        """Makes the layer in which violations are looked at, in the system of a layer, where it is not there."""

    def features(self, layer: Layer, where: str = "") -> Found:
        """Features of a layer, all or some, by their keys."""

    def features_near(self, layer: Layer, waits: bool = False) -> Found:
        """The features of a layer that were seen near the boxes of overlay_boxes, and where waits all whose change is
        pending."""

    def editing(self, who: str | None) -> AbstractContextManager[int]:
        """A transaction that writes layers, of which one is done at a time, with who does it; the number of its change
        in the log."""

    @property
    def in_box(self) -> str:
        """The condition that what was seen lies in a box: least x, least y, greatest x, greatest y."""

    def place(self, layer: Layer) -> str:
        """The table of a layer as statements have it."""

    def columns(self, layer: Layer) -> list[str]:
        """The columns of a layer beside its key and its geometries."""

    def shape_out(self, column: str) -> str:
        """A geometry of the table t as statements ask for it."""

    def shape_read(self, value: Any) -> bytes | None:
        """The Well-Known Binary of what they get."""

    def shape_in(self, layer: Layer, shape: bytes | None) -> tuple[str, object]:
        """Well-Known Binary as statements write it into a layer, and the value that they are given."""

    def system(self, layer: Layer) -> str | None:
        """The coordinate system of a layer, as EPSG:25832; None where it has no name."""

    def second(self) -> Engine:
        """Another connection."""

    def token(self) -> object:
        """Another value after another connection has committed."""

    def is_replaced(self) -> bool:
        """Whether another database has its name now."""

    def wait(self, seconds: float) -> None:
        """Waits for a change, so long at most."""

    def hold(self) -> None:
        """Has those who read be in the way of nobody who writes, where that is to be asked for."""

    def settle(self) -> None:
        """Has all that is written stand where it is to be, as far as nobody else is in the way."""

    def close(self) -> None:
        """Ends the connection."""


def filled(engine: Engine, text: str, kept: Kept | None = None, layer: Layer | None = None) -> str:
    """A statement with its names."""
    names = {}
    if kept is not None:
        names["result"] = engine.named(kept.table())
    if layer is not None:
        names |= {"index": engine.named(layer.index()), "key": engine.named(layer.key), "place": engine.place(layer)}
    return text.format(**names)
