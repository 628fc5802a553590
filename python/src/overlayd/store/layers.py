"""The layers of a store as the program lists them, and the boundaries that it gives of them."""

import hashlib
import re
from collections.abc import Iterable, Mapping
from dataclasses import dataclass, field

from ..ending import Unusable
from ..files.rounding import Ring
from ..program import COLUMNS, Layer, Piece, Session, edges_lines

NAME = "[A-Za-z][A-Za-z0-9_]*"
Columns = list[list[Piece] | str]  # of each column the pieces, or why it has none to give


@dataclass
class Layers:
    """The layers of a store: all names in their order, the rings of base layers, the expressions of derived ones."""

    order: list[str] = field(default_factory=list)
    base: dict[str, list[Ring]] = field(default_factory=dict)
    definitions: dict[str, str] = field(default_factory=dict)
    version: int = 0

    @classmethod
    def of(cls, listed: Iterable[Layer], version: int = 0) -> "Layers":
        """The layers of a reply to LAYERS."""
        found = list(listed)
        return cls([one.name for one in found],
                   {one.name: rings_of_text(one.text) for one in found if one.text is not None},
                   {one.name: one.definition for one in found if one.definition is not None}, version)

    def reach(self, name: str) -> set[str]:
        """The layer itself and all that its definition names, directly or through others."""
        found: set[str] = set()
        left = [name]
        while left:
            layer = left.pop()
            if layer not in found:
                found.add(layer)
                left.extend(names_in(self.definitions.get(layer, "")))
        return found

    def base_in_reach(self, name: str) -> list[str]:
        reached = self.reach(name)
        return [layer for layer in self.base if layer in reached]

    def unnamed(self) -> list[str]:
        """The layers that no definition names."""
        named = {name for text in self.definitions.values() for name in names_in(text)}
        return [name for name in self.order if name not in named]

    def last(self) -> str:
        """The last derived layer, or where there is none the last base layer."""
        return next(name for name in reversed(self.order) if name in self.definitions or not self.definitions)


def names_in(expression: str) -> list[str]:
    return re.findall(NAME, expression)


def command_of(layer: Layer) -> str:
    """The line that makes a layer again."""
    return f"PUT {layer.name} {layer.text}" if layer.definition is None else f"DEFINE {layer.name} = {layer.definition}"


def rings_of_text(text: str) -> list[Ring]:
    """The rings of a layer's text, as LAYERS writes it."""
    rings = re.findall(r"\(([-0-9 ,]+)\)", text)
    return [[(int(x), int(y)) for x, y in (point.split() for point in ring.split(","))] for ring in rings]


def digest_of(rings: Iterable[Iterable[tuple[int, int]]]) -> str:
    """What tells the rings of a base layer from those of another."""
    text = ";".join(",".join(f"{x} {y}" for x, y in ring) for ring in rings)
    return hashlib.sha256(text.encode()).hexdigest()[:16]


def digests(base: Mapping[str, Iterable[Iterable[tuple[int, int]]]]) -> dict[str, str]:
    """What tells base layers from others, for the scale that is written with them."""
    return {name: digest_of(rings) for name, rings in base.items()}


def columns_of(session: Session, name: str, before: Iterable[str] = ()) -> Columns:
    """The columns of a derived layer once it is built; lines that make layers go before, and must be accepted."""
    made = list(before)
    replies = list(session.answers([*made, f"WAIT {name}", *edges_lines(name, range(COLUMNS))]))
    for line, reply in zip(made, replies):
        if reply.refusal:
            raise Unusable(f"{shortened(line)}: {reply.refusal}")
    return [str(reply.refusal) if reply.refusal else reply.pieces() for reply in replies[len(made) + 1:]]


def shortened(line: str) -> str:
    """The first two words of a line, as they show what it was for."""
    words = line.split()
    return " ".join(words[:2]) + " .." * (len(words) > 2)


def pieces_of(columns: Columns) -> tuple[list[Piece], list[tuple[int, str]]]:
    """All pieces of a layer, and the columns that gave none, each with the reason."""
    pieces = [piece for column in columns if not isinstance(column, str) for piece in column]
    return pieces, [(number, column) for number, column in enumerate(columns) if isinstance(column, str)]
