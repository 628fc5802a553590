"""Reads and writes Well-Known Text: any geometry is read, with fractions, exponents, Z and M."""

import re
from collections.abc import Callable, Iterable
from decimal import Decimal, InvalidOperation
from typing import Any


TOKEN = re.compile(r"\s*(?:([A-Za-z]+)|([-+]?(?:\d+\.?\d*|\.\d+)(?:[eE][-+]?\d+)?)|([(),;=]))")


class WktFault(Exception):
    """A text that is no Well-Known Text."""


class Reader:
    """A text and the tokens that are left of it."""

    def __init__(self, text: str) -> None:
        self.text, self.at = text, 0
        self.systems: dict[str, None] = {}  # the numbers after SRID=, as keys
        self.kind: int | None = None
        self.word: Any = None
        self.advance()

    def advance(self) -> None:
        match = TOKEN.match(self.text, self.at)
        if match:
            self.at = match.end()
            self.kind, self.word = match.lastindex, match.group(match.lastindex or 0)
        elif self.text[self.at:].strip():
            raise WktFault(f"no token of a text at character {self.at}")
        else:
            self.kind, self.word = None, None

    def take(self, word: str) -> None:
        if self.word != word:
            raise WktFault(f"'{word}' expected before character {self.at}")
        self.advance()

    def items(self, item: Callable[[], Any]) -> list[Any]:
        """What item reads, once or more, parted by commas and in brackets."""
        self.take("(")
        found = [item()]
        while self.word == ",":
            self.advance()
            found.append(item())
        self.take(")")
        return found

    def position(self) -> list[Decimal]:
        numbers = []
        while self.kind == 2:
            numbers.append(Decimal(self.word))
            self.advance()
        if len(numbers) < 2:
            raise WktFault(f"two numbers expected before character {self.at}")
        return numbers

    def nested(self) -> list[Any]:
        """Positions in brackets of any depth; of a MULTIPOINT some are in brackets of their own."""
        if self.kind == 1 and self.word.upper() == "EMPTY":
            self.advance()
            return []
        if self.word == "(":
            return self.items(self.nested)
        return self.position()

    def geometry(self) -> tuple[str, list[Any]]:
        """The type in upper case, and the coordinates, or for a GEOMETRYCOLLECTION its geometries."""
        if self.kind != 1:
            raise WktFault(f"the word of a geometry expected before character {self.at}")
        kind = self.word.upper()
        self.advance()
        if self.kind == 1 and self.word.upper() in ("Z", "M", "ZM"):
            self.advance()
        if self.kind == 1 and self.word.upper() == "EMPTY":
            self.advance()
            return kind, []
        return kind, self.items(self.geometry if kind == "GEOMETRYCOLLECTION" else self.nested)

    def system(self) -> None:
        """The number of a coordinate system before a geometry, where it has one; 0 is none."""
        if self.kind == 1 and self.word.upper() == "SRID":
            self.advance()
            self.take("=")
            if self.kind != 2 or not self.word.isdigit():
                raise WktFault(f"a number expected before character {self.at}")
            if number := self.word.lstrip("0"):
                self.systems[number] = None
            self.advance()
            self.take(";")


def read_all(text: str) -> list[tuple[str, list[Any]]]:
    """The geometries of a text, one after the other; an SRID before one is passed over."""
    return read_with_systems(text)[0]


def read_with_systems(text: str) -> tuple[list[tuple[str, list[Any]]], list[str]]:
    """The geometries of a text, and the numbers of coordinate systems that SRIDs before them give, each once."""
    reader, found = Reader(text), []
    try:
        while reader.kind is not None:
            reader.system()
            found.append(reader.geometry())
    except (InvalidOperation, RecursionError) as fault:
        raise WktFault("a number or a nesting beyond all bounds") from fault
    return found, list(reader.systems)


def polygons_of(kind: str, coordinates: Any) -> list[Any] | None:
    """The polygons of a POLYGON or MULTIPOLYGON, each a list of rings; None for another type."""
    if kind == "POLYGON":
        return [coordinates] if coordinates else []
    if kind == "MULTIPOLYGON":
        return [polygon for polygon in coordinates if polygon]
    return None


def write(polygons: Iterable[Any], spell: Callable[[Any], str] = str) -> str:
    """A POLYGON where there is one, else a MULTIPOLYGON; spell writes a number."""
    texts = []
    for polygon in polygons:
        rings = (", ".join(f"{spell(x)} {spell(y)}" for x, y in ring) for ring in polygon)
        texts.append("(" + ", ".join(f"({ring})" for ring in rings) + ")")
    if not texts:
        return "MULTIPOLYGON EMPTY"
    return "POLYGON " + texts[0] if len(texts) == 1 else "MULTIPOLYGON (" + ", ".join(texts) + ")"
