"""What a register has: layers, what is kept of them, its state, and why it refuses."""

import enum
import re
from dataclasses import dataclass
from fractions import Fraction

FORM = 3  # the version of the tables
NAME = re.compile(r"[A-Za-z][A-Za-z0-9_]{0,47}")
WORD = re.compile(r'"[^"]*"|[^\W\d]\w*|\S')
MARKS = {"(", ")", "&", "|", "-", "^"}


class Refused(Exception):
    """What a register does not do, and why."""


class Kind(enum.Enum):
    """What a table of results has: pairs of two layers that touch or overlap, pairs of one layer that overlap, or the
    areas of an expression over layers, cell by cell."""

    PAIRS = "pairs"
    CHECK = "check"
    DERIVE = "derive"


@dataclass(frozen=True)
class Layer:
    """A layer: its table, the columns of its geometry and of its key, and the one by which users call its features."""

    name: str
    geom: str
    key: str
    ident: str | None = None

    def index(self) -> str:
        """The table of what the register saw of it."""
        return f"overlay_index_{self.name}"


@dataclass(frozen=True)
class Kept:
    """What is kept: the layers of pairs, or an expression and how many units of the grid a cell is wide."""

    name: str
    kind: Kind
    a: str | None = None
    b: str | None = None
    expression: str | None = None
    cell: int = 0

    def layers(self) -> list[str]:
        """The layers that it depends on, each once."""
        if self.expression is not None:
            return names_in(self.expression)
        return list(dict.fromkeys(one for one in (self.a, self.b) if one is not None))

    def table(self) -> str:
        """The table of its rows."""
        return f"overlay_result_{self.name}"


class Must(enum.Enum):
    """What features of a layer must or must not, in the words of QGIS and of ESRI."""

    NOT_OVERLAP = "must not overlap"
    NOT_OVERLAP_WITH = "must not overlap with"
    NOT_HAVE_GAPS = "must not have gaps"
    BE_COVERED = "must be covered by"

    def has_other(self) -> bool:
        """Whether it is of two layers."""
        return self in (Must.NOT_OVERLAP_WITH, Must.BE_COVERED)


@dataclass(frozen=True)
class Rule:
    """A rule: its number, its layer and the other one, how wide in units of the layers what is refused is at least, and
    how many units of the grid wide and high a gap is at most."""

    number: int
    must: Must
    a: str
    b: str | None
    least: float
    reach: int

    def layers(self) -> list[str]:
        """The layers that it is of."""
        return [self.a] if self.b is None else [self.a, self.b]

    def __str__(self) -> str:
        return " ".join([self.a, self.must.value, *([self.b] if self.b is not None else [])])


@dataclass(frozen=True)
class State:
    """The version of the layers that results are of, when it was made, the version of the schema that was looked
    through, and how many units of the grid are one of the layers'."""

    form: int
    version: int
    at: str | None
    schema_was: int
    factor: Fraction


def names_in(expression: str) -> list[str]:
    """The layers that an expression names, in order."""
    words = (word.strip('"') for word in WORD.findall(expression) if word not in MARKS)
    return sorted(set(words))


def spelled(expression: str, names: dict[str, str]) -> str:
    """An expression with other words for its layers."""
    words = WORD.findall(expression)
    return " ".join(word if word in MARKS else names[word.strip('"')] for word in words)


def factor_of(grid: str) -> Fraction:
    """How many units one of a layer's is, of a grid as people write it: 0.001."""
    try:
        unit = Fraction(grid)
    except (ValueError, ZeroDivisionError):
        raise Refused(f"{grid} is no grid: a number, as 0.001") from None
    if unit <= 0:
        raise Refused(f"{grid} is no grid: it is to be more than 0")
    return 1 / unit
