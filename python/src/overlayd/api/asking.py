"""How the functions ask: which program, and which grid, by the words of who calls them."""

import contextlib
from collections.abc import Iterator
from fractions import Fraction

from ..grid_pass.default_grid import Unit
from ..kernel import Ask, Grid, Wants
from ..kernel.rows import BlockRefused
from ..program_files import FEATURES, found_program

UNREADABLE = 76  # the fault of a block
GridSize = float | str | Fraction | Grid | None


WORDS = {UNREADABLE: "the expression cannot be read"}


class NotInMetres(ValueError):
    """Areas are asked for in square metres, and coordinates count another unit: the way to go says how they would."""

    def __init__(self, unit: str | None, way: str) -> None:
        super().__init__(f"no areas in square metres: the unit of the coordinates is {unit or 'not known'}; bring the "
                         f"maps to a system in metres first, as by {way}, whose areas are true")


def need_metres(unit: str | None, way: str) -> None:
    """Refuses coordinates of another unit than the metre, before anything is asked."""
    if unit not in ("metre", "meters"):
        raise NotInMetres(unit, way)


class NoAnswer(Exception):
    """The program has no answer to some features, or to a whole question: by the number of a fault."""

    def __init__(self, which: str, fault: int) -> None:
        super().__init__(f"{which}: {WORDS.get(fault, 'the program has no answer')} (fault {fault} of docs/FORMAT.md)")
        self.fault = fault


def grid_of(size: GridSize, unit: Unit) -> Grid:
    """The grid of a size in units of the maps, as 0.001 or "1/3"; the default one where none is said."""
    if size is None or isinstance(size, Grid):
        return size or Grid(unit=unit)
    try:
        exact = Fraction(size if isinstance(size, str | Fraction) else repr(float(size)))
    except (ValueError, ZeroDivisionError):
        exact = Fraction(0)
    if exact <= 0:
        raise ValueError(f"grid_size: {size!r} is no number above 0, as 0.001")
    return Grid(1 / exact, unit)


def asked(program: str | None, size: GridSize, unit: Unit, wants: Wants) -> Ask:
    """What is asked of the program."""
    return Ask(program or found_program(FEATURES), wants, grid_of(size, unit))


@contextlib.contextmanager
def refusals_told(of: str) -> Iterator[None]:
    """Says of what a question is that the program refuses whole."""
    try:
        yield
    except BlockRefused as refused:
        raise NoAnswer(of, refused.fault) from None
