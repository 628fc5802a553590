"""How questions are asked of the program, and how its areas are told in units of the maps."""

import dataclasses
from collections.abc import Callable, Iterable, Iterator
from dataclasses import dataclass, field
from fractions import Fraction

import numpy as np

from ..geometry.flat_arrays import Numbers
from .blocks import PAIRS, Wants
from .laying import Grid
from .rows import PARTS, Rows
from .running import Cancelled, Runs, run

LAST_PLACES = 4  # by which arithmetic of doubles may be off


def never_stops(part: float) -> bool:
    """Goes on to the end."""
    return True


@dataclass(frozen=True)
class Ask:
    """The program; what rows are to have; which grid; what is asked, with how much is done from 0 to 1, whether to go
    on; how many pairs a block has; and by what blocks are done: one program, or as `several` of running.py says."""

    program: str
    wants: Wants = Wants.NOTHING
    grid: Grid = field(default_factory=Grid)
    goes_on: Callable[[float], bool] = never_stops
    size: int = PAIRS
    runs: Runs = run

    def stage(self, begin: float, end: float, wants: Wants = Wants.NOTHING) -> "Ask":
        """The same for a stage of the work, which ends when so much of the whole is done."""
        return dataclasses.replace(self, wants=wants, goes_on=lambda part: self.goes_on(begin + part * (end - begin)))

    def look(self, part: float = 0.0) -> None:
        """Raises Cancelled where the work is not to go on."""
        if not self.goes_on(part):
            raise Cancelled

    def rows(self, blocks: Iterable[bytes], count: int) -> Iterator[Rows]:
        """The rows of so many blocks."""
        return self.runs(self.program, blocks, lambda done: self.goes_on(min(1.0, done / max(1, count))))


@dataclass(frozen=True)
class Areas:
    """Twice areas of a grid in parts of 2^-40 of its unit square, as numbers of 16 bytes, and by how many parts each
    may be off; so many units of the grid are one of the map."""

    parts: Numbers
    off: Numbers
    factor: Fraction

    def __len__(self) -> int:
        return len(self.parts)

    def whole(self, place: int) -> int:
        """One as it is: twice the area in parts."""
        return whole_of(self.parts[place])

    def exact(self, place: int) -> Fraction:
        """One in square units of the map, exactly as far as its bound says."""
        return Fraction(self.whole(place), 2**41) / self.factor**2

    def bound(self, place: int) -> Fraction:
        """By how much that may be off at most: 0 where all corners are whole."""
        return Fraction(whole_of(self.off[place]), 2**41) / self.factor**2

    def doubles(self) -> Numbers:
        """All in square units of the map."""
        return self._in_units(self.parts)

    def bounds(self) -> Numbers:
        """By how much these doubles may be off at most, by their own rounding too."""
        found = self._in_units(self.off) * (1 + 2.0**-50)
        found += LAST_PLACES * np.spacing(self.doubles())
        return found

    def sum(self) -> int:
        """All together, in parts."""
        return sum_of(self.parts)

    def sum_off(self) -> int:
        """By how much that may be off."""
        return sum_of(self.off)

    def total(self) -> Fraction:
        """All together, in square units of the map."""
        return Fraction(self.sum(), 2**41) / self.factor**2

    def total_bound(self) -> Fraction:
        """By how much that may be off."""
        return Fraction(self.sum_off(), 2**41) / self.factor**2

    def part(self, places: Numbers) -> "Areas":
        """Some of them."""
        return Areas(self.parts[places], self.off[places], self.factor)

    def _in_units(self, wide: Numbers) -> Numbers:
        """Parts in square units of the map: rounded once where a factor of whole numbers is below 2^26."""
        square = self.factor**2
        found: Numbers = doubles_of(wide) * float(square.denominator) / (float(square.numerator) * PARTS * 2)
        return found


def whole_of(wide: Numbers) -> int:
    """A number of 16 bytes."""
    return (int(wide["high"]) << 64) + int(wide["low"])


def doubles_of(wide: Numbers) -> Numbers:
    """Numbers of 16 bytes as the doubles near them."""
    found: Numbers = wide["high"] * 2.0**64 + wide["low"]
    return found


def sum_of(wide: Numbers) -> int:
    """The sum of numbers of 16 bytes."""
    low, high = wide["low"], wide["high"]
    words = [np.add.reduce((low >> np.uint64(32 * place)) & np.uint64(0xFFFFFFFF), dtype=np.uint64) for place in (0, 1)]
    tops = [np.add.reduce(own, dtype=np.int64) for own in (high & 0xFFFFFFFF, high >> 32)]
    return sum(int(own) << 32 * place for place, own in enumerate([*words, *tops]))
