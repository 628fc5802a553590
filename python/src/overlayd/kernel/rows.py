"""Replies of the program as arrays, as docs/FORMAT.md lays them out."""

from __future__ import annotations

import enum
from collections.abc import Sequence
from dataclasses import dataclass
from fractions import Fraction

import numpy as np

from ..geometry.flat_arrays import Numbers, offsets, owners
from .blocks import END, VERSION, Kind, Wants
from .columns import Column
from .shapes import column_of

MAGIC = b"OVFR"
HEAD, RING, NONE = 48, 16, 0xFFFFFFFF
PARTS = 2.0**40  # parts of a unit square; rows have twice the areas
WIDE = np.dtype([("low", "<u8"), ("high", "<i8")])  # a number of 16 bytes
PAIR = np.dtype([(name, "<u4") for name in ("fault", "relation", "is_proper", "pieces", "passes", "rings")] +
                [("nothing", "<u8")] + [(name, WIDE) for name in ("a", "b", "both", "bound")])
CELLS = np.dtype([(name, "<u4") for name in ("fault", "pieces", "passes", "rings")] +
                 [(name, WIDE) for name in ("both", "bound")])
POINT = np.dtype([("place", "<u4")])
KINDS = {Kind.PAIR: PAIR, Kind.CELLS: CELLS, Kind.LOCATE: POINT}
RINGS = np.dtype([(name, "<u4") for name in ("row", "outer", "corners", "nothing")])


def taken(rows: Numbers, places: Numbers) -> Numbers:
    """Some rows: by their bytes, as numpy takes rows that have fields field by field."""
    found: Numbers = rows.view(f"V{rows.itemsize}")[places].view(rows.dtype)
    return found


def rows_joined(parts: Sequence[Numbers]) -> Numbers:
    """The rows of several lists in one, likewise."""
    found: Numbers = np.concatenate([one.view(f"V{one.itemsize}") for one in parts]).view(parts[0].dtype)
    return found


class Relation(enum.IntEnum):
    """Of the first feature of a pair to the second."""

    DISJOINT = 0
    TOUCHES = 1
    OVERLAPS = 2
    WITHIN = 3
    CONTAINS = 4
    EQUALS = 5


class BlockRefused(Exception):
    """A block that the program refuses: the number of the fault, and the job that it names, or None."""

    def __init__(self, fault: int, job: int | None) -> None:
        super().__init__(f"block refused by {fault}" + ("" if job is None else f" of job {job}"))
        self.fault, self.job = fault, job


@dataclass(frozen=True)
class Rows:
    """The rows of one block, their rings, and the corners of these: doubles, or where fractions were asked for three
    numbers of 16 bytes."""

    kind: Kind
    rows: Numbers
    rings: Numbers
    corners: Numbers

    def faults(self) -> Numbers:
        """Of each job 0 or why it has no answer."""
        found: Numbers = self.rows["fault"]
        return found

    def areas(self, name: str = "both") -> Numbers:
        """Areas in square units, as the doubles next to them."""
        wide = self.rows[name]
        found: Numbers = (wide["high"] * 2.0**64 + wide["low"]) / PARTS / 2
        return found

    def exact(self, name: str, row: int) -> int:
        """Twice an area, or how far it may be off, in parts of 2^-40."""
        wide = self.rows[name][row]
        return (int(wide["high"]) << 64) + int(wide["low"])

    def outlines(self, factor: Fraction = Fraction(1)) -> Column:
        """The outline of each row as Well-Known Binary; of rows without rings an empty multipolygon. So many units are
        one of the map's."""
        counts = self.rows["rings"].astype(np.int64)
        outer, begin = self.rings["outer"].astype(np.int64), offsets(counts)[owners(counts)]
        whole = np.where(outer == NONE, -1, outer + begin)
        sizes = self.rings["corners"].astype(np.int64)
        return column_of(self.coordinates(0, factor), self.coordinates(1, factor), sizes, whole, counts)

    def coordinates(self, axis: int, factor: Fraction = Fraction(1)) -> Numbers:
        """The corners' coordinates by doubles, in units of the map."""
        found: Numbers = self.corners[:, axis]
        if found.dtype == WIDE:
            found = (found["high"] * 2.0**64 + found["low"]) / (
                self.corners[:, 2]["high"] * 2.0**64 + self.corners[:, 2]["low"])
        return found * float(factor.denominator) / float(factor.numerator)


def rows_of(reply: bytes) -> Rows:
    """The rows of a whole reply."""
    length = int.from_bytes(reply[:8], "little")
    version, kind, flags, rows, rings, corners, fault, job = np.frombuffer(reply, "<u4", 8, 12).tolist()
    if (length, reply[8:12], reply[-4:], version) != (len(reply), MAGIC, END, VERSION):
        raise ValueError("bytes that are no reply of this version")
    if fault:
        raise BlockRefused(fault, None if job == NONE else job)
    own, is_exact = KINDS[Kind(kind)], bool(flags & Wants.FRACTIONS)
    ring_at = HEAD + rows * own.itemsize
    corner_at = ring_at + rings * RING
    width = 3 if is_exact else 2
    found = np.frombuffer(reply, WIDE if is_exact else "<f8", corners * width, corner_at)
    return Rows(Kind(kind), np.frombuffer(reply, own, rows, HEAD), np.frombuffer(reply, RINGS, rings, ring_at),
                found.reshape(corners, width))
