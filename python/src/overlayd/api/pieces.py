"""The pieces of two maps, and what is wrong in one, with outlines: columns in, rows out, without GeoDataFrames."""

from collections.abc import Iterator, Sequence
from dataclasses import dataclass
from typing import NamedTuple

import numpy as np

from ..kernel import Ask, Wants, check, overlay
from ..kernel.cell_jobs import Spell, minus
from ..kernel.columns import Column
from ..kernel.membership import overlapping
from ..kernel.overlaying import Overlay, overlay_within
from ..kernel.polygons import Polygons
from ..kernel.rows import Relation
from . import cells
from .asking import NoAnswer

HOWS = ["intersection", "union", "identity", "symmetric_difference", "difference"]
COMMON, OF_FIRST, OF_SECOND = HOWS[:3], HOWS[1:], [HOWS[1], HOWS[3]]  # what wants what both have, what each has alone


class Piece(NamedTuple):
    """A piece: its features, or None where it is of one map alone, its area and by how much it may be off, its outline.
    """

    first: int | None
    second: int | None
    area: float
    bound: float
    outline: bytes


@dataclass(frozen=True)
class Pieces:
    """All pairs that have a common point, with outlines where these are wanted, and what features of each map have
    alone, or None where that is not wanted."""

    both: Overlay
    first: cells.Cells | None
    second: cells.Cells | None

    def touches(self) -> int:
        """How many pairs have points or edges in common, and no area."""
        return int((self.both.relations() == Relation.TOUCHES).sum())

    def rows(self) -> Iterator[Piece]:
        """All pieces: what both have, then what each has alone."""
        if self.both.outlines is not None:
            own = self.both.part(np.flatnonzero(self.both.relations() >= Relation.OVERLAPS))
            assert own.outlines is not None
            measures = own.areas().doubles().tolist(), own.areas().bounds().tolist(), own.outlines.to_list()
            for (a, b), *rest in zip(own.pairs.tolist(), *measures):
                yield Piece(a, b, *rest)
        for found, is_first in ((self.first, True), (self.second, False)):
            if found is not None and found.outlines is not None:
                areas, bounds = found.areas().doubles().tolist(), found.areas().bounds().tolist()
                for feature, *rest in zip(found.jobs.tolist(), areas, bounds, found.outlines.to_list()):
                    yield Piece(feature, None, *rest) if is_first else Piece(None, feature, *rest)


@dataclass(frozen=True)
class Checked:
    """The overlaps and the gaps of a map, with outlines, the largest first, and whether all areas sum up."""

    overlaps: Overlay
    gaps: Polygons
    closes: bool


def pieces(a: Column, b: Column, how: str, ask: Ask, *names: Sequence[object]) -> Pieces:
    """The pieces of two maps that an overlay of a kind has, all of which have to have an answer; names are what
    features are called in a refusal."""
    found = all_pieces(a, b, how, ask)
    answered(found.both, *names)
    for own in (found.first, found.second):
        if own is not None:
            own.answered()
    return found


def all_pieces(a: Column, b: Column, how: str, ask: Ask) -> Pieces:
    """The same with those without an answer."""
    rows = overlay(a, b, ask.stage(0, 0.5, ask.wants if how in COMMON else Wants.NOTHING))
    first = alone(rows, 0, ask.stage(0.5, 0.75, ask.wants)) if how in OF_FIRST else None
    return Pieces(rows, first, alone(rows, 1, ask.stage(0.75, 1, ask.wants)) if how in OF_SECOND else None)


def alone(rows: Overlay, side: int, ask: Ask, spell: Spell = minus) -> cells.Cells:
    """What each feature of one map has alone; or by `within` what it shares with any of the other."""
    laid, lie = rows.laid, overlapping(rows).pairs
    pairs = lie[np.lexsort((lie[:, 0], lie[:, 1]))][:, ::-1] if side else lie
    layers = cells.layers_of(laid, 1 - side, ask.stage(0, 0.5))
    return cells.with_others(laid.maps[side], laid.maps[1 - side], pairs, layers, spell, laid,
                             ask.stage(0.5, 1, ask.wants))


def answered(rows: Overlay, *names: Sequence[object]) -> Overlay:
    """Rows of which all have an answer."""
    faults = rows.faults()
    if len(faults):
        called = [str(own[place]) for own, place in zip(names, rows.pairs[faults[0]].tolist())]
        raise NoAnswer(f"features {' and '.join(called)}", int(rows.rows["fault"][faults[0]]))
    return rows


def checked(column: Column, ask: Ask, names: Sequence[object]) -> Checked:
    """What is wrong in a map."""
    found = check(column, ask.stage(0, 0.8, ask.wants))
    answered(found.unanswered, names, names)
    rows = answered(overlay_within(found.own.laid, found.overlaps.pairs, ask.stage(0.8, 1, ask.wants)), names, names)
    assert found.gaps is not None
    overlaps = rows.part(np.argsort(-rows.areas().doubles(), kind="stable"))
    return Checked(overlaps, found.gaps.part(np.argsort(-found.gaps.areas, kind="stable")), found.audit.closes())
