"""Which features of two maps touch or overlap, how, and by how much: columns of Well-Known Binary in, rows out."""

from __future__ import annotations

from collections.abc import Iterable
from dataclasses import dataclass

import numpy as np

from ..geometry.flat_arrays import Numbers
from .asking import Areas, Ask
from .blocks import Wants, pair_blocks, within_blocks
from .box_pairs import pairs, pairs_within
from .columns import Column, columns_joined
from .exact import exact_areas
from .features import Features
from .laying import Laid, lay
from .rows import PAIR, Relation, rows_joined, taken


@dataclass(frozen=True)
class Overlay:
    """Rows of pairs of features, by the first, then the second one: those that have a common point, and those of which
    the program says by a number why it has no answer. Outlines are in coordinates of the maps, or None, and exact has
    twice the areas of what both have, in units of the grid, where fractions were asked for."""

    pairs: Numbers
    rows: Numbers
    outlines: Column | None
    laid: Laid
    exact: Numbers | None = None

    def __len__(self) -> int:
        return len(self.rows)

    def relations(self) -> Numbers:
        """Of each pair the number of its relation."""
        found: Numbers = self.rows["relation"]
        return found

    def areas(self, name: str = "both") -> Areas:
        """Areas of the first feature of each pair (a), of the second one (b), or of what they have in common (both)."""
        return Areas(self.rows[name], self.rows["bound"], self.laid.factor)

    def faults(self) -> Numbers:
        """The places of the rows without an answer."""
        found: Numbers = np.flatnonzero(self.rows["fault"])
        return found

    def part(self, places: Numbers) -> Overlay:
        """Some of the rows."""
        own = None if self.outlines is None else self.outlines.part(places)
        exact = None if self.exact is None else self.exact[places]
        return Overlay(self.pairs[places], taken(self.rows, places), own, self.laid, exact)


def overlay(a: Column, b: Column, ask: Ask) -> Overlay:
    """The rows of two maps."""
    laid = lay([a, b], ask.grid)
    first, second = laid.maps
    ask.look()
    asked = pairs(first.boxes(), second.boxes(), touching=True)
    return answered(asked, pair_blocks(first, second, asked, ask.wants, ask.size), laid, ask)


def overlay_within(laid: Laid, asked: Numbers, ask: Ask) -> Overlay:
    """The rows of pairs of one map that lies on its grid."""
    return answered(asked, within_blocks(laid.maps[0], asked, ask.wants, ask.size), laid, ask)


def pairs_in(features: Features, touching: bool = False) -> Numbers:
    """The pairs of a map whose boxes have a common part."""
    return pairs_within(features.boxes(), touching)


def answered(asked: Numbers, blocks: Iterable[bytes], laid: Laid, ask: Ask) -> Overlay:
    """What the program answers to pairs, but for those that have no common point."""
    rows, outlines, live, at = [np.zeros(0, PAIR)], [], [np.zeros(0, np.int64)], 0
    exact = [np.zeros(0, object)]
    for found in ask.rows(blocks, -(-len(asked) // ask.size)):
        own = np.flatnonzero((found.rows["relation"] != Relation.DISJOINT) | (found.rows["fault"] > 0))
        rows.append(taken(found.rows, own))
        live.append(own + at)
        at += len(found.rows)
        if ask.wants & Wants.OUTLINES:
            outlines.append(found.outlines(laid.factor).part(own))
        if ask.wants & Wants.FRACTIONS:
            exact.append(exact_areas(found)[own])
    column = columns_joined(outlines) if ask.wants & Wants.OUTLINES else None
    twice = np.concatenate(exact) if ask.wants & Wants.FRACTIONS else None
    return Overlay(asked[np.concatenate(live)], rows_joined(rows), column, laid, twice)
