"""One expression for each of many features with those near it: what it has alone, or in common with any of another map;
and unions of groups. In features on their grid, without GeoDataFrames."""

from __future__ import annotations

from dataclasses import dataclass

import numpy as np

from ..geometry.flat_arrays import Numbers, offsets, owners
from ..kernel.asking import Areas, Ask
from ..kernel.blocks import Wants
from ..kernel.cell_jobs import Jobs, Spell, blocks, of_members, union, within
from ..kernel.columns import Column, columns_joined
from ..kernel.features import Features, joined
from ..kernel.laying import Laid
from ..kernel.membership import Members, members_of, overlapping
from ..kernel.overlaying import overlay_within, pairs_in
from ..kernel.rows import CELLS, rows_joined, taken
from .asking import NoAnswer


@dataclass(frozen=True)
class Cells:
    """What was found: the places of the jobs that have an area, or no answer, their rows, and outlines where these were
    asked for."""

    jobs: Numbers
    rows: Numbers
    outlines: Column | None
    laid: Laid

    def __len__(self) -> int:
        return len(self.jobs)

    def areas(self) -> Areas:
        return Areas(self.rows["both"], self.rows["bound"], self.laid.factor)

    def faults(self) -> Numbers:
        """The places of those without an answer."""
        found: Numbers = np.flatnonzero(self.rows["fault"])
        return found

    def part(self, places: Numbers) -> Cells:
        """Some of them."""
        own = None if self.outlines is None else self.outlines.part(places)
        return Cells(self.jobs[places], taken(self.rows, places), own, self.laid)

    def answered(self) -> Cells:
        """The same, all of which have to have an answer."""
        for place in self.faults().tolist():
            raise NoAnswer(f"job {self.jobs[place]}", int(self.rows["fault"][place]))
        return self


def replied(features: Features, jobs: Jobs, spell: Spell, laid: Laid, ask: Ask) -> Cells:
    """What the program replies, but for jobs of which the expression has no area."""
    found, rows, outlines, at = [np.zeros(0, np.int64)], [np.zeros(0, CELLS)], [], 0
    for some in ask.rows(blocks(features, jobs, spell, ask.wants, ask.size), -(-len(jobs.counts) // ask.size)):
        own = np.flatnonzero((some.rows["pieces"] > 0) | (some.faults() > 0))
        found.append(own + at)
        rows.append(taken(some.rows, own))
        at += len(some.rows)
        if ask.wants & Wants.OUTLINES:
            outlines.append(some.outlines(laid.factor).part(own))
    column = columns_joined(outlines) if ask.wants & Wants.OUTLINES else None
    return Cells(np.concatenate(found), rows_joined(rows), column, laid)


def layers_of(laid: Laid, number: int, ask: Ask, groups: Numbers | None = None) -> Members:
    """In which layers the features of a map are, with one layer left; or where there are groups those of each."""
    one = laid.alone(number)
    near = pairs_in(one.maps[0])
    if groups is not None:
        near = near[groups[near[:, 0]] == groups[near[:, 1]]]
    return members_of(one.maps[0], overlapping(overlay_within(one, near, ask)), ask)


def with_others(own: Features, others: Features, pairs: Numbers, members: Members, spell: Spell, laid: Laid,
                ask: Ask) -> Cells:
    """An expression of each feature that has corners, or by `within` of each that has a pair, with those of another
    map with which it has an area in common, by the layers of these. The jobs found are places of features."""
    places = np.unique(pairs[:, 0]) if spell is within else np.flatnonzero(own.points() > 0)
    place, layer = members.spread(pairs[:, 1])
    who = np.concatenate([np.arange(len(places)), np.searchsorted(places, pairs[place, 0])])
    features = np.concatenate([places, len(own) + pairs[place, 1]])
    layers = np.concatenate([np.zeros(len(places), np.int64), 1 + layer])
    jobs = of_members(own.boxes()[places], who, features, layers)
    found = replied(joined([own, others]), jobs, spell, laid, ask)
    return Cells(places[found.jobs], found.rows, found.outlines, laid)


def united(features: Features, groups: Numbers, members: Members, laid: Laid, ask: Ask) -> Cells:
    """The union of each group of features, by a number for each, or -1 for what is in none. The jobs found are numbers
    of groups."""
    live = np.flatnonzero((groups >= 0) & (features.points() > 0))
    order = live[np.argsort(groups[live], kind="stable")]
    numbers, counts = np.unique(groups[order], return_counts=True)
    boxes, begins = features.boxes()[order], offsets(counts)[:-1]
    low, high = boxes[:, :2], boxes[:, 2:]
    around = np.zeros((0, 4), np.int64)
    if len(numbers):
        around = np.concatenate([np.minimum.reduceat(low, begins), np.maximum.reduceat(high, begins)], axis=1)
    place, layer = members.spread(order)
    jobs = of_members(around, owners(counts)[place], order[place], layer)
    found = replied(features, jobs, union, laid, ask)
    return Cells(numbers[found.jobs], found.rows, found.outlines, laid)
