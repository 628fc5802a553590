"""What the program answers, as rows of tables. What it refuses is a row without an area, and holds up no other."""

from __future__ import annotations

import dataclasses
from collections.abc import Callable, Iterator
from dataclasses import dataclass
from fractions import Fraction

import numpy as np

from ..geometry.flat_arrays import Numbers, after_of, offsets, owners
from ..kernel.asking import Areas, Ask, doubles_of, whole_of
from ..kernel.blocks import Asked, Kind, Wants, block, cells_job, pair_blocks
from ..kernel.box_pairs import pairs, pairs_within
from ..kernel.colouring import TooManyColours, colours
from ..kernel.columns import columns_joined, of_bytes
from ..kernel.features import Features, joined, of_rings
from ..kernel.laying import Laid
from ..kernel.overlaying import Overlay, answered
from ..kernel.rows import PAIR, BlockRefused, Relation, Rows
from ..kernel.running import ProgramEnded
from ..kernel.spelling import LAYERS, name_of
from .model import Refused, spelled
from .taking import Problem, Taken

NO_ANSWER = "no answer"
CORE = "Core"  # what an expression calls all of a core
CELLS_AT_ONCE = 1000
SQUARE = of_rings(np.array([0, 1, 1, 0]), np.array([0, 0, 1, 1]), np.array([4]), np.array([1]))
Pair = tuple[int, int, str, float | None, float | None]
"""Places of two features, their relation, the common area and by how much it may be off."""
Cell = tuple[int, int, float | None, float | None]
"""The numbers of a cell, an area within it and by how much it may be off."""
Apart = Callable[[Features], Numbers]
"""The pairs of features that are not to be in one layer."""


@dataclass(frozen=True)
class Program:
    """How questions are asked of the program, and how many units of the grid are one of the layers'."""

    ask: Ask
    factor: Fraction

    def pairs(self, a: Features, b: Features, asked: Numbers) -> Iterator[list[Pair]]:
        """The rows of pairs of features that have a common point."""
        for at in range(0, len(asked), self.ask.size):
            yield rows_of(self.overlay(a, b, asked[at : at + self.ask.size]))

    def overlay(self, a: Features, b: Features, asked: Numbers, wants: Wants = Wants.NOTHING) -> Overlay:
        """The same as the kernel has them. Where the program refuses a block, or ends, its halves are asked."""
        laid, ask = Laid([], self.factor, "", []), dataclasses.replace(self.ask, wants=wants)
        if not len(asked):
            return Overlay(asked, np.zeros(0, PAIR), of_bytes([]), laid)
        try:
            return answered(asked, pair_blocks(a, b, asked, wants, self.ask.size), laid, ask)
        except (BlockRefused, ProgramEnded) as fault:
            if len(asked) == 1:
                self.need_to_work(fault)
                row = np.zeros(1, PAIR)
                row["fault"] = fault.fault if isinstance(fault, BlockRefused) else 1
                return Overlay(asked, row, of_bytes([None]), laid)
            halves = [self.overlay(a, b, own, wants) for own in np.array_split(asked, 2)]
            outlines = columns_joined([one.outlines for one in halves if one.outlines is not None])
            return Overlay(np.concatenate([one.pairs for one in halves]), np.concatenate([one.rows for one in halves]),
                           outlines, laid)

    def need_to_work(self, fault: Exception) -> None:
        """Refuses to go on where the program does not answer what it can."""
        own: Numbers = np.zeros((1, 2), np.int64)
        try:
            answered(own, pair_blocks(SQUARE, SQUARE, own), Laid([], self.factor, "", []), self.ask)
        except (BlockRefused, ProgramEnded):
            raise Refused(f"the program does not answer: {fault}") from None

    def accepted(self, taken: Taken) -> Taken:
        """Features without those that the program refuses; that some cross themselves is told."""
        live = np.flatnonzero(taken.is_live())
        found = self.overlay(taken.features, taken.features, np.stack([live, live], axis=1))
        refused = found.rows["fault"] > 0
        whole = found.areas("a")
        simple = outlined(taken)[found.pairs[:, 0]]
        crosses = doubles_of(whole.parts) != simple * 2.0**40
        for row in np.flatnonzero(crosses):
            crosses[row] = abs(whole.whole(row) - (int(simple[row]) << 40)) > whole_of(whole.off[row])
        told = [*taken.told, *((int(place), Problem.CROSSING.value) for place in found.pairs[crosses & ~refused, 0])]
        nothing = np.setdiff1d(live, found.pairs[:, 0])
        own = dataclasses.replace(taken, told=told).without(nothing, Problem.NO_AREA.value)
        for fault in np.unique(found.rows["fault"][refused]).tolist():
            own = own.without(found.pairs[found.rows["fault"] == fault, 0], f"{Problem.NO_ANSWER.value} ({fault})")
        return own

    def cells(self, maps: dict[str, Features], expression: str, cells: Numbers, width: int) -> Iterator[list[Cell]]:
        """The rows of cells, by their numbers, in which an expression over maps has an area."""
        cores = np.concatenate([cells * width, (cells + 1) * width], axis=1)
        for places, found in self.within(maps, expression, cores):
            if found is None:
                yield [(i, j, None, None) for i, j in cells[places].tolist()]
            else:
                yield rows_of_cells(found, cells[places], self.factor)

    def apart(self, features: Features) -> Numbers:
        """Which features of a map overlap, or may, as the program has no answer."""
        rows = self.overlay(features, features, pairs_within(features.boxes()))
        found: Numbers = rows.pairs[(rows.relations() >= Relation.OVERLAPS) | (rows.rows["fault"] > 0)]
        return found

    def within(self, maps: dict[str, Features], expression: str, cores: Numbers,
               members: dict[str, Numbers] | None = None, wants: Wants = Wants.NOTHING
               ) -> Iterator[tuple[Numbers, Rows | None]]:
        """An expression over maps within cores, of which the word Core is the whole: some of these, and their rows;
        None where there is no answer to one. members are the pairs of cores and features, by the cores, that count
        where not all do that meet a core."""
        names, known = sorted(maps), members or {}
        met = [known[name] if name in known else pairs(cores, maps[name].boxes()) for name in names]
        asked = Maps([maps[name] for name in names], names, expression)
        for at in range(0, len(cores), CELLS_AT_ONCE):
            some = cores[at : at + CELLS_AT_ONCE]
            meet = [part_of(one, at, at + len(some)) for one in met]
            for places, rows in self._within(asked, some, meet, wants, boxes_apart):
                yield places + at, rows

    def _within(self, maps: Maps, cores: Numbers, members: list[Numbers], wants: Wants, apart: Apart
                ) -> Iterator[tuple[Numbers, Rows | None]]:
        """The same for some cores, whose halves are asked where the program refuses them or layers do not do. Which
        features are apart their boxes say; where these want more layers than an expression may name, the program."""
        try:
            (found,) = self.ask.rows([maps.block(cores, members, wants, apart)], 1)
            yield np.arange(len(cores)), found
            return
        except (BlockRefused, ProgramEnded, TooManyColours) as fault:
            if apart is boxes_apart and not isinstance(fault, ProgramEnded):
                yield from self._within(maps, cores, members, wants, self.apart)
                return
            if len(cores) == 1:
                if not isinstance(fault, TooManyColours):
                    self.need_to_work(fault)
                yield np.arange(1), None
                return
        middle = len(cores) // 2
        for begin, end in ((0, middle), (middle, len(cores))):
            own = [part_of(one, begin, end) for one in members]
            for places, rows in self._within(maps, cores[begin:end], own, wants, apart):
                yield places + begin, rows


@dataclass(frozen=True)
class Maps:
    """Maps in an order, their names, and an expression over the names."""

    maps: list[Features]
    names: list[str]
    expression: str

    def block(self, cores: Numbers, members: list[Numbers], wants: Wants, apart: Apart) -> bytes:
        """The block that asks what the expression is in some cores, of maps the pairs of cores and features. What is
        apart is in different layers."""
        parts, jobs, layers, begun, unions = [], [], [], 0, {CORE: CORE}
        for name, features, meet in zip(self.names, self.maps, members):
            own, place = np.unique(meet[:, 1], return_inverse=True)
            parts.append(features.part(own))
            colour = colours(len(own), apart(parts[-1]), LAYERS - begun) + begun
            unions[name] = "(" + (" | ".join(map(name_of, np.unique(colour).tolist())) or "Core - Core") + ")"
            jobs.append((meet[:, 0], place))
            layers.append(colour)
            begun = max(begun, int(colour.max(initial=begun - 1)) + 1)
        sizes = offsets(np.array([len(one) for one in parts]))
        core = np.concatenate([one for one, _ in jobs])
        member = np.concatenate([place + at for (_, place), at in zip(jobs, sizes)])
        layer = np.concatenate([own[place] for (_, place), own in zip(jobs, layers)])
        order = np.argsort(core, kind="stable")
        ends = offsets(np.bincount(core, minlength=len(cores)))
        made = [cells_job((west, east, south, north), member[order[begin:end]], layer[order[begin:end]])
                for (west, south, east, north), begin, end in zip(cores.tolist(), ends, ends[1:])]
        spelling = spelled(self.expression, unions).encode()
        asked = Asked(Kind.CELLS, np.concatenate(made), len(made), spelling, max(1, begun))
        return block(joined(parts), asked, wants)


def boxes_apart(features: Features) -> Numbers:
    """The features whose boxes have a common part."""
    return pairs_within(features.boxes())


def part_of(members: Numbers, begin: int, end: int) -> Numbers:
    """The pairs of some cores and features, the cores numbered anew."""
    low, high = np.searchsorted(members[:, 0], (begin, end))
    found: Numbers = members[low:high] - [begin, 0]
    return found


def rows_of(found: Overlay) -> list[Pair]:
    """Pairs as rows."""
    names = np.array([one.name.lower() for one in Relation], object)
    areas, bounds = (own.astype(object) for own in (found.areas().doubles(), found.areas().bounds()))
    relations, refused = names[found.relations()], found.faults()
    relations[refused], areas[refused], bounds[refused] = NO_ANSWER, None, None
    a, b = found.pairs[:, 0].tolist(), found.pairs[:, 1].tolist()
    return list(zip(a, b, relations.tolist(), areas.tolist(), bounds.tolist()))


def rows_of_cells(found: Rows, cells: Numbers, factor: Fraction) -> list[Cell]:
    """Cells as rows: those in which there is something, or which have no answer."""
    own = Areas(found.rows["both"], found.rows["bound"], factor)
    areas, bounds = (one.astype(object) for one in (own.doubles(), own.bounds()))
    refused = found.faults() > 0
    areas[refused], bounds[refused] = None, None
    live = np.flatnonzero(refused | (found.rows["pieces"] > 0))
    i, j = cells[live].T.tolist()
    return list(zip(i, j, areas[live].tolist(), bounds[live].tolist()))


def outlined(taken: Taken) -> Numbers:
    """Twice the areas of features by their rings alone, outer ones less holes, by their lowest 64 bits: those of the
    program where no ring crosses or covers another."""
    own = taken.features
    sizes, counts = np.diff(own.ring_at), np.diff(own.feature_at)
    feature, ring, after = owners(counts), owners(sizes), after_of(sizes)
    begin = own.ring_at[:-1][ring]
    x, y = own.x - own.x[begin], own.y - own.y[begin]
    twice, near = (sums_of(x.astype(kind), y.astype(kind), after, own.ring_at) for kind in (np.int64, float))
    signed = np.where((near < 0) == taken.is_outer, -twice, twice)
    found: Numbers = np.zeros(len(counts), np.int64)
    np.add.at(found, feature, signed)
    return found.view(np.uint64)


def sums_of(x: Numbers, y: Numbers, after: Numbers, ring_at: Numbers) -> Numbers:
    """Twice the signed areas of rings."""
    each = x * y[after] - x[after] * y
    found: Numbers = np.add.reduceat(each, ring_at[:-1]) if len(ring_at) > 1 else np.zeros(0, each.dtype)
    return found


def cells_of(boxes: Numbers, width: int) -> Numbers:
    """The cells that boxes meet, each once: their numbers along x and y."""
    low, high = boxes[:, :2] // width, boxes[:, 2:] // width
    counts = high - low + 1
    many = counts[:, 0] * counts[:, 1]
    who = owners(many)
    place = np.arange(len(who)) - offsets(many)[:-1][who]
    rows = counts[who, 1]
    found: Numbers = np.unique(np.stack([low[who, 0] + place // rows, low[who, 1] + place % rows], axis=1), axis=0)
    return found.reshape(-1, 2)


def counted(boxes: Numbers, width: int) -> Numbers:
    """How many cells each box meets."""
    sides = boxes[:, 2:] // width - boxes[:, :2] // width + 1
    found: Numbers = sides[:, 0].astype(float) * sides[:, 1]
    return found
