"""Expressions over maps whose features may overlap: each map is some layers, which together are its union.

A layer is even-odd over its features. So it is their union where no two of them overlap, which its audit shows: its
area is then the sum of theirs. Features in several layers are looked at by membership.py."""

from collections.abc import Sequence
from dataclasses import dataclass

import numpy as np

from ..geometry.flat_arrays import Numbers, offsets
from .asking import Areas, Ask
from .blocks import Asked, Kind, Wants, block, cells_job
from .cell_jobs import FARTHEST
from .colouring import FREE, TooManyColours, some_colours
from .features import Features, joined
from .laying import Laid
from .membership import Members, in_several, plain
from .overlaying import Overlay
from .rows import CELLS, Rows
from .spelling import LAYERS, name_of

Core = tuple[int, int, int, int]


class NoAnswer(Exception):
    """The program has no answer to an expression, by the number of a fault."""

    def __init__(self, fault: int) -> None:
        super().__init__(f"an expression has no answer: {fault}")
        self.fault = fault


@dataclass(frozen=True)
class Layers:
    """Features, and in which layers they are."""

    features: Features
    members: Members

    def count(self) -> int:
        return self.members.count()

    def single(self) -> Numbers:
        """Of each feature its one layer; -1 where it is in none or in several."""
        return self.members.single(len(self.features))

    def names(self) -> list[str]:
        """The names of the layers in an expression."""
        return [name_of(number) for number in np.unique(self.members.layer).tolist()]


@dataclass(frozen=True)
class Found:
    """What an expression is within a core: the program's one row with its rings, and the grid."""

    rows: Rows
    laid: Laid

    def area(self) -> Areas:
        return Areas(self.rows.rows["both"], self.rows.rows["bound"], self.laid.factor)


def layers_of(maps: Sequence[Features], apart: Sequence[Overlay], ask: Ask) -> list[Layers]:
    """The layers of maps of which these pairs overlap, numbered one map after the other."""
    own = [some_colours(len(features), rows.pairs, LAYERS) for features, rows in zip(maps, apart)]
    found, begun = [], 0
    for features, rows, layer, share in zip(maps, apart, own, shares([wanted(one) for one in own])):
        members = plain(layer) if wanted(layer) <= share else in_several(features, rows, ask, min(share, LAYERS - 1))
        found.append(Layers(features, members.after(begun)))
        begun = max(begun, found[-1].count())
    return found


def wanted(layer: Numbers) -> int:
    """How many layers a map wants; one more than there are where these do not do."""
    return LAYERS + 1 if (layer == FREE).any() else int(layer.max(initial=-1)) + 1


def shares(counts: Sequence[int]) -> list[int]:
    """How many layers each map has of all, of those that it wants: those that want least have all of theirs."""
    found, left = [0] * len(counts), LAYERS
    for done, place in enumerate(sorted(range(len(counts)), key=counts.__getitem__)):
        found[place] = min(counts[place], left // (len(counts) - done))
        if found[place] < min(counts[place], 2):
            raise TooManyColours(0, LAYERS)
        left -= found[place]
    return found


def frame_of(maps: Sequence[Features]) -> Core:
    """The box of all maps, one unit more on each side: least and greatest x, least and greatest y."""
    boxes = np.concatenate([one.boxes() for one in maps])
    real = boxes[boxes[:, 0] <= boxes[:, 2]]
    if not len(real):
        return -1, 1, -1, 1
    low, high = (real[:, :2].min(axis=0) - 1).tolist(), (real[:, 2:].max(axis=0) + 1).tolist()
    ends = [max(-FARTHEST, min(FARTHEST, end)) for end in (low[0], high[0], low[1], high[1])]
    return ends[0], ends[1], ends[2], ends[3]


def evaluated(layers: Sequence[Layers], expression: str, core: Core, laid: Laid, ask: Ask) -> Found:
    """An expression over layers within a core."""
    features = joined([one.features for one in layers])
    begins = offsets(np.array([len(one.features) for one in layers]))
    member = np.concatenate([one.members.feature + begin for one, begin in zip(layers, begins)])
    job = cells_job(core, member, np.concatenate([one.members.layer for one in layers]))
    asked = Asked(Kind.CELLS, job, 1, expression.encode(), max([1, *(one.count() for one in layers)]))
    (rows,) = ask.rows([block(features, asked, ask.wants)], 1)
    need_answers(rows)
    return Found(rows, laid)


def need_answers(rows: Rows) -> None:
    """Refuses to go on where an expression has no answer."""
    if rows.faults().any():
        raise NoAnswer(int(rows.faults().max()))


def layer_areas(layers: Layers, core: Core, laid: Laid, ask: Ask) -> Areas:
    """The area of each layer without the features that are in several, each by a block of its own features."""
    layer = layers.single()
    numbers = range(int(layers.members.layer.min(initial=0)), layers.count())
    blocks = (alone(layers.features.part(np.flatnonzero(layer == number)), core) for number in numbers)
    rows = [np.zeros(0, CELLS)]
    for found in ask.rows(blocks, len(numbers)):
        need_answers(found)
        rows.append(found.rows)
    whole = np.concatenate(rows)
    return Areas(whole["both"], whole["bound"], laid.factor)


def alone(features: Features, core: Core) -> bytes:
    """A block that asks what features are as one layer."""
    job = cells_job(core, np.arange(len(features)), np.zeros(len(features), np.int64))
    return block(features, Asked(Kind.CELLS, job, 1, name_of(0).encode(), 1), Wants.NOTHING)
