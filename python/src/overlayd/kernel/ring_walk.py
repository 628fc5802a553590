"""Where the rings of a column of Well-Known Binary lie.

For all features at once, as many rounds as a feature has rings and polygons; of the last few features, which have more,
one by one."""

import enum
import struct
from dataclasses import dataclass

import numpy as np

from ..geometry.flat_arrays import Numbers
from .columns import COUNT, WIDTH, Column, counts_at

POLYGON, MULTIPOLYGON = 3, 6
FEW = 50  # features whose rings are found sooner one by one than by a round over all
ORDER, HEAD = 1, 5  # bytes of the order, and of order and kind
HAS_Z, HAS_M, HAS_SYSTEM = 0x80000000, 0x40000000, 0x20000000  # as PostGIS writes it
DIMENSIONS = np.array([2, 3, 3, 4])  # of kinds from 0, 1000, 2000 and 3000 on


class Reason(enum.Enum):
    """Why a shape cannot be read."""

    CUT = "its bytes end too early"
    LONGER = "bytes come after its end"
    PART = "a part of a multipolygon that is no polygon"
    OPEN = "a ring that is not closed"
    NO_NUMBER = "a coordinate that is no number"


class ShapeFault(Exception):
    """Shapes that cannot be read: the first one, all of them, and why."""

    def __init__(self, features: Numbers, reason: Reason) -> None:
        super().__init__(f"feature {features[0]}: {reason.value}")
        self.feature, self.features, self.reason = int(features[0]), features.tolist(), reason


@dataclass(frozen=True)
class Found:
    """Rings: whose, where their points begin, how many these are, of how many bytes each, whether in the other order of
    bytes, and whether it is the outer one of its polygon."""

    feature: Numbers
    begin: Numbers
    points: Numbers
    width: Numbers
    is_big: Numbers
    is_outer: Numbers


def plain_kind(kind: Numbers) -> Numbers:
    """A kind without its dimensions."""
    own = kind & 0xFFFF
    found: Numbers = np.where(own < 1000 * len(DIMENSIONS), own % 1000, own)
    return found


def width_of(kind: Numbers) -> Numbers:
    """How many bytes a point of a kind has."""
    own = np.minimum((kind & 0xFFFF) // 1000, len(DIMENSIONS) - 1)
    found: Numbers = WIDTH * (DIMENSIONS[own] + (kind & HAS_Z > 0) + (kind & HAS_M > 0))
    return found


class Walk:
    """Where the reading of each feature stands: the next byte, polygons still to be begun, rings left of the one in
    hand, bytes of its points, its order of bytes, and whether its first ring comes next."""

    def __init__(self, column: Column) -> None:
        self.data, self.end = column.data, column.at[1:]
        self.at = column.at[:-1].copy()
        self.rings, self.polygons, self.width = (np.zeros(len(column), np.int64) for _ in range(3))
        self.is_big, self.is_first = (np.zeros(len(column), bool) for _ in range(2))
        self.found: list[Found] = []

    def need(self, features: Numbers, more: Numbers | int) -> None:
        """Refuses those of which not so many bytes are left."""
        cut = features[self.at[features] + more > self.end[features]]
        if len(cut):
            raise ShapeFault(cut, Reason.CUT)

    def counts(self, features: Numbers) -> Numbers:
        """The numbers of four bytes where features stand."""
        self.need(features, COUNT)
        found = counts_at(self.data, self.at[features], self.is_big[features])
        self.at[features] += COUNT
        return found

    def kinds(self, features: Numbers) -> Numbers:
        """The kinds of shapes that begin where features stand, which stand after them then."""
        self.need(features, HEAD)
        self.is_big[features] = self.data[self.at[features]] == 0
        self.at[features] += ORDER
        kind = self.counts(features)
        self.at[features[kind & HAS_SYSTEM > 0]] += COUNT
        self.width[features] = width_of(kind)
        return plain_kind(kind)

    def begin(self, features: Numbers) -> tuple[Numbers, Numbers]:
        """Begins shapes; which are neither polygons nor multipolygons, and their kinds."""
        kind = self.kinds(features)
        known = np.isin(kind, (POLYGON, MULTIPOLYGON))
        self.at[features[~known]] = self.end[features[~known]]
        own, is_polygon = features[known], kind[known] == POLYGON
        count = self.counts(own)
        self.polygons[own], self.rings[own] = np.where(is_polygon, 0, count), np.where(is_polygon, count, 0)
        self.is_first[own] = True
        return features[~known], kind[~known]

    def live(self, features: Numbers) -> Numbers:
        """Those that have rings or polygons left."""
        return features[(self.rings[features] > 0) | (self.polygons[features] > 0)]

    def step(self, features: Numbers) -> None:
        """The next ring of each, where its polygon has one."""
        fresh = features[self.rings[features] == 0]
        wrong = fresh[self.kinds(fresh) != POLYGON]
        if len(wrong):
            raise ShapeFault(wrong, Reason.PART)
        self.rings[fresh] = self.counts(fresh)
        self.polygons[fresh] -= 1
        self.is_first[fresh] = True
        now = features[self.rings[features] > 0]
        points = self.counts(now)
        self.need(now, points * self.width[now])
        self.found.append(Found(now, self.at[now], points, self.width[now], self.is_big[now], self.is_first[now]))
        self.at[now] += points * self.width[now]
        self.rings[now] -= 1
        self.is_first[now] = False

    def rest(self, feature: int) -> None:
        """All rings that one feature has left."""
        base, end, polygons, rings = (int(own[feature]) for own in (self.at, self.end, self.polygons, self.rings))
        order, width, is_first = "<>"[int(self.is_big[feature])], int(self.width[feature]), bool(self.is_first[feature])
        found: list[tuple[int, int, int, int, bool, bool]] = []
        who: Numbers = np.array([feature])
        own, at = self.data[base:end].tobytes(), 0
        try:
            while polygons or rings:
                if not rings:
                    order = "<>"[int(own[at] == 0)]
                    (kind,) = struct.unpack_from(order + "I", own, at + ORDER)
                    at += HEAD + COUNT * (kind & HAS_SYSTEM > 0)
                    if plain_kind(kind) != POLYGON:
                        raise ShapeFault(who, Reason.PART)
                    width, polygons, is_first = int(width_of(kind)), polygons - 1, True
                    (rings,) = struct.unpack_from(order + "I", own, at)
                    at += COUNT
                    continue
                (points,) = struct.unpack_from(order + "I", own, at)
                found.append((feature, base + at + COUNT, points, width, order == ">", is_first))
                at += COUNT + points * width
                rings, is_first = rings - 1, False
        except (struct.error, IndexError):
            at = len(own) + 1
        self.at[feature] = base + at
        self.need(who, 0)
        columns: Numbers = np.array(found, np.int64).reshape(-1, len(Found.__annotations__)).T
        self.found.append(Found(*columns[:4], *(columns[4:] > 0)))

    def all(self) -> Found:
        """What was found, feature by feature, rings in their order."""
        names = list(Found.__annotations__)
        parts = [np.concatenate([np.zeros(0, np.int64), *(getattr(one, name) for one in self.found)]) for name in names]
        order = np.argsort(parts[0], kind="stable")
        feature, begin, points, width, is_big, is_outer = (own[order] for own in parts)
        return Found(feature, begin, points, width, is_big > 0, is_outer > 0)


def walked(column: Column) -> tuple[Found, Numbers, Numbers]:
    """The rings of all shapes; which features are of another kind, and their kinds."""
    walk = Walk(column)
    others, kinds = walk.begin(np.flatnonzero(np.diff(column.at) > 0))
    live = walk.live(np.arange(len(column)))
    while len(live) > FEW:
        walk.step(live)
        live = walk.live(live)
    for feature in live.tolist():
        walk.rest(feature)
    longer = np.flatnonzero(walk.at < walk.end)
    if len(longer):
        raise ShapeFault(longer, Reason.LONGER)
    return walk.all(), others, kinds
