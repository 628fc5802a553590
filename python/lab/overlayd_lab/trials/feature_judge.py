"""What features have in common, by slabs of fractions, even-odd: the judge of the program of features."""

from collections import defaultdict
from fractions import Fraction
from typing import NamedTuple

from overlayd_lab.trials.hostile_features import Feature, Point

Segment = tuple[Point, Point]


class Judged(NamedTuple):
    """The area of each set of features, as bits; whether boundaries of the first two have a point in common."""

    areas: dict[int, Fraction]
    met: bool


def segments(feature: Feature) -> list[Segment]:
    """The steps of its rings, left ends first."""
    return [(min(p, q), max(p, q)) for ring in feature for p, q in zip(ring, ring[1:] + ring[:1]) if p != q]


def crossing_xs(a: Segment, b: Segment) -> list[Fraction]:
    """The x where two segments that are not parallel meet."""
    (ax, ay), (bx, by) = a
    (cx, cy), (dx, dy) = b
    turn = (bx - ax) * (dy - cy) - (by - ay) * (dx - cx)
    if not turn:
        return []
    t = Fraction((cx - ax) * (dy - cy) - (cy - ay) * (dx - cx), turn)
    u = Fraction((cx - ax) * (by - ay) - (cy - ay) * (bx - ax), turn)
    return [ax + t * (bx - ax)] if 0 <= t <= 1 and 0 <= u <= 1 else []


def may_meet(a: Segment, b: Segment) -> bool:
    """Whether the boxes of two segments have a point in common."""
    return (a[0][0] <= b[1][0] and b[0][0] <= a[1][0] and min(a[0][1], a[1][1]) <= max(b[0][1], b[1][1])
            and min(b[0][1], b[1][1]) <= max(a[0][1], a[1][1]))


def borders(marked: list[tuple[int, Segment]]) -> list[Fraction]:
    """All x of ends and crossings."""
    found = {Fraction(p[0]) for _, s in marked for p in s}
    for i, (_, a) in enumerate(marked):
        for _, b in marked[:i]:
            if may_meet(a, b):
                found.update(crossing_xs(a, b))
    return sorted(found)


def height(segment: Segment, x: Fraction) -> Fraction:
    """The y of a segment that is not vertical."""
    (ax, ay), (bx, by) = segment
    return ay + (by - ay) * (x - ax) / Fraction(bx - ax)


class Slab(NamedTuple):
    """Between two x: what is over what, as stretches of lines with the features that have an odd number there."""

    low: Fraction
    high: Fraction
    over: list[tuple[Fraction, Fraction, int]]


def slab(marked: list[tuple[int, Segment]], low: Fraction, high: Fraction) -> Slab:
    """The lines between two x, from below, each once."""
    odd: dict[tuple[Fraction, Fraction], int] = defaultdict(int)
    for k, s in marked:
        if s[0][0] <= low and high <= s[1][0] and s[0][0] < s[1][0]:
            odd[height(s, low), height(s, high)] ^= 1 << k
    return Slab(low, high, [(a, b, odd[a, b]) for a, b in sorted(odd, key=sum)])


def odd_stretches(upright: list[Segment]) -> list[tuple[Fraction, Fraction]]:
    """The stretches that an odd number of vertical segments cover."""
    ys = sorted({p[1] for s in upright for p in s})
    return [(Fraction(low), Fraction(high)) for low, high in zip(ys, ys[1:])
            if sum(s[0][1] <= low and high <= s[1][1] for s in upright) % 2]


def have_met(marked: list[tuple[int, Segment]], slabs: list[Slab], xs: list[Fraction]) -> bool:
    """Whether boundaries of the first two have a point in common."""
    if any(mask & 3 == 3 for one in slabs for _, _, mask in one.over):
        return True
    ends: dict[Fraction, tuple[list[tuple[Fraction, Fraction]], ...]] = {x: ([], []) for x in xs}
    for one in slabs:
        for a, b, mask in one.over:
            for k in (0, 1):
                if mask >> k & 1:
                    ends[one.low][k].append((a, a))
                    ends[one.high][k].append((b, b))
    for x in xs:
        for k in (0, 1):
            ends[x][k].extend(odd_stretches([s for own, s in marked if own == k and s[0][0] == s[1][0] == x]))
        if any(p[0] <= q[1] and q[0] <= p[1] for p in ends[x][0] for q in ends[x][1]):
            return True
    return False


def overlay(features: list[Feature]) -> Judged:
    """The areas of all sets of features."""
    marked = [(k, s) for k, f in enumerate(features) for s in segments(f)]
    xs = borders(marked)
    slabs = [slab(marked, low, high) for low, high in zip(xs, xs[1:])]
    areas: dict[int, Fraction] = defaultdict(Fraction)
    for one in slabs:
        mask, below = 0, Fraction(0)
        for a, b, odd in one.over:
            areas[mask] += (a + b - below) * (one.high - one.low) / 2
            mask, below = mask ^ odd, a + b
    areas.pop(0, None)
    return Judged({mask: area for mask, area in areas.items() if area}, have_met(marked, slabs, xs))


def relation(judged: Judged) -> tuple[str, bool]:
    """In OGC's words, and whether one contains the other with no boundary shared."""
    if 3 not in judged.areas:
        return ("touches" if judged.met else "disjoint"), False
    name = {(True, True): "overlaps", (False, True): "within", (True, False): "contains",
            (False, False): "equals"}[1 in judged.areas, 2 in judged.areas]
    return name, name in ("within", "contains") and not judged.met


def locate(feature: Feature, x: Fraction, y: Fraction) -> int:
    """0 outside, 1 inside, 2 on a step."""
    odd = 0
    for (ax, ay), (bx, by) in segments(feature):
        if ax == bx:
            if x == ax and ay <= y <= by:
                return 2
        elif ax <= x <= bx:
            up = y - height(((ax, ay), (bx, by)), x)
            if up == 0:
                return 2
            odd ^= up > 0 and x < bx
    for ring in feature:
        if any(x == p[0] and y == p[1] for p in ring):
            return 2
    return int(odd)
