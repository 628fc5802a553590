"""Are rows and outlines of the program of features those of slabs of fractions, wherever a core is halved?

    python3 -m overlayd_lab.trials.feature_fuzz PROGRAM [--seed N] [--jobs N] [--outlines]

Hostile pairs (relation, whether one contains the other properly, three areas within their bounds), expressions over
four features in cells, points to locate. Each job is asked at three limits of steps, so that cores are halved anywhere:
all numbers but the counts of pieces and passes and the bound are the same. With --outlines these are asked for and are
the same, too: simple rings with the inside on their left, holes within their outer ring, the judge's area, and as
doubles the ones nearest to the fractions. The last line is 'N passed, M failed'."""

import argparse
import random
import sys
from collections import Counter
from collections.abc import Callable
from fractions import Fraction

from overlayd_lab.trials import feature_blocks as blocks
from overlayd_lab.trials import feature_judge as judge
from overlayd_lab.trials.hostile_features import GRIDS, Feature, enlarged, feature, moved, pair

LIMITS = (4096, 20, 9)
FAR = 2**40
Rule = Callable[[bool, bool, bool, bool], bool]
TEXTS: list[tuple[bytes, Rule]] = [
    (b"Laa & Lab - Lac", lambda a, b, c, d: (a and b) and not c),
    (b"(Laa | Lab) - Lac & Lad", lambda a, b, c, d: (a or b) and not (c and d)),
    (b"Laa ^ Lab ^ Lac", lambda a, b, c, d: a ^ b ^ c),
    (b"Laa | Lab | Lac | Lad", lambda a, b, c, d: a or b or c or d),
    (b"Core - (Laa | Lab | Lac | Lad)", lambda a, b, c, d: not (a or b or c or d)),
]


def far_pair(draw: random.Random) -> tuple[Feature, Feature]:
    """Two features near each other, anywhere; a few are larger than the plane of a pass."""
    a, b = pair(draw)
    if draw.random() < 0.02 and all(abs(z) < 40 for one in (a, b) for ring in one for p in ring for z in p):
        a, b = enlarged(a, 400_000, 20), enlarged(b, 400_000, 20)
    x, y = draw.choice(((0, 0), (draw.randint(-FAR, FAR), draw.randint(-FAR, FAR))))
    return moved(a, x, y), moved(b, x, y)


def twice_area(corners: list[tuple[Fraction, Fraction]]) -> Fraction:
    """Twice the area of a ring, positive where it is anti-clockwise."""
    return sum((p[0] * q[1] - p[1] * q[0] for p, q in zip(corners, corners[1:] + corners[:1])), Fraction(0))


def outline_fault(rings: list[blocks.Ring], area: Fraction) -> str | None:
    """What is wrong with an outline of exact corners whose area is this."""
    total = Fraction(0)
    for ring in rings:
        own = twice_area(ring.corners)
        total += own
        if len(set(ring.corners)) != len(ring.corners):
            return "a ring that is not simple"
        if len(ring.corners) < 3 or (own > 0) != (ring.outer is None):
            return "a ring the wrong way round"
        if ring.outer is not None and rings[ring.outer].outer is not None:
            return "a hole of a hole"
        if ring.outer is not None and not all(is_in(p, rings[ring.outer].corners) for p in ring.corners):
            return "a hole off its outer ring"
    return None if total == 2 * area else "another area than the judge's"


def is_in(p: tuple[Fraction, Fraction], corners: list[tuple[Fraction, Fraction]]) -> bool:
    """Whether a place is in a ring, or on it."""
    odd = False
    for (ax, ay), (bx, by) in zip(corners, corners[1:] + corners[:1]):
        turn = (bx - ax) * (p[1] - ay) - (by - ay) * (p[0] - ax)
        if turn == 0 and min(ax, bx) <= p[0] <= max(ax, bx) and min(ay, by) <= p[1] <= max(ay, by):
            return True
        if (ay <= p[1]) != (by <= p[1]) and (turn > 0) == (by > ay):
            odd = not odd
    return odd


def is_near(parts: int, area: Fraction, bound: int) -> bool:
    """Whether so many parts are twice an area within a bound."""
    return abs(parts - 2 * area * 2**40) <= bound


def rings_alike(a: list[blocks.Ring], b: list[blocks.Ring]) -> bool:
    """Whether two outlines have the same rings, each from any corner on."""
    return Counter(frozenset(r.corners) for r in a) == Counter(frozenset(r.corners) for r in b)


def are_nearest(exact: list[blocks.Ring], doubles: list[blocks.Ring]) -> bool:
    """Whether rings have the doubles nearest to these fractions for their corners, in the same order."""
    return [(one.outer, [(Fraction(float(x)), Fraction(float(y))) for x, y in one.corners]) for one in exact] == \
        [(one.outer, one.corners) for one in doubles]


def pair_faults(a: Feature, b: Feature, row: blocks.Row, flags: int) -> list[str]:
    """What is wrong with the row of a pair."""
    if row.fault:
        return [f"fault {row.fault}"]
    number, proper, pieces, _, _, area_a, area_b, area, bound = row.numbers
    judged = judge.overlay([a, b])
    want = [judged.areas.get(1, Fraction(0)), judged.areas.get(2, Fraction(0)), judged.areas.get(3, Fraction(0))]
    found = []
    if (blocks.RELATIONS[number], bool(proper)) != judge.relation(judged):
        found.append(f"relation {blocks.RELATIONS[number]} {proper}, not {judge.relation(judged)}")
    if not (is_near(area_a, want[0] + want[2], bound) and is_near(area_b, want[1] + want[2], bound)):
        found.append("an area of one")
    if not is_near(area, want[2], bound) or (pieces > 0) != (want[2] > 0):
        found.append("the area of both")
    fault = outline_fault(row.rings, want[2]) if flags else None
    return [*found, fault] if fault else found


def same(rows: list[blocks.Row], counts: tuple[int, ...]) -> bool:
    """Whether rows of one job at several limits differ in nothing but these counts."""
    alike = {tuple(z for k, z in enumerate(row.numbers) if k not in counts) for row in rows}
    return len(alike) == 1 and all(rings_alike(rows[0].rings, row.rings) for row in rows)


def forms(flags: int) -> list[tuple[int, int]]:
    """The flags and limits by which a job is asked; the last one without fractions."""
    return [*((flags, limit) for limit in LIMITS), (flags & 1, LIMITS[0])]


def try_pairs(program: str, draw: random.Random, count: int, flags: int, counts: Counter[str]) -> None:
    """Pairs: each at all limits."""
    drawn = [far_pair(draw) for _ in range(count)]
    features = [one for both in drawn for one in both]
    jobs = [blocks.words([2 * k, 2 * k + 1]) for k in range(count)]
    asked = [blocks.block("pair", features, jobs, flags=form, limit=limit) for form, limit in forms(flags)]
    *found, rough = blocks.run(program, asked)
    for k, (a, b) in enumerate(drawn):
        rows = [reply.rows[k] for reply in found]
        faults = pair_faults(a, b, rows[0], flags)
        if not are_nearest(rows[0].rings, rough.rows[k].rings):
            faults.append("doubles")
        if not rows[0].fault and not same(rows, (2, 3, 4, 8)):
            faults.append("halves differ")
        tell(counts, "pairs", faults, (a, b))


def tell(counts: Counter[str], name: str, faults: list[str], what: object) -> None:
    """Counts a job, and says what is wrong with it."""
    counts[name] += 1
    counts["failed"] += bool(faults)
    if faults and counts["failed"] < 10:
        print(name, faults, what)


def job_area(four: list[Feature], core: tuple[int, int, int, int], rule: Rule) -> Fraction:
    """The area of a rule over features within a core."""
    west, east, south, north = core
    ring = [(west, south), (east, south), (east, north), (west, north)]
    areas = judge.overlay([*four, [ring]]).areas
    return sum((area for mask, area in areas.items() if mask & 16 and rule(*(bool(mask >> k & 1) for k in range(4)))),
               Fraction(0))


def core_of(draw: random.Random, four: list[Feature]) -> tuple[int, int, int, int]:
    """A box round features, or some of it."""
    xs = [p[0] for one in four for ring in one for p in ring]
    ys = [p[1] for one in four for ring in one for p in ring]
    if draw.random() < 0.5:
        return min(xs) - 1, max(xs) + 1, min(ys) - 1, max(ys) + 1
    x = sorted(draw.randint(min(xs), max(xs)) for _ in range(2))
    y = sorted(draw.randint(min(ys), max(ys)) for _ in range(2))
    return x[0], x[1], y[0], y[1]


def try_cells(program: str, draw: random.Random, count: int, flags: int, counts: Counter[str]) -> None:
    """Expressions over four features: each at all limits."""
    for text, rule in TEXTS:
        drawn = []
        for _ in range(count // len(TEXTS)):
            grid = draw.choice(GRIDS)
            drawn.append([feature(draw, grid) for _ in range(4)])
        cores = [core_of(draw, four) for four in drawn]
        features = [one for four in drawn for one in four]
        jobs = [blocks.cells_job(core, [(4 * k + i, i) for i in range(4)]) for k, core in enumerate(cores)]
        asked = [blocks.block("cells", features, jobs, flags=form, limit=limit, expression=text, layers=4)
                 for form, limit in forms(flags)]
        *found, rough = blocks.run(program, asked)
        for k, four in enumerate(drawn):
            rows = [reply.rows[k] for reply in found]
            area = job_area(four, cores[k], rule)
            faults = cells_faults(rows[0], area, flags)
            if not are_nearest(rows[0].rings, rough.rows[k].rings):
                faults.append("doubles")
            if not rows[0].fault and not same(rows, (0, 1, 2, 4)):
                faults.append("halves differ")
            tell(counts, "cells", faults, (text, cores[k], four))


def cells_faults(row: blocks.Row, area: Fraction, flags: int) -> list[str]:
    """What is wrong with the row of a core."""
    if row.fault:
        return [f"fault {row.fault}"]
    pieces, _, _, parts, bound = row.numbers
    found = [] if is_near(parts, area, bound) and (pieces > 0) == (area > 0) else ["the area"]
    fault = outline_fault(row.rings, area) if flags else None
    return [*found, fault] if fault else found


def point_near(draw: random.Random, one: Feature) -> tuple[int, int, int]:
    """A point at a corner, on a step or anywhere near a feature."""
    ring = draw.choice(one)
    k = draw.randrange(len(ring))
    (ax, ay), (bx, by) = ring[k - 1], ring[k]
    w = draw.randint(1, 9)
    t = draw.randint(0, w)
    x, y = ax * w + (bx - ax) * t, ay * w + (by - ay) * t
    return (x, y, w) if draw.random() < 0.5 else (x + draw.randint(-w, w), y + draw.randint(-w, w), w)


def try_points(program: str, draw: random.Random, count: int, _flags: int, counts: Counter[str]) -> None:
    """Points against features."""
    drawn = [far_pair(draw)[0] for _ in range(count // 8)]
    points = [[point_near(draw, one) for _ in range(8)] for one in drawn]
    jobs = [blocks.locate_job(k, own) for k, own in enumerate(points)]
    rows = iter(blocks.run(program, [blocks.block("locate", drawn, jobs)])[0].rows)
    for one, own in zip(drawn, points):
        for x, y, w in own:
            want, got = judge.locate(one, Fraction(x, w), Fraction(y, w)), next(rows).numbers[0]
            tell(counts, "points", [] if want == got else [f"{got}, not {want}"], (one, x, y, w))


def main() -> None:
    parser = argparse.ArgumentParser(description=__doc__, formatter_class=argparse.RawDescriptionHelpFormatter)
    parser.add_argument("program")
    parser.add_argument("--seed", type=int, default=1)
    parser.add_argument("--jobs", type=int, default=1000)
    parser.add_argument("--outlines", action="store_true")
    asked = parser.parse_args()
    draw, counts = random.Random(asked.seed), Counter[str]()
    for attempt in (try_pairs, try_cells, try_points):
        attempt(asked.program, draw, asked.jobs, 3 if asked.outlines else 0, counts)
    failed = counts.pop("failed", 0)
    print(", ".join(f"{count} {name}" for name, count in counts.items()))
    print(f"{sum(counts.values()) - failed} passed, {failed} failed")
    sys.exit(1 if failed else 0)


if __name__ == "__main__":
    main()
