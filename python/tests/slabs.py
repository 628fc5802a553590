"""Exact areas by slabs of fractions, by the judge of the lab, as another source than the package and the program."""

import random
from collections.abc import Callable, Sequence
from fractions import Fraction

from overlayd_lab.trials import feature_judge

Point = tuple[int, int]
Ring = list[Point]
Segment = tuple[Point, Point]


def area(layers: Sequence[Sequence[Ring]], inside: Callable[[list[bool]], bool]) -> Fraction:
    """The area of the places that lie inside, by whether they lie in each layer by even-odd; those in none do not."""
    areas = feature_judge.overlay([[*rings] for rings in layers]).areas
    return sum((own for mask, own in areas.items() if inside([bool(mask >> k & 1) for k in range(len(layers))])),
               Fraction(0))


def common(first: Sequence[Ring], second: Sequence[Ring]) -> Fraction:
    return area([first, second], all)


def rings(source: random.Random, reach: int) -> list[Ring]:
    """One or two random rings, small or large, that may cross themselves."""
    found = []
    for _ in range(source.choice([1, 1, 2])):
        x, y = source.randrange(-reach, reach), source.randrange(-reach, reach)
        size = source.choice([3, max(1, reach // 2), reach])
        ring = [(x + source.randint(-size, size), y + source.randint(-size, size)) for _ in range(source.randint(3, 8))]
        ring = [point for at, point in enumerate(ring) if point != ring[at - 1]]
        found += [ring] if len(ring) > 2 else []
    return found
