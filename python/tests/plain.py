"""A plain overlay of two layers by the lab's model, which compares all pairs: another source than the program."""

import math
import random
from collections.abc import Callable
from fractions import Fraction
from typing import Any

from overlayd.grid import limits
from overlayd_lab.reference import model

Place = tuple[Fraction, Fraction]
Corner = tuple[int, int, int]
OPERATIONS: dict[str, Callable[[bool, bool], bool]] = {
    "&": lambda a, b: a and b, "|": lambda a, b: a or b, "-": lambda a, b: a and not b, "^": lambda a, b: a != b}


def closed(rings: list[Any]) -> model.Rings:
    return tuple((*ring, ring[0]) for ring in rings)


def segments_of(rings: list[Any]) -> tuple[model.Segment, ...]:
    return model.segments_of(closed(rings))


def below(segments: tuple[model.Segment, ...], point: Corner) -> int:
    """How many segments are below a place (X, Y, W), by the half-open rule."""
    return model.count(model.is_below, segments, *point)


def on(segments: tuple[model.Segment, ...], point: Corner) -> int:
    """How many segments a place lies on."""
    return model.count(model.is_on, segments, *point)


def overlay(layers: list[Any], operation: str) -> list[tuple[Corner, Corner]]:
    """The boundary pieces of an operation on the even-odd insides of two layers, each once."""
    meanings = model.Meanings()
    bases = [meanings.key_of(("base", closed(rings))) for rings in layers]
    key = meanings.key_of(("derived", (operation, *bases)))
    return [(model.whole(a), model.whole(b)) for column in range(limits.COLUMNS)
            for a, b in meanings.tile(key, column) or ()]


def homogeneous(x: Fraction, y: Fraction) -> Corner:
    w = math.lcm(x.denominator, y.denominator)
    return int(x * w), int(y * w), w


def random_rings(source: random.Random, reach: int) -> list[list[tuple[int, int]]]:
    count = source.randint(1, 3)
    return [[(source.randint(-reach, reach), source.randint(-reach, reach)) for _ in range(source.randint(3, 6))]
            for _ in range(count)]


def area_twice(ring: list[Any]) -> Any:
    return sum(a[0] * b[1] - b[0] * a[1] for a, b in zip(ring, ring[1:] + ring[:1]))
