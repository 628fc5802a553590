"""Maps of doubles that are partitions but for what doubles leave, and the edges of whole rings, exactly."""

import collections
import heapq
import math
import random

import numpy as np

from overlayd.grid_pass.onto_grid import Rings
from overlayd.grid_pass.rings import WholeRings

Place = tuple[float, float]
Edge = tuple[tuple[int, int], tuple[int, int]]

WEST, SOUTH = 480_000.0, 5_400_000.0


def rings(polygons: list[list[Place]], angle: float = 0.0) -> Rings:
    """Polygons, turned, as rings of doubles."""
    corners = np.array([corner for ring in polygons for corner in ring], float).reshape(-1, 2)
    cos, sin = math.cos(angle), math.sin(angle)
    x, y = WEST + cos * corners[:, 0] - sin * corners[:, 1], SOUTH + sin * corners[:, 0] + cos * corners[:, 1]
    return Rings(x, y, np.array([len(ring) for ring in polygons], np.int64))


def box(west: float, south: float, east: float, north: float) -> list[Place]:
    return [(west, south), (east, south), (east, north), (west, north)]


def road(count: int, length: float) -> Rings:
    """A road of four corners with so many parcels on each side, whose corners there the road does not have."""
    draw = random.Random(1)
    cuts = [0.0, *sorted(draw.random() * length for _ in range(count - 1)), length]
    sides = [box(west, south, east, south + 30) for west, east in zip(cuts, cuts[1:]) for south in (-30.0, 12.0)]
    return rings([box(0, 0, length, 12), *sides], 0.37)


def bricks(count: int) -> Rings:
    """Rows of parcels of different widths between common straight lines."""
    draw, found = random.Random(2), []
    for row in range(count):
        cuts = [0.0, *sorted(draw.random() * count * 30 for _ in range(count - 1)), count * 30.0]
        found += [box(west, row * 20, east, row * 20 + 20) for west, east in zip(cuts, cuts[1:])]
    return rings(found, 0.37)


def lattice(count: int, long: int) -> Rings:
    """Boxes of 30 by 30, so many of a row in one."""
    places = [(row, column) for row in range(count) for column in range(0, count, long)]
    return rings([box(30 * column, 30 * row, 30 * (column + long), 30 * row + 30) for row, column in places], 0.37)


def halved(count: int) -> Rings:
    """A square of 1,000 halved again and again by lines between points of two sides: corners that the neighbour on the
    other side of a border does not have, and that are on it but for what doubles leave."""
    draw = random.Random(3)
    whole = rings([box(0, 0, 1000, 1000)], 0.61)
    heap = [(-1e6, 0, list(zip(whole.x.tolist(), whole.y.tolist())))]
    for number in range(1, count):
        *_, cell = heapq.heappop(heap)
        for part, half in enumerate(halves(cell, draw)):
            heapq.heappush(heap, (-area(half), 2 * number + part, half))
    cells = [cell for *_, cell in heap]
    corners = np.array([corner for cell in cells for corner in cell])
    return Rings(corners[:, 0].copy(), corners[:, 1].copy(), np.array([len(cell) for cell in cells], np.int64))


def area(cell: list[Place]) -> float:
    (left, low), *_ = cell
    return sum((a - left) * (d - low) - (c - left) * (b - low) for (a, b), (c, d) in zip(cell, cell[1:] + cell[:1])) / 2


def halves(cell: list[Place], draw: random.Random) -> list[list[Place]]:
    """Two parts of a cell, by a line from its longest side to another."""
    ends = cell[1:] + cell[:1]
    first = max(range(len(cell)), key=lambda side: math.dist(cell[side], ends[side]))
    far = [side for side in range(len(cell)) if side != first and (len(cell) == 3 or (side - first) % len(cell) > 1)]
    low, high = sorted((first, draw.choice(far)))
    points = []
    for side in (low, high):
        (a, b), (c, d), share = cell[side], ends[side], 0.35 + 0.3 * draw.random()
        points.append((a + (c - a) * share, b + (d - b) * share))
    p, q = points
    return [[p, *cell[low + 1 : high + 1], q], [q, *cell[high + 1 :], *cell[: low + 1], p]]


def ways(given: WholeRings) -> list[list[tuple[int, int]]]:
    """The corners of each ring."""
    ends = np.cumsum(given.sizes)
    corners = list(zip(given.x.tolist(), given.y.tolist()))
    return [corners[end - size : end] for end, size in zip(ends.tolist(), given.sizes.tolist())]


def edges(given: WholeRings) -> collections.Counter[Edge]:
    """The edges of rings, each less those the other way."""
    found: collections.Counter[Edge] = collections.Counter()
    for way in ways(given):
        for one, other in zip(way, way[1:] + way[:1]):
            if one < other:
                found[one, other] += 1
            else:
                found[other, one] -= 1
    return collections.Counter({edge: count for edge, count in found.items() if count})


def twice_area(given: WholeRings) -> int:
    return sum(a * d - c * b for way in ways(given) for (a, b), (c, d) in zip(way, way[1:] + way[:1]))
