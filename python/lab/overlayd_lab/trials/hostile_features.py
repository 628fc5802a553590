"""Features that are hard for overlays, drawn from a seed: shared edges, doubled rings, spikes, slivers."""

import math
import random

Point = tuple[int, int]
Ring = list[Point]
Feature = list[Ring]

GRIDS = (3, 4, 6, 8, 12, 1000, 200_000)


def ring(draw: random.Random, size: int, grid: int) -> Ring:
    """Points anywhere: mostly a ring that crosses itself."""
    return [(draw.randint(0, grid), draw.randint(0, grid)) for _ in range(size)]


def star(draw: random.Random, size: int, grid: int) -> Ring:
    """Points round a middle."""
    x, y = draw.randint(0, grid), draw.randint(0, grid)
    turns = sorted(draw.random() * 2 * math.pi for _ in range(size))
    far = [draw.randint(1, max(2, grid // 2)) for _ in turns]
    return [(x + round(math.cos(t) * r), y + round(math.sin(t) * r)) for t, r in zip(turns, far)]


def along(draw: random.Random, points: Ring) -> Ring:
    """The same with points on its steps, where whole ones are there."""
    found = []
    for p, q in zip(points, points[1:] + points[:1]):
        found.append(p)
        if (p[0] + q[0]) % 2 == 0 and (p[1] + q[1]) % 2 == 0 and draw.random() < 0.6:
            found.append(((p[0] + q[0]) // 2, (p[1] + q[1]) // 2))
    return found


def box(draw: random.Random, grid: int) -> Ring:
    """An upright box."""
    x, y = draw.randint(0, grid - 1), draw.randint(0, grid - 1)
    wide, high = draw.randint(1, grid - x), draw.randint(1, grid - y)
    return [(x, y), (x + wide, y), (x + wide, y + high), (x, y + high)]


def hole_at_corner(draw: random.Random, grid: int) -> Feature:
    """A box with a triangle at a corner of it."""
    one = box(draw, grid)
    return [one, [draw.choice(one), *ring(draw, 2, grid)]]


def spike(draw: random.Random, grid: int) -> Feature:
    """A box with a step to somewhere and back."""
    one = box(draw, grid)
    return [[*one, one[0], (draw.randint(-grid, 2 * grid), draw.randint(-grid, 2 * grid))]]


def sliver(draw: random.Random, grid: int) -> Feature:
    """A triangle of one unit's height."""
    x, y = draw.randint(0, grid), draw.randint(0, grid)
    far, up = draw.randint(1, grid), draw.randint(0, grid)
    return [[(x, y), (x + far, y + up), (x + far, y + up + 1)]]


def corner_to_corner(draw: random.Random, grid: int) -> Feature:
    """A box, and a triangle that has a corner with it."""
    one = box(draw, grid)
    x, y = one[2]
    wide = draw.randint(1, 3)
    return [one, [(x, y), (x + wide, y), (x + draw.randint(1, 3), y + draw.randint(1, 3))]]


def feature(draw: random.Random, grid: int) -> Feature:
    """One of nine kinds."""
    kind = draw.randrange(9)
    if kind == 0:
        return [ring(draw, draw.randint(3, 7), grid)]
    if kind == 1:
        return [along(draw, star(draw, draw.randint(3, 8), grid))]
    if kind == 2:
        return [box(draw, grid)]
    if kind == 3:
        return [ring(draw, draw.randint(3, 5), grid)] * draw.choice((2, 3))
    if kind < 8:
        return (hole_at_corner, spike, sliver, corner_to_corner)[kind - 4](draw, grid)
    return [along(draw, box(draw, grid)), ring(draw, 3, grid)]


def moved(one: Feature, x: int, y: int) -> Feature:
    """The same elsewhere."""
    return [[(p[0] + x, p[1] + y) for p in points] for points in one]


def enlarged(one: Feature, by: int, parts: int) -> Feature:
    """The same so many times larger, each step in so many parts, which divide that."""
    found = []
    for points in one:
        steps = zip(points, points[1:] + points[:1])
        found.append([(p[0] * by + (q[0] - p[0]) * by // parts * k, p[1] * by + (q[1] - p[1]) * by // parts * k)
                      for p, q in steps for k in range(parts)])
    return found


def partner(draw: random.Random, one: Feature, grid: int) -> Feature:
    """A feature to lie beside another: often nearly the same one."""
    how = draw.randrange(8)
    if how == 0:
        return [points[::-1] for points in one]
    if how == 1:
        return moved(one, draw.randint(-2, 2), draw.randint(-2, 2))
    if how == 2:
        return [along(draw, points[1:] + points[:1]) for points in one]
    if how == 3:
        xs = [p[0] for points in one for p in points]
        return moved(one, max(xs) - min(xs), 0)
    return feature(draw, grid)


def pair(draw: random.Random) -> tuple[Feature, Feature]:
    """Two features near each other."""
    grid = draw.choice(GRIDS)
    one = feature(draw, grid)
    return one, partner(draw, one, grid)
