"""Joins the boundary of a layer into rings with exact corners, and gives their areas.

    overlay rings --store map.db --layer I
    overlay rings --store map.db --layer I --areas

The inside is on the left of each ring: outer rings run counter-clockwise, holes clockwise. It is found by even-odd: a
place is inside where an odd number of pieces are below it. No ring passes a place twice: where boundaries touch, each
ring stays with its own inside and is parted there. Corners on a straight line are dropped, those at the borders of
columns among them. The text is rounded to --digits; --exact writes the fractions:

    polygon 1 outer 3       the number of the polygon, outer or hole, and how many corners (the first is not repeated)
    3 5/3                   x and y of a corner

--areas writes the area of each ring and of all, rounded, and exactly where the fraction has at most 60 digits, or
with --exact:

    polygon 1 outer area 8.333333 25/3
    area 8.333333 25/3

Coordinates and areas are those of the world where a scale is there. A base layer has the boundary of its even-odd
inside. overlay_features joins them: the variable OVERLAY_FEATURES names it where it is not at its place. Status 0: all
rings are written; 1: the store cannot be read, a layer has no rings to give, or the output cannot be written."""

import sys
from collections.abc import Iterator

from ..geometry import areas, wkt
from ..geometry.areas import Ring
from ..grid.scale import Scale, decimals, spelled_exactly
from ..words import Words, flag, subcommand
from . import store_layers
from .store_layers import Map


def heads(polygons: list[list[Ring]]) -> Iterator[tuple[str, Ring]]:
    """Each ring and what it is called."""
    for number, polygon in enumerate(polygons, 1):
        for ring in polygon:
            yield f"polygon {number} {'outer' if ring.outer else 'hole'}", ring


def exact_lines(polygons: list[list[Ring]], found: Map, _words: Words) -> Iterator[str]:
    yield f"polygons {len(polygons)}"
    for head, ring in heads(polygons):
        yield f"{head} {len(ring.corners)}"
        for corner in ring.corners:
            yield " ".join(map(spelled_exactly, found.scale.world(corner)))


def area_line(head: str, rings: list[Ring], scale: Scale, exact: bool) -> str:
    area, fraction = areas.in_world(rings, scale, exact)
    numbers = [decimals(abs(area), scale.digits), *([fraction.removeprefix("-")] if fraction else [])]
    return f"{head} {' '.join(numbers)}"


def area_lines(polygons: list[list[Ring]], found: Map, words: Words) -> Iterator[str]:
    for head, ring in heads(polygons):
        yield area_line(f"{head} area", [ring], found.scale, words.exact)
    yield area_line("area", [ring for polygon in polygons for ring in polygon], found.scale, words.exact)


def text_lines(polygons: list[list[Ring]], found: Map, _words: Words) -> Iterator[str]:
    closed = [[[found.scale.world(corner) for corner in ring.corners + ring.corners[:1]] for ring in polygon]
              for polygon in polygons]
    yield wkt.write(closed, lambda number: decimals(number, found.scale.digits))


@subcommand(__doc__, *store_layers.words(),
            flag("--exact", "fractions in place of Well-Known Text; with --areas each of them, however long"),
            flag("--areas", "areas in place of Well-Known Text"), *store_layers.scale_words())
def command(words: Words) -> int:
    return store_layers.run(words, write)


def write(found: Map, words: Words) -> int:
    polygons = found.polygons(*found.names)
    lines_of = area_lines if words.areas else exact_lines if words.exact else text_lines
    sys.stdout.write("".join(line + "\n" for line in list(lines_of(polygons, found, words))))
    holes = sum(len(polygon) - 1 for polygon in polygons)
    print(f"outer rings {len(polygons)} (counter-clockwise), holes {holes} (clockwise); inside on the left",
          file=sys.stderr)
    return 0
