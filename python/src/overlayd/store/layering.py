"""Lays polygons out over layers and stores, and splits exactly what is too long.

A ring is cut into runs, each closed through the ring's first point: the chords occur twice, so that by even-odd the
runs joined by ^ are the ring, with no new corner and nothing rounded."""

from dataclasses import dataclass, field

from ..files import rounding
from ..files.rounding import Polygon, Ring
from ..geometry import wkt
from ..geometry.plane import Box
from ..grid import limits


@dataclass
class Group:
    """What is to be under one name: polygons, and what rounding did to them."""

    wish: str
    polygons: list[Polygon] = field(default_factory=list)
    tally: rounding.Tally = field(default_factory=rounding.Tally)

    def add(self, polygons: list[Polygon], tally: rounding.Tally) -> None:
        self.polygons.extend(polygons)
        self.tally.add(tally)

    def steps(self) -> int:
        return rounding.steps_of(self.polygons)

    def overlaps(self) -> int:
        """How many pairs of polygons have boxes with a common part."""
        import numpy as np  # which few runs need

        from ..kernel import box_pairs

        boxes = [Box.of_whole(polygon[0]) for polygon in self.polygons]
        return len(box_pairs.pairs_within(np.array(boxes, np.int64).reshape(-1, 4)))


@dataclass
class Layout:
    """The layers of one name: base layers, and where they are several the expression that joins them."""

    name: str
    base: list[tuple[str, list[Polygon]]]
    expression: str | None = None
    chords: int = 0

    def count(self) -> int:
        return len(self.base) + (self.expression is not None)

    def lines(self) -> list[str]:
        found = [f"PUT {name} {wkt.write(polygons)}" for name, polygons in self.base]
        return found + ([f"DEFINE {self.name} = {self.expression}"] if self.expression else [])


@dataclass
class Store:
    """What goes into one store."""

    layouts: list[Layout] = field(default_factory=list)

    def count(self) -> int:
        return sum(layout.count() for layout in self.layouts)


def meet(one: Box, other: Box) -> bool:
    """Whether two boxes have a common part that is more than a border."""
    return one.left < other.right and other.left < one.right and one.low < other.high and other.low < one.high


def runs_of(ring: Ring, most: int = limits.STEPS_MAX) -> list[Ring]:
    """Closed rings of at most so many steps each, at least 3, whose even-odd sum is the ring; itself where it fits."""
    found, at, last = [], 0, len(ring) - 1
    while last - at + (at > 0) > most:
        end = at + most - 1 - (at > 0)
        found.append(ring[:1] * (at > 0) + ring[at : end + 1] + ring[:1])
        at = end
    found.append(ring[:1] * (at > 0) + ring[at:])
    return found


def chunks_of(polygon: Polygon) -> list[Polygon]:
    """A polygon in chunks that a layer can hold: itself, or its rings, each whole or in runs."""
    if rounding.steps_of([polygon]) <= limits.STEPS_MAX:
        return [polygon]
    return [[run] for ring in polygon for run in runs_of(ring)]


def packed(polygons: list[Polygon]) -> list[list[Polygon]]:
    """Chunks of polygons in layers: from the longest down, each in the first that has room."""
    chunks = [chunk for polygon in polygons for chunk in chunks_of(polygon)]
    bins: list[list[Polygon]] = []
    filled: list[int] = []
    if rounding.steps_of(chunks) <= limits.STEPS_MAX:
        return [chunks]
    for chunk in sorted(chunks, key=lambda chunk: -rounding.steps_of([chunk])):
        steps = rounding.steps_of([chunk])
        at = next((i for i, had in enumerate(filled) if had + steps <= limits.STEPS_MAX), len(bins))
        if at == len(bins):
            bins.append([])
            filled.append(0)
        bins[at].append(chunk)
        filled[at] += steps
    return bins


def apart(polygons: list[Polygon]) -> list[list[Polygon]]:
    """Polygons in lists, so that the boxes of those in one list have no common part."""
    lists: list[list[Polygon]] = []
    boxes: list[list[Box]] = []
    for polygon in polygons:
        box = Box.of_whole(polygon[0])
        at = next((i for i, had in enumerate(boxes) if not any(meet(box, other) for other in had)), len(lists))
        if at == len(lists):
            lists.append([])
            boxes.append([])
        lists[at].append(polygon)
        boxes[at].append(box)
    return lists


class Names:
    """The names that are given, each once."""

    def __init__(self) -> None:
        self.taken: set[str] = set()

    def give(self, fitted: str) -> str:
        """A name that begins as the fitted one, and has a number where that is taken."""
        name, number = fitted[: limits.NAME_MAX], 1
        while name in self.taken:
            number += 1
            name = fitted[: limits.NAME_MAX - len(f"_{number}")] + f"_{number}"
        self.taken.add(name)
        return name

    def part(self, name: str, number: int) -> str:
        """The name of a part of a layer."""
        own = name[: limits.NAME_MAX - len(f"_{number}")] + f"_{number}"
        return self.give(own)


def chords_in(lists: list[list[Polygon]]) -> int:
    """How many chords the packing of polygons draws."""
    return sum(len(runs_of(ring)) - 1 for polygons in lists for polygon in polygons
               if rounding.steps_of([polygon]) > limits.STEPS_MAX for ring in polygon)


def split(name: str, polygons: list[Polygon], names: Names, union: bool) -> Layout:
    """The layout of a name over as many layers as it takes; union: what overlapping polygons cover is inside."""
    lists = apart(polygons) if union else [polygons]
    bins = [packed(one) for one in lists]
    if sum(map(len, bins)) <= 1:
        return Layout(name, [(name, bins[0][0] if bins else [])])
    base: list[tuple[str, list[Polygon]]] = []
    terms = []
    for parts in bins:
        own = [(names.part(name, len(base) + i), part) for i, part in enumerate(parts, 1)]
        base += own
        text = " ^ ".join(part for part, _ in own)
        terms.append(f"({text})" if len(own) > 1 and len(bins) > 1 else text)
    return Layout(name, base, " | ".join(terms), chords_in(lists))


def tokens_in(expression: str) -> int:
    return len(expression.replace("(", "( ").replace(")", " )").split())


def fits(layout: Layout) -> bool:
    """Whether one store can hold a layout by itself."""
    return layout.count() <= limits.LAYERS_MAX and tokens_in(layout.expression or "") <= limits.TOKENS_MAX


def in_stores(layouts: list[Layout]) -> list[Store]:
    """The layouts, each of which fits a store, in the first store that has room for it."""
    stores: list[Store] = []
    for layout in layouts:
        found = next((store for store in stores if store.count() + layout.count() <= limits.LAYERS_MAX), None)
        if found is None:
            found = Store()
            stores.append(found)
        found.layouts.append(layout)
    return stores
