"""Overlays, checks and expressions by the kernel, beside areas by slabs of fractions."""

import dataclasses
import itertools
import math
import random
import time
from collections.abc import Iterator
from fractions import Fraction

import numpy as np
import pytest
from osgeo import ogr

from overlayd.geometry.flat_arrays import owners
from overlayd.kernel import Ask, Cancelled, Grid, MapFault, Wants, check, derive, overlay
from overlayd.kernel.asking import sum_of
from overlayd.kernel.colouring import TooManyColours, colours
from overlayd.kernel.columns import Column, columns_joined, of_bytes
from overlayd.kernel.deriving import NoMap
from overlayd.kernel.laying import What, lay
from overlayd.kernel.spelling import name_of
from overlayd.kernel.polygons import polygons_of
from overlayd.kernel.rows import CELLS, RINGS, WIDE, Kind, Rows
from overlayd.kernel.shapes import column_of

from . import slabs
from .common import Programs

Map = list[list[slabs.Ring]]
GRID = Grid(Fraction(1))


def column(features: Map, scale: int = 1) -> Column:
    """Features as shapes, each ring a polygon of its own: even-odd insides stay what they are."""
    rings = [ring for feature in features for ring in feature]
    corners = np.array([corner for ring in rings for corner in ring], float).reshape(-1, 2) / scale
    return column_of(corners[:, 0], corners[:, 1], np.array([len(ring) for ring in rings], np.int64),
                     np.full(len(rings), -1), np.array([len(feature) for feature in features], np.int64))


def asked(wants: Wants = Wants.NOTHING, grid: Grid = GRID) -> Ask:
    assert Programs.features is not None
    return Ask(Programs.features, wants, grid)


def drawn(seed: int, count: int, reach: int) -> Map:
    source = random.Random(seed)
    return [slabs.rings(source, reach) for _ in range(count)]


SQUARE = [(0, 0), (4, 0), (4, 4), (0, 4)]


@pytest.mark.features
@pytest.mark.parametrize("seed, reach", itertools.product(range(6), (5, 40)))
def test_a_check_finds_overlaps_and_closes(seed: int, reach: int) -> None:
    features = drawn(seed, 6, reach)
    found = check(column(features), asked())
    areas = {(i, j): slabs.common(features[i], features[j]) for i, j in itertools.combinations(range(6), 2)}
    assert [*map(tuple, found.overlaps.pairs.tolist())] == [pair for pair, area in areas.items() if area]
    covered = slabs.area(features, any)
    assert abs(found.covered.exact(0) - covered) <= found.covered.bound(0)
    assert found.audit.closes() and not len(found.unanswered)
    deeper = covered - sum(slabs.common(own, own) for own in features) + sum(areas.values())
    assert abs(Fraction(found.audit.deeper, 2**41) - deeper) <= Fraction(found.audit.off, 2**41)


@pytest.mark.features
def test_gaps_are_what_features_enclose() -> None:
    frame = [(0, 0), (12, 0), (12, 12), (0, 12)]
    holes = [[(2, 2), (4, 2), (4, 4), (2, 4)], [(6, 6), (9, 6), (9, 9), (6, 9)]]
    island = [(7, 7), (8, 7), (8, 8), (7, 8)]
    features: Map = [[frame, *holes], [island]]
    found = check(column(features), asked(Wants.OUTLINES))
    frame_area, own = 14 * 14, 12 * 12 - 4 - 9 + 1
    assert found.covered.exact(0) == own and found.open.exact(0) == frame_area - own
    assert found.audit.closes() and not len(found.overlaps)
    assert found.gaps is not None and sorted(found.gaps.areas.tolist()) == [4, 8]
    texts = {ogr.CreateGeometryFromWkb(one).ExportToWkt() for one in found.gaps.outlines.to_list()}
    assert any("),(" in text for text in texts) and len(texts) == 2


def star(corners: int, turn: float) -> slabs.Ring:
    """A ring that crosses itself at each step."""
    angles = [2 * math.pi * (place * (corners // 2) / corners + turn) for place in range(corners)]
    return [(round(250_000 * math.cos(angle)), round(250_000 * math.sin(angle))) for angle in angles]


@pytest.mark.features
def test_a_long_pass_is_cancelled_within_two_seconds() -> None:
    shapes = [column([[star(20_001, turn)]]) for turn in (0.0, 0.1)]
    began, looked = time.monotonic(), [0.0]

    def goes_on(part: float) -> bool:
        looked[0] = time.monotonic()
        return time.monotonic() < began + 4

    assert Programs.features is not None
    with pytest.raises(Cancelled):
        overlay(*shapes, Ask(Programs.features, grid=GRID, goes_on=goes_on))
    assert looked[0] - began >= 4 and time.monotonic() - looked[0] < 2


@pytest.mark.features
def test_progress_goes_from_nothing_to_all() -> None:
    parts = [0.0]

    def goes_on(part: float) -> bool:
        parts.append(part)
        return True

    features: Map = [[[(x + place, y + place) for x, y in SQUARE]] for place in range(200)]
    assert Programs.features is not None
    assert check(column(features), Ask(Programs.features, grid=GRID, goes_on=goes_on, size=10)).audit.closes()
    assert parts == sorted(parts) and parts[-1] <= 1


def test_faults_say_the_map_the_feature_and_what_would_do() -> None:
    good, wide = column([[SQUARE]]), column([[SQUARE], [[(0, 0), (10**9, 0), (0, 10**9)]]])
    with pytest.raises(MapFault) as fault:
        lay([good, wide], Grid(Fraction(10**6)))
    own = fault.value
    assert (own.map, own.feature, own.what, own.length, own.grid) == (1, 1, What.RANGE, 10.0**9, Fraction(1, 1000))
    line = ogr.CreateGeometryFromWkt("LINESTRING (0 0, 1 1)").ExportToWkb()
    with pytest.raises(MapFault, match="map 0, feature 1: it is neither a polygon nor a multipolygon, but of kind 2"):
        lay([of_bytes([good.shape(0), bytes(line)])])
    with pytest.raises(MapFault, match="map 0, feature 0: its bytes end too early"):
        lay([of_bytes([good.shape(0)[:-3]])])


def test_what_the_grid_does_is_told_as_numbers() -> None:
    big = [(0, 0), (10, 0), (10, 10), (0, 10)]
    nothing = lay([column([[big]]), column([[big]])], GRID)
    assert dataclasses.astuple(nothing.moves) == (0.0, 0, 0, 0)
    # Ten quarters are moved by a half of a unit, as far as parts of 2^-16 say; two corners lie on the long edge there.
    rounded = lay([column([[big]], 4), column([[[(4, 0), (6, 0), (6, -6), (4, -6)]]], 4)], GRID)
    assert abs(rounded.moves.moved - 0.5) <= 2**-15 and rounded.moves.taken == 2
    assert rounded.alone(0).moves == rounded.moves
    fine = lay([column([[big]], 4)], Grid(Fraction(1, 10)))
    assert abs(fine.moves.moved - 2.5) <= 10 * 2**-15
    long = lay([column([[[(0, 0), (2**20, 1), (0, 3)]]])], GRID).moves
    assert (long.moved, long.taken, long.bent) == (0.0, 0, 2) and long.bends >= 2


def test_an_expression_without_a_map_is_refused() -> None:
    for maps, named in (({}, "none is given"), ({"built": column([[SQUARE]])}, "built")):
        with pytest.raises(NoMap, match=f"the expression names no map; say one of: {named}"):
            derive(maps, "", Ask("no program"))


def test_features_that_collapse_are_named() -> None:
    found = lay([column([[SQUARE], [[(0, 0), (1, 0), (0, 1)]]], 4)], GRID)
    assert [gone.tolist() for gone in found.collapsed] == [[1]] and "1 rings collapsed" in found.line


@pytest.mark.parametrize("seed", range(20))
def test_colours_of_pairs_differ(seed: int) -> None:
    source = random.Random(seed)
    count = source.randint(2, 60)
    pairs = [source.sample(range(count), 2) for _ in range(source.randint(0, 3 * count))]
    found = colours(count, np.array(pairs, np.int64).reshape(-1, 2), 60)
    assert all(found[i] != found[j] for i, j in pairs) and found.min() == 0
    degree = max((sum(number in pair for pair in pairs) for number in range(count)), default=0)
    assert found.max() <= degree


def test_too_many_colours_name_a_feature() -> None:
    every = np.array([*itertools.combinations(range(6), 2)])
    assert sorted(colours(6, every, 6).tolist()) == [*range(6)]
    with pytest.raises(TooManyColours):
        colours(6, every, 5)
    assert [name_of(number) for number in (0, 25, 26, 28)] == ["Laa", "Laz", "Lba", "Lbc"]


def wide(numbers: list[int]) -> np.ndarray[object, np.dtype[np.void]]:
    return np.array([(number & 2**64 - 1, number >> 64) for number in numbers], WIDE)


@pytest.mark.parametrize("seed", range(20))
def test_sums_of_sixteen_bytes(seed: int) -> None:
    source = random.Random(seed)
    numbers = [source.randint(-2**120, 2**120) >> source.randint(0, 120) for _ in range(source.randint(0, 99))]
    assert sum_of(wide(numbers)) == sum(numbers)


def rings_of(rows: list[list[tuple[slabs.Ring, int]]]) -> Iterator[tuple[int, int, slabs.Ring]]:
    for row, rings in enumerate(rows):
        for ring, outer in rings:
            yield row, outer, ring


def test_polygons_of_rows_have_their_holes() -> None:
    hole, far = [(1, 1), (1, 2), (2, 2), (2, 1)], [(9, 0), (11, 0), (9, 2)]
    none = 2**32 - 1
    made = [*rings_of([[(far, none), (SQUARE, none), (hole, 1)], [], [(SQUARE, none)]])]
    rows = np.zeros(3, CELLS)
    rows["rings"] = [3, 0, 1]
    corners = np.array([corner for _, _, ring in made for corner in ring], float)
    rings = np.array([(row, outer, len(ring), 0) for row, outer, ring in made], RINGS)
    found = polygons_of(Rows(Kind.CELLS, rows, rings, corners), Fraction(2))
    assert found.areas.tolist() == [0.5, 15 / 4, 4]
    assert found.boxes.tolist() == [[9, 0, 11, 2], [0, 0, 4, 4], [0, 0, 4, 4]]
    texts = [ogr.CreateGeometryFromWkb(one).ExportToWkt() for one in found.outlines.to_list()]
    assert texts[:2] == ["POLYGON ((4.5 0.0,5.5 0.0,4.5 1.0,4.5 0.0))",
                         "POLYGON ((0 0,2 0,2 2,0 2,0 0),(0.5 0.5,0.5 1.0,1 1,1.0 0.5,0.5 0.5))"]
    assert not len(polygons_of(Rows(Kind.CELLS, rows[:0], rings[:0], corners[:0]), Fraction(1)).areas)


def test_columns_are_parted_and_joined() -> None:
    whole = column([[SQUARE], [], [SQUARE, SQUARE]])
    assert whole.part(np.array([2, 0])).to_list() == [whole.shape(2), whole.shape(0)]
    assert columns_joined([whole, whole.part(np.array([1]))]).to_list() == [*whole.to_list(), whole.shape(1)]
    assert not len(columns_joined([])) and owners(np.diff(whole.at)).max() == 2
