"""Maps of which more features lie over one place than an expression has layers, beside unions by shapely."""

import random

import numpy as np
import pytest
from shapely.geometry import Polygon, box
from shapely.geometry.base import BaseGeometry
from shapely.ops import polygonize, unary_union

from overlayd.api.pieces import alone
from overlayd.geometry.flat_arrays import Numbers
from overlayd.kernel import check, derive, overlay
from overlayd.kernel.cell_jobs import within
from overlayd.kernel.colouring import TooManyColours
from overlayd.kernel.columns import Column, of_bytes
from overlayd.kernel.laying import lay
from overlayd.kernel.membership import members_of, overlapping
from overlayd.kernel.overlaying import overlay_within, pairs_in

from .test_kernel_overlays import GRID, asked

pytestmark = pytest.mark.features
NEAR = 1e-9  # by which shapely's areas, of doubles, may differ in proportion


def column_of(shapes: list[BaseGeometry]) -> Column:
    return of_bytes([shape.wkb for shape in shapes])


def quadrilaterals(seed: int, count: int, reach: int = 1000) -> list[BaseGeometry]:
    """All of them hold the origin, and no one another but by chance."""
    source = random.Random(seed)
    ends = [[source.randint(1, reach) for _ in range(4)] for _ in range(count)]
    return [Polygon([(east, source.randint(-3, 3)), (0, north), (-west, 0), (0, -south)])
            for east, north, west, south in ends]


def near(area: object, shape: BaseGeometry) -> bool:
    return bool(np.isclose(float(area), shape.area, rtol=NEAR, atol=1e-6))  # type: ignore[arg-type]


@pytest.mark.parametrize("count, seed", [(28, 1), (29, 2), (30, 3), (60, 4), (200, 5)])
def test_the_union_of_many_over_one_place(count: int, seed: int) -> None:
    shapes = quadrilaterals(seed, count)
    found = derive({"a": column_of(shapes)}, "a", asked(grid=GRID))
    assert near(found.area.exact(0), unary_union(shapes))


def test_two_deep_maps_and_a_plain_one() -> None:
    a, b, c = quadrilaterals(6, 40), quadrilaterals(7, 45, 700), [box(-300, -300, 50, 60)]
    found = derive({"a": column_of(a), "b": column_of(b), "c": column_of(c)}, "a - b | c", asked(grid=GRID))
    first, second = unary_union(a), unary_union(b)
    assert near(found.area.exact(0), (first - second) | c[0])


@pytest.mark.parametrize("count", (30, 100))
def test_one_parcel_many_times(count: int) -> None:
    shapes = [box(0, 0, 10, 20)] * count + [box(5, 5, 30, 30)]
    found = check(column_of(shapes), asked())
    assert found.covered.exact(0) == 10 * 20 + 25 * 25 - 5 * 15 and found.audit.closes()


def test_what_a_feature_has_alone_beside_many() -> None:
    mine, others = [box(-4000, -300, 500, 200), box(-2000, 0, 1, 1)], quadrilaterals(9, 60)
    ask = asked(grid=GRID)
    common = overlay(column_of(mine), column_of(others), ask)
    found, shared = alone(common, 0, ask), alone(common, 0, ask, within)
    union = unary_union(others)
    for rows, expected in ((found, [one - union for one in mine]), (shared, [one & union for one in mine])):
        assert rows.jobs.tolist() == [0, 1]
        assert all(near(rows.areas().exact(place), shape) for place, shape in enumerate(expected))


@pytest.mark.parametrize("most", (3, 4, 6, 9, 28))
def test_layers_are_the_union_or_are_refused(most: int) -> None:
    shapes = quadrilaterals(most, 12)
    laid = lay([column_of(shapes)], GRID)
    rows = overlapping(overlay_within(laid, pairs_in(laid.maps[0]), asked()))
    try:
        members = members_of(laid.maps[0], rows, asked(), most)
    except TooManyColours as fault:
        assert most < 9 and fault.most == most
        return
    assert members.count() <= most and covers_all(shapes, members.feature, members.layer)


def covers_all(shapes: list[BaseGeometry], feature: Numbers, layer: Numbers) -> bool:
    """Whether each place of a shape is in some layer, by a point in each face of all borders."""
    points = [face.representative_point() for face in polygonize(unary_union([one.exterior for one in shapes]))]
    holds = np.array([[shape.contains(point) for point in points] for shape in shapes])
    odd = np.array([(holds[feature[layer == number]].sum(axis=0) % 2) for number in np.unique(layer)])
    return bool((odd.any(axis=0) == holds.any(axis=0)).all())
