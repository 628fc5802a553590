"""overlayd.pairs beside shapely, geopandas and fractions."""

import itertools
from fractions import Fraction
from typing import Any

import geopandas
import pandas as pd
import pytest

import overlayd
from overlayd.api.pairing import PREDICATES

from . import frames_made as made
from . import slabs

pytestmark = pytest.mark.features


def wanted(predicate: str, first: Any, second: Any) -> bool:
    """What shapely says of rectangles in whole numbers."""
    if predicate == "shares_area":
        return bool(first.intersection(second).area > 0)
    if predicate == "contains_properly":
        return bool(first.relate_pattern(second, "T**FF*FF*"))
    return bool(getattr(first, predicate)(second))


@pytest.mark.parametrize("predicate", PREDICATES)
@pytest.mark.parametrize("seed", range(3))
def test_predicates_are_those_of_shapely(predicate: str, seed: int) -> None:
    left = made.boxes(seed, 14, "first")
    right = pd.concat([made.boxes(seed + 9, 14, "second"), left.rename(columns={"first": "second"}).iloc[:3]])
    found = overlayd.pairs(left, right, predicate=predicate)
    pairs = [(i, j) for i, j in itertools.product(range(len(left)), range(len(right)))
             if wanted(predicate, left.geometry.iloc[i], right.geometry.iloc[j])]
    assert [*zip(found["first"], found["index_right"])] == [(i, right.index[j]) for i, j in pairs]
    areas = [left.geometry.iloc[i].intersection(right.geometry.iloc[j]).area for i, j in pairs]
    assert found["shared_area"].tolist() == areas
    assert (found["relation"].isin(["touches", "overlaps", "within", "contains", "equals"])).all()


def corners(shape: Any) -> slabs.Ring:
    return [(int(x), int(y)) for x, y in shape.exterior.coords[:-1]]


def test_areas_are_within_their_bounds() -> None:
    left, right = (made.stars(seed, 12).assign(geometry=lambda frame: frame.geometry.apply(whole)) for seed in (1, 2))
    found = overlayd.pairs(left, right, exact="fraction")
    assert len(found) > 30
    for row in found.itertuples():
        first, second = (corners(frame.geometry.iloc[place]) for frame, place in (
            (left, row.star_left), (right, row.star_right)))
        area = slabs.common([first], [second])
        assert abs(Fraction(row.shared_area) - area) <= Fraction(row.shared_area_bound)
        assert row.fraction == area


def whole(shape: Any) -> Any:
    """A polygon with corners at whole numbers."""
    return type(shape)([(round(x), round(y)) for x, y in shape.exterior.coords])


@pytest.mark.parametrize("how", ["inner", "left", "right"])
def test_a_join_has_the_rows_of_sjoin(how: str) -> None:
    left, right = made.boxes(1, 12, "first"), made.boxes(2, 12, "second")
    found = overlayd.pairs(left, right, how, "overlaps").drop(columns=["shared_area", "shared_area_bound", "relation"])
    keys = ["first", "second"]
    theirs = geopandas.sjoin(left, right, how, "overlaps").sort_values(keys, kind="stable")
    pd.testing.assert_frame_equal(found.sort_values(keys, kind="stable"), theirs)


def test_parcels_along_zones_lie_within_them() -> None:
    parcels, zones = made.turned(12, 5, 4)
    found = overlayd.pairs(parcels, zones, predicate="within")
    assert found["parcel"].tolist() == [*range(60)] and found["shared_area"].min() > 599
    assert len(geopandas.sjoin(parcels, zones, predicate="within")) < 60
    assert len(overlayd.pairs(parcels, zones, predicate="shares_area")) == 60


def test_words_that_are_wrong_are_refused() -> None:
    left, right = made.boxes(1, 3, "first"), made.boxes(2, 3, "second")
    with pytest.raises(ValueError, match="'near' is none of intersects"):
        overlayd.pairs(left, right, predicate="near")
    with pytest.raises(ValueError, match="'shared_area' cannot be a name .* as right_df has it"):
        overlayd.pairs(left, right.assign(shared_area=1))
    with pytest.raises(ValueError, match="`how` was"):
        overlayd.pairs(left, right, "outer")
    with pytest.raises(ValueError, match="GeoDataFrame"):
        overlayd.pairs(left, right.geometry)
