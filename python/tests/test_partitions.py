"""overlayd.partitioned: rows of frames in partitions are those of the whole frames."""

from typing import Any

import geopandas
import numpy as np
import pandas as pd
import pytest
from shapely import affinity
from shapely.geometry import Polygon, box

import overlayd

from . import frames_made as made

dask = pytest.importorskip("dask", reason="python3-dask is not installed")
pytestmark = [pytest.mark.features, pytest.mark.filterwarnings("ignore:.keep_geom_type=True:UserWarning")]


def bricks(seed: int, angle: float) -> Any:
    """Rows of parcels of different widths between common straight lines, which the grid has to bring together."""
    draw, shapes = np.random.default_rng(seed), []
    for row in range(8):
        cuts = [0, *sorted(draw.integers(1, 200, 9).tolist()), 200]
        shapes += [box(west, 20 * row, east, 20 * row + 20) for west, east in zip(cuts, cuts[1:]) if west < east]
    turned = [affinity.rotate(one, angle, origin=(0, 0)) for one in shapes]
    return geopandas.GeoDataFrame({f"k{seed}": range(len(turned))}, geometry=turned, crs=made.SYSTEM)


def split(frame: Any, count: int) -> list[Any]:
    return [frame.iloc[part] for part in np.array_split(np.arange(len(frame)), count)]


@pytest.mark.parametrize("angle, size", [(0, "1"), (21.3, "0.001"), (21.3, "0.5")])
@pytest.mark.parametrize("ask, words", [
    (overlayd.pairs, {}), (overlayd.pairs, {"how": "left", "predicate": "shares_area"}), (overlayd.overlay, {}),
    (overlayd.overlay, {"how": "identity"}), (overlayd.overlay, {"how": "difference"}), (overlayd.clip, {})])
def test_rows_are_those_of_one_process(ask: Any, words: dict[str, Any], angle: float, size: str) -> None:
    left, right = bricks(1, angle), bricks(2, angle).iloc[::2]
    wanted = ask(left, right, grid_size=size, **words)
    parts = dask.compute(*overlayd.partitioned(ask, split(left, 5), split(right, 4), grid_size=size, **words))
    keys = [name for name in wanted.columns if name.startswith(("k", "index"))]
    own, other = (one.sort_values(keys, kind="stable") for one in (pd.concat(parts), wanted))
    if ask is overlayd.overlay:  # which numbers its rows anew
        own, other = (one.reset_index(drop=True) for one in (own, other))
    pd.testing.assert_frame_equal(own.drop(columns="geometry"), other.drop(columns="geometry"), check_dtype=False)
    assert len(own) > 20 and all(a.equals(b) for a, b in zip(own.geometry, other.geometry))


def test_what_moves_far_away_counts_everywhere() -> None:
    """Corners less than half a unit beside a step are taken into it where the grid moves something, wherever that is.
    """
    shapes = Polygon([(0, 0), (7, 3), (0, 3)]), box(1000.3, 0, 1010, 10)
    left, right = geopandas.GeoDataFrame(geometry=[*shapes]), geopandas.GeoDataFrame(geometry=[box(2, 1, 4, 2)])
    for own, area in ((left, 1), (left.iloc[:1], shapes[0].intersection(box(2, 1, 4, 2)).area)):
        found = pd.concat(dask.compute(*overlayd.partitioned(overlayd.pairs, split(own, 2), [right], grid_size=1)))
        assert found.shared_area.tolist() == pytest.approx([area])
        pd.testing.assert_frame_equal(pd.DataFrame(found), pd.DataFrame(overlayd.pairs(own, right, grid_size=1)))


def test_an_unnamed_grid_and_rows_of_the_right_frame_are_refused() -> None:
    frames = [bricks(1, 0)], [bricks(2, 0)]
    with pytest.raises(ValueError, match="on partitions the grid has to be named"):
        overlayd.partitioned(overlayd.pairs, *frames, grid_size=None)
    with pytest.raises(ValueError, match="'union' has rows without a left feature"):
        overlayd.partitioned(overlayd.overlay, *frames, grid_size=1, how="union")
