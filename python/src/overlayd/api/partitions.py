"""Questions of two frames in partitions, by Dask: the rows are those of the whole frames.

Rows are worked out by left partitions: with each come the right ones whose boxes meet it, and beside these all that lie
about them, whose corners may lie on steps of either. Nothing is found twice.
"""

import dataclasses
from collections.abc import Callable, Sequence
from fractions import Fraction
from typing import Any

import numpy as np
import pandas as pd

from ..geometry.flat_arrays import Numbers
from ..grid_pass.default_grid import Unit
from ..grid_pass.onto_grid import Noding, Rings, of_rings
from ..kernel.laying import shapes_of
from .asking import GridSize, grid_of
from .frames import Frame, column_of, unit_of

HOWS = ("inner", "left", "intersection", "identity", "difference")
MARGIN = 2  # units of the grid by which boxes may grow on it


def partitioned(ask: Callable[..., Frame], left: Sequence[Any], right: Sequence[Any], *, grid_size: GridSize,
                **words: Any) -> list[Any]:
    """What a function of two frames, as pairs, overlay or clip, gives of partitions: for each left one its rows, as
    dask.delayed has them. Partitions are frames, or what Dask makes such of. The grid has to be named, as the default
    one of each partition would be another; and a how is refused whose rows are not of left features alone."""
    import dask

    if words.get("how", HOWS[0]) not in HOWS:
        raise ValueError(f"how: {words['how']!r} has rows without a left feature; on partitions it is one of {HOWS}")
    factor = grid_of(grid_size, Unit.UNKNOWN).factor
    if factor is None:
        raise ValueError("grid_size: on partitions the grid has to be named")
    parts = [dask.delayed(one) for one in (*left, *right)]
    boxes, moved = zip(*dask.compute(*(dask.delayed(looked_at)(one, factor) for one in parts)))
    noding = Noding.MOVED if any(moved) else Noding.WHERE_MOVED
    all_boxes, found = np.array(boxes), []
    for place in range(len(left)):
        near = [one for one in meeting(all_boxes, [place], factor) if one >= len(left)] or [len(left)]
        beside = [one for one in meeting(all_boxes, [place, *near], factor) if one not in (place, *near)]
        given = [[parts[one] for one in own] for own in (near, beside)]
        found.append(dask.delayed(of_part)(ask, parts[place], *given, grid_size, noding, words))
    return found


def looked_at(frame: Frame, factor: Fraction) -> tuple[Any, bool]:
    """The box of a partition, and whether the grid moves or bends something of it."""
    read = shapes_of(0, column_of(frame))
    placed = of_rings(Rings(read.x, read.y, read.sizes), factor)
    return frame.total_bounds, placed.is_moved() or placed.is_long()


def meeting(boxes: Numbers, places: Sequence[int], factor: Fraction) -> list[int]:
    """The boxes that meet one of some."""
    margin, own = float(MARGIN / factor), boxes[places]
    meets = ((boxes[:, None, :2] <= own[:, 2:] + margin) & (boxes[:, None, 2:] >= own[:, :2] - margin)).all(2)
    found: list[int] = np.flatnonzero(meets.any(1)).tolist()
    return found


def of_part(ask: Callable[..., Frame], left: Frame, right: Sequence[Frame], beside: Sequence[Frame], size: GridSize,
            noding: Noding, words: dict[str, Any]) -> Frame:
    """The rows of a left partition."""
    grid = dataclasses.replace(grid_of(size, unit_of(left)), noding=noding, beside=[column_of(one) for one in beside])
    return ask(left, pd.concat(right), grid_size=grid, **words)
