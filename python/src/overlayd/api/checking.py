"""check: where features of one frame overlap, and the gaps between them."""

from typing import NamedTuple

import geopandas

from ..kernel import Wants
from .asking import GridSize, asked, refusals_told
from .frames import Frame, column_of, faults_told, need_polygons, shapes_of, unit_of, with_told
from .pairing import AREA, BOUND
from .pieces import checked

GAP = "gap_area"


class Checked(NamedTuple):
    """What is wrong in one frame, the largest first; and whether the sums of areas agree with that."""

    overlaps: Frame
    gaps: Frame
    closes: bool


def check(df: Frame, *, grid_size: GridSize = None, square_metres: bool = False, program: str | None = None) -> Checked:
    """The overlaps of features, by the labels index_left and index_right, with shared_area and its bound; and the gaps
    that they enclose, with gap_area. By square_metres a frame in another unit is refused (NotInMetres)."""
    need_polygons(df=df)
    ask = asked(program, grid_size, unit_of(df, square_metres=square_metres), Wants.OUTLINES)
    with faults_told(df=df), refusals_told("check"):
        found = checked(column_of(df), ask, df.index)
    rows, gaps = found.overlaps, found.gaps
    assert rows.outlines is not None
    columns = {"index_left": df.index[rows.pairs[:, 0]], "index_right": df.index[rows.pairs[:, 1]],
               AREA: rows.areas().doubles(), BOUND: rows.areas().bounds()}
    overlaps = geopandas.GeoDataFrame(columns, geometry=shapes_of(rows.outlines, df.crs), crs=df.crs)
    holes = geopandas.GeoDataFrame({GAP: gaps.areas}, geometry=shapes_of(gaps.outlines, df.crs), crs=df.crs)
    return Checked(with_told(overlaps, rows.laid, df=df), with_told(holes, rows.laid, df=df), found.closes)
