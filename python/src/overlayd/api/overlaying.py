"""overlay: as geopandas.overlay, exactly on a grid."""

from typing import Any

import geopandas
import numpy as np

from ..kernel import Wants
from ..kernel.asking import Areas
from . import tables
from .asking import GridSize, asked, refusals_told
from .frames import (Frame, column_of, faults_told, has_others, need_polygons, need_valid, shapes_of, unit_of,
                     warn_of_dropped, warn_of_systems, with_told)
from .pieces import COMMON, HOWS, Pieces, pieces
from .remains import with_remains


def overlay(df1: Frame, df2: Frame, how: str = "intersection", keep_geom_type: bool | None = None,
            make_valid: bool = True, *, grid_size: GridSize = None, exact: str | None = None, others: str = "raise",
            square_metres: bool = False, program: str | None = None) -> Frame:
    """As geopandas.overlay, exactly on a grid: the rows, columns, index, order and warnings are its.

    grid_size is in units of the frames, as 0.001 or "1/3"; without it the default grid is taken. exact names a column
    for areas as fractions. Outlines that cross themselves need no repair, so make_valid=False only refuses them. Points
    and lines that polygons have in common, which keep_geom_type=False asks for, are of GEOS. Frames of points and lines
    are refused, or by others="geopandas" left to geopandas.overlay; so are, by square_metres, frames in another unit
    (NotInMetres). .attrs["overlayd"] says what the grid did."""
    if how not in HOWS:
        raise ValueError(f"`how` was '{how}' but is expected to be in {HOWS}")
    if isinstance(df1, geopandas.GeoSeries) or isinstance(df2, geopandas.GeoSeries):
        raise NotImplementedError("overlay currently only implemented for GeoDataFrames")
    if others == "geopandas" and has_others(df1, df2):
        return geopandas.overlay(df1, df2, how, keep_geom_type, make_valid)
    warn_of_systems(df1, df2, 2)
    need_polygons(df1=df1, df2=df2)
    need_valid(make_valid, df1, df2)
    unit = unit_of(df1, df2, square_metres=square_metres)
    if how == "intersection" and are_apart(df1, df2):
        return tables.empty(df1, df2)
    ask = asked(program, grid_size, unit, Wants.OUTLINES)
    with faults_told(df1=df1, df2=df2), refusals_told("overlay"):
        # An identity has a union's types of columns, by what the other map has alone.
        wanted = "union" if how == "identity" else how
        found = pieces(column_of(df1), column_of(df2), wanted, ask, df1.index, df2.index)
    result = tables.finished(Table(df1, df2, found, exact).laid_out(how, keep_geom_type is False))
    if keep_geom_type is None and how in COMMON:
        warn_of_dropped(found.touches(), 2)
    return with_told(result, found.both.laid, df1=df1, df2=df2)


def are_apart(df1: Frame, df2: Frame) -> bool:
    """Whether the boxes of two frames have no common point."""
    a, b = df1.total_bounds, df2.total_bounds
    return not (a[0] <= b[2] and b[0] <= a[2] and a[1] <= b[3] and b[1] <= a[3])


class Table:
    """The rows of the pieces of two frames."""

    def __init__(self, df1: Frame, df2: Frame, found: Pieces, exact: str | None) -> None:
        self.frames, self.found, self.exact = (df1, df2), found, exact

    def laid_out(self, how: str, with_others: bool) -> Frame:
        """All rows that are wanted, with the places of features."""
        if how == "difference":
            return self._alone(0)
        if how == "intersection":
            return self._both(with_others)
        rest = tables.apart(self._alone(0), self._alone(1), self.frames[0].crs)
        if self.exact is not None:
            rest = joined(rest, self.exact)
        if how == "symmetric_difference":
            return rest
        result = tables.union(self._both(with_others), rest)
        return result[result[tables.FIRST].notnull()].copy() if how == "identity" else result

    def _both(self, with_others: bool) -> Frame:
        df1, df2 = self.frames
        rows = self.found.both
        assert rows.outlines is not None
        shapes = shapes_of(rows.outlines, df1.crs)
        if with_others:
            sides = [df.geometry.to_numpy()[rows.pairs[:, place]] for place, df in enumerate(self.frames)]
            shapes = geopandas.GeoSeries([with_remains(*three) for three in zip(shapes, *sides)], crs=df1.crs)
        return tables.common(df1, df2, rows.pairs, shapes, self._measures(rows.areas()))

    def _alone(self, side: int) -> Frame:
        found, frame = (self.found.first, self.found.second)[side], self.frames[side]
        if found is None:
            return frame.iloc[:0]
        assert found.outlines is not None
        shapes = shapes_of(found.outlines, frame.crs).to_numpy()
        return tables.alone(frame, found.jobs, shapes, self._measures(found.areas()))

    def _measures(self, areas: Areas) -> dict[str, Any]:
        """The areas as fractions, where these are wanted."""
        if self.exact is None:
            return {}
        return {self.exact: np.array([areas.exact(place) for place in range(len(areas))], object)}


def joined(rest: Frame, exact: str) -> Frame:
    """One column of areas of the two that a merge has made."""
    first, second = (f"{exact}{suffix}" for suffix in tables.SUFFIXES)
    both = rest[first].where(rest[first].notnull(), rest[second])
    return tables.geometry_last(rest.drop(columns=[first, second]).assign(**{exact: both}), "geometry")
