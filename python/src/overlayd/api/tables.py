"""Rows of parts as geopandas.overlay lays them out: columns, index and order."""

from collections.abc import Mapping, Sequence
from typing import Any

import geopandas
import numpy as np
import pandas as pd

from ..geometry.flat_arrays import Numbers
from .frames import Frame

FIRST, SECOND = "__idx1", "__idx2"
SUFFIXES = ("_1", "_2")


def empty(df1: Frame, df2: Frame) -> Frame:
    """What both have in common, without rows."""
    result = df1.iloc[:0].merge(df2.iloc[:0].drop(df2.geometry.name, axis=1), left_index=True, right_index=True,
                                suffixes=SUFFIXES)
    return geometry_last(result, df1.geometry.name)


def geometry_last(table: Frame, name: str) -> Frame:
    """The same with a column of shapes after all others."""
    return table[[column for column in table.columns if column != name] + [name]]


def common(df1: Frame, df2: Frame, pairs: Numbers, shapes: Any, more: Mapping[str, Any]) -> Frame:
    """A row for each pair, with its shape and more columns, but for those without a shape. These are merged with the
    others first, since the order in which pandas merges depends on all of them."""
    if not len(pairs):
        result = empty(df1, df2)
        for name in (FIRST, SECOND, *more):
            result[name] = None
        return geometry_last(result, df1.geometry.name)
    table = pd.DataFrame({FIRST: pairs[:, 0], SECOND: pairs[:, 1]})
    sides = [df.reset_index(drop=True).drop(df.geometry.name, axis=1) for df in (df1, df2)]
    table = table.merge(sides[0], left_on=FIRST, right_index=True)
    table = table.merge(sides[1], left_on=SECOND, right_index=True, suffixes=SUFFIXES)
    # Shapes and what is more go by the numbers of the pairs, which are the index of the table.
    table = table.assign(**{name: pd.Series(own, dtype=object) for name, own in more.items()})
    table = geopandas.GeoDataFrame(table, geometry=shapes, crs=df1.crs)
    return table[~table.geometry.is_empty]


def alone(df: Frame, places: Numbers, shapes: Sequence[Any], more: Mapping[str, Any]) -> Frame:
    """A row for each feature that has something alone, with its shape and more columns, in the order and by the index
    of its frame."""
    result = df.iloc[places].copy()
    result[df.geometry.name] = geopandas.GeoSeries(shapes, index=result.index, crs=df.crs)
    return geometry_last(result.assign(**more), df.geometry.name) if more else result


def apart(first: Frame, second: Frame, crs: Any) -> Frame:
    """The rows that one map has alone, then those of the other one."""
    sides = []
    for frame, own, other in ((first, FIRST, SECOND), (second, SECOND, FIRST)):
        table = frame.assign(**{own: range(len(frame)), other: np.nan})
        if frame.geometry.name != "geometry":
            table = table.drop(columns="geometry", errors="ignore").rename_geometry("geometry")
        sides.append(table)
    table = sides[0].merge(sides[1], on=[FIRST, SECOND], how="outer", suffixes=SUFFIXES)
    shapes = table["geometry_1"].where(table["geometry_1"].notnull(), table["geometry_2"])
    table = table.drop(columns=["geometry_1", "geometry_2"]).reset_index(drop=True)
    return geopandas.GeoDataFrame(table, geometry=geopandas.GeoSeries(shapes.to_numpy()), crs=crs)


def union(both: Frame, rest: Frame) -> Frame:
    """The rows of both, then the others."""
    result = pd.concat([both, rest], ignore_index=True, sort=False)
    return result.reindex(columns=[name for name in result.columns if name != "geometry"] + ["geometry"])


def finished(table: Frame) -> Frame:
    """Without the places of features, numbered anew."""
    return table.drop(columns=[FIRST, SECOND], errors="ignore").reset_index(drop=True)
