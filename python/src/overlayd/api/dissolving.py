"""dissolve: as GeoDataFrame.dissolve, with exact unions."""

from typing import Any

import geopandas
import numpy as np

from ..kernel import Wants
from ..kernel.laying import lay
from . import cells
from .asking import GridSize, asked, refusals_told
from .frames import Frame, column_of, faults_told, need_polygons, shapes_of, unit_of, with_told


def dissolve(df: Frame, by: Any = None, aggfunc: Any = "first", as_index: bool = True, level: Any = None,
             sort: bool = True, observed: bool = False, dropna: bool = True, *, grid_size: GridSize = None,
             program: str | None = None) -> Frame:
    """As GeoDataFrame.dissolve: what features of one group cover together, and what pandas makes of their columns."""
    need_polygons(df=df)
    grouped: dict[str, Any] = {"by": by, "level": level, "sort": sort, "observed": observed, "dropna": dropna}
    if by is None and level is None:
        grouped["by"] = np.zeros(len(df), np.int64)
    data = df.drop(columns=df.geometry.name).groupby(**grouped)
    table = data.agg(aggfunc)
    table.columns = table.columns.to_flat_index()
    groups = data.ngroup().to_numpy()
    ask = asked(program, grid_size, unit_of(df), Wants.OUTLINES)
    with faults_told(df=df), refusals_told("dissolve"):
        laid = lay([column_of(df)], ask.grid)
        layers = cells.layers_of(laid, 0, ask.stage(0, 0.5), groups)
        found = cells.united(laid.maps[0], groups, layers, laid, ask.stage(0.5, 1, ask.wants)).answered()
    assert found.outlines is not None
    shapes = np.full(data.ngroups, None, object)
    shapes[found.jobs] = shapes_of(found.outlines, df.crs).to_numpy()
    series = geopandas.GeoSeries(shapes, index=data.size().index, crs=df.crs, name=df.geometry.name)
    result = geopandas.GeoDataFrame(series, geometry=df.geometry.name, crs=df.crs).join(table)
    return with_told(result if as_index else result.reset_index(), laid, df=df)
