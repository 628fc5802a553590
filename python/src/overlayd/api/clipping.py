"""clip: as geopandas.clip, exactly on a grid."""

from typing import Any

import geopandas
from shapely.geometry import MultiPolygon, Polygon, box

from ..kernel import Wants
from ..kernel import overlay as pairs_of_maps
from ..kernel.cell_jobs import within
from ..kernel.rows import Relation
from . import cells
from .asking import GridSize, asked, refusals_told
from .frames import (Frame, column_of, faults_told, need_polygons, shapes_of, unit_of, warn_of_systems, with_told)
from .overlaying import are_apart
from .pieces import answered


def clip(gdf: Frame, mask: Any, keep_geom_type: bool = True, *, grid_size: GridSize = None,
         program: str | None = None) -> Frame:
    """As geopandas.clip: of each feature what lies in a mask, which is a frame or a series, whose features count
    together, a polygon, or a box (least x, least y, greatest x, greatest y). The index and all columns stay.

    Polygons alone are given, as by keep_geom_type=True, which is the only choice here."""
    if not keep_geom_type:
        raise NotImplementedError("keep_geom_type=False: an exact overlay has polygons alone")
    if not isinstance(gdf, (geopandas.GeoDataFrame, geopandas.GeoSeries)):
        raise TypeError(f"'gdf' should be GeoDataFrame or GeoSeries, got {type(gdf)}")
    masks = mask_of(mask, gdf.crs)
    warn_of_systems(gdf, masks, 2)
    need_polygons(gdf=gdf, mask=masks)
    if are_apart(gdf, masks):
        return gdf.iloc[:0]
    ask = asked(program, grid_size, unit_of(gdf, masks), Wants.OUTLINES)
    with faults_told(gdf=gdf, mask=masks), refusals_told("clip"):
        rows = pairs_of_maps(column_of(gdf), column_of(masks), ask.stage(0, 0.4))
        rows = answered(rows, gdf.index, masks.index)
        laid = rows.laid
        lie = rows.pairs[rows.relations() >= Relation.OVERLAPS]
        own, others = laid.maps
        layers = cells.layers_of(laid, 1, ask.stage(0.4, 0.6))
        found = cells.with_others(own, others, lie, layers, within, laid, ask.stage(0.6, 1, ask.wants)).answered()
    assert found.outlines is not None
    result = gdf.iloc[found.jobs].copy()
    shapes = shapes_of(found.outlines, gdf.crs, result.index)
    if isinstance(result, geopandas.GeoSeries):
        result = shapes.rename(gdf.name)
    else:
        result[result.geometry.name] = shapes
    return with_told(result, laid, gdf=gdf, mask=masks)


def mask_of(mask: Any, crs: Any) -> Frame:
    """A mask as a series of polygons."""
    if isinstance(mask, (geopandas.GeoDataFrame, geopandas.GeoSeries)):
        return mask.geometry
    if isinstance(mask, (Polygon, MultiPolygon)):
        return geopandas.GeoSeries([mask], crs=crs)
    if len(mask) != 4:
        raise TypeError("If 'mask' is list-like, it must have four values (minx, miny, maxx, maxy)")
    return geopandas.GeoSeries([box(*mask)], crs=crs)
