"""GeoDataFrames as columns of Well-Known Binary, and back, with what the grid did."""

import contextlib
import dataclasses
import warnings
from collections.abc import Iterator, Sequence
from typing import Any

import geopandas
from geopandas.array import _check_crs, _crs_mismatch_warn

from ..grid_pass.default_grid import Unit
from ..grid_pass.telling import spelled
from ..kernel.columns import Column, of_bytes
from ..kernel.laying import Laid, MapFault
from .asking import need_metres

Frame = Any  # a GeoDataFrame: geopandas has no types
POLYGONS = ("Polygon", "MultiPolygon")
TOLD = "overlayd"  # under which .attrs say what was done


def column_of(frame: Frame) -> Column:
    """The shapes of a frame or a series. What is missing or empty has no bytes."""
    shapes = frame.geometry
    is_empty = (shapes.isna() | shapes.is_empty).to_numpy()
    return of_bytes([None if empty else one for one, empty in zip(shapes.to_wkb(), is_empty)])


def shapes_of(column: Column, crs: Any, index: Any = None) -> Any:
    """A series of the shapes of a column."""
    return geopandas.GeoSeries.from_wkb(column.to_list(), index=index, crs=crs)


def kinds_of(frame: Frame) -> set[str]:
    """The kinds of shapes that are there; what is empty has none."""
    shapes = frame.geometry
    return set(shapes.geom_type[~(shapes.isna() | shapes.is_empty)])


def has_others(*frames: Frame) -> bool:
    """Whether there are other shapes than polygons."""
    return any(not kinds_of(frame) <= set(POLYGONS) for frame in frames)


def need_polygons(**frames: Frame) -> None:
    """Refuses frames with other shapes than polygons."""
    for name, frame in frames.items():
        others = kinds_of(frame) - set(POLYGONS)
        if others:
            raise NotImplementedError(f"{name} has shapes that are no polygons ({', '.join(sorted(others))}): an exact "
                                      'overlay has polygons alone; others="geopandas" leaves such frames to geopandas')


def need_valid(make_valid: bool, *frames: Frame) -> None:
    """Refuses invalid shapes where these are not to be made valid: as geopandas does, though none is repaired here."""
    for frame in frames:
        count = 0 if make_valid else int((~frame.geometry.is_valid).sum())
        if count:
            raise ValueError(f"You have passed make_valid=False along with {count} invalid input geometries. "
                             "Use make_valid=True or make sure that all geometries are valid before using overlay.")


def warn_of_systems(first: Frame, second: Frame, level: int) -> None:
    """Warns as geopandas does where frames differ by their systems of coordinates."""
    if not _check_crs(first, second):
        _crs_mismatch_warn(first, second, stacklevel=level + 1)


def unit_of(*frames: Frame, square_metres: bool = False) -> Unit:
    """What the coordinates of the first frame with a system count: metres, where areas are to be in square metres."""
    system = next((frame.crs for frame in frames if frame.crs is not None), None)
    if square_metres:
        axes = [] if system is None else system.axis_info
        need_metres(axes[0].unit_name if axes else None, "to_crs(6933)")
    if system is None:
        return Unit.UNKNOWN
    return Unit.DEGREE if system.is_geographic else Unit.LENGTH


def told(laid: Laid, names: Sequence[str], frames: Sequence[Frame]) -> dict[str, Any]:
    """What the grid did: its unit as text, a line of it, the same as numbers (moved, taken, bent, bends), and the
    labels of features of which nothing is left."""
    gone = {name: frame.index[places].tolist() for name, frame, places in zip(names, frames, laid.collapsed)}
    return {"grid": spelled(1 / laid.factor), "told": laid.line, **dataclasses.asdict(laid.moves), "collapsed": gone}


def with_told(result: Frame, laid: Laid, **frames: Frame) -> Frame:
    """A result that says what the grid did."""
    result.attrs[TOLD] = told(laid, [*frames], [*frames.values()])
    return result


@contextlib.contextmanager
def faults_told(**frames: Frame) -> Iterator[None]:
    """Says of a fault of a map which frame and row it is of, and which grid would do."""
    try:
        yield
    except MapFault as fault:
        name, frame = [*frames.items()][fault.map]
        would_do = "" if fault.grid is None else f"; grid_size={spelled(fault.grid)} would do"
        raise ValueError(f"{name}, row {frame.index[fault.feature]}: {fault.why}{would_do}") from None


def warn_of_dropped(count: int, level: int) -> None:
    """Warns as geopandas does of points and lines that are left out."""
    if count:
        warnings.warn(f"`keep_geom_type=True` in overlay resulted in {count} dropped geometries of different geometry "
                      "types than df1 has. Set `keep_geom_type=False` to retain all geometries", UserWarning,
                      stacklevel=level + 1)
