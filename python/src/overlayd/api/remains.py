"""Points and lines that polygons have in common. The program has polygons alone, so these are GEOS's, in doubles."""

from collections.abc import Iterator
from typing import Any

from shapely.geometry import GeometryCollection
from shapely.geometry.base import BaseGeometry

from .frames import POLYGONS


def parts_of(shape: BaseGeometry) -> Iterator[BaseGeometry]:
    """The single shapes of one."""
    for part in getattr(shape, "geoms", [shape]):
        if not part.is_empty:
            yield part


def points_and_lines(first: BaseGeometry, second: BaseGeometry) -> BaseGeometry:
    """What two polygons have in common beside areas."""
    found = first.buffer(0).intersection(second.buffer(0))
    if found.geom_type != "GeometryCollection":
        return GeometryCollection() if found.geom_type in POLYGONS else found
    return together([part for part in parts_of(found) if part.geom_type not in POLYGONS])


def together(parts: list[Any]) -> BaseGeometry:
    """Some single shapes as one."""
    return parts[0] if len(parts) == 1 else GeometryCollection(parts)


def with_remains(shape: BaseGeometry, first: BaseGeometry, second: BaseGeometry) -> BaseGeometry:
    """The exact polygons of what two have in common, and GEOS's points and lines beside them."""
    rest = points_and_lines(first, second)
    if rest.is_empty:
        return shape
    return rest if shape.is_empty else together([*parts_of(shape), *parts_of(rest)])
