"""A map of a file as a column of polygons, with what calls its features, and what of it is left out."""

from collections.abc import Callable
from dataclasses import dataclass
from functools import partial

import numpy as np

from ..geometry.flat_arrays import Numbers
from ..kernel.columns import Column, columns_joined, counts_at
from ..kernel.ring_walk import HEAD, MULTIPOLYGON, ORDER, POLYGON, plain_kind
from .arrow_reading import Layer, ReadingFault


@dataclass(frozen=True)
class MapColumn:
    """The polygons of a map, names of its features, what a fault calls one by its place, its system of coordinates
    where the file says it, what is left out, and how many coordinates have more digits than a double."""

    path: str
    column: Column
    names: Numbers
    label: Callable[[int], str]
    system: str | None
    left_out: list[str]
    longer: int = 0

    def __len__(self) -> int:
        return len(self.column)


def read(path: str, name_by: str | None, layer: str | None = None, where: str | None = None) -> MapColumn:
    """A layer of a file by GDAL: features called by a property, or by the numbers that GDAL gives them."""
    table = Layer(path, layer, name_by, where)
    system = table.system()
    parts, left_out = list[tuple[Column, Numbers, Numbers]](), list[str]()
    for batch in table.batches():
        kinds = kinds_of(batch.column)
        other = (kinds != POLYGON) & (kinds != MULTIPOLYGON)
        part = batch.column, batch.names, batch.numbers
        label = partial(label_of, path, name_by is not None, *part[1:])
        left_out += [f"{label(place)}: {kind_name(int(kinds[place]))}" for place in np.flatnonzero(other).tolist()]
        parts.append((part[0].part(np.flatnonzero(~other)), part[1][~other], part[2][~other]) if other.any() else part)
    names, numbers = (np.concatenate([none, *(part[place] for part in parts)]) for place, none in
                      ((1, np.zeros(0, object)), (2, np.zeros(0, np.int64))))
    label = partial(label_of, path, name_by is not None, names, numbers)
    return MapColumn(path, columns_joined([part[0] for part in parts]), names, label, system, left_out)


def label_of(path: str, is_named: bool, names: Numbers, numbers: Numbers, place: int) -> str:
    """What a fault calls a feature."""
    return f"{path}, feature {numbers[place]}" + (f" ({names[place]})" if is_named else "")


def kinds_of(column: Column) -> Numbers:
    """The kinds of shapes, without their dimensions; 0 of those that are missing."""
    full = np.flatnonzero(np.diff(column.at) >= HEAD)
    begins = column.at[:-1][full]
    found: Numbers = np.zeros(len(column), np.int64)
    found[full] = plain_kind(counts_at(column.data, begins + ORDER, column.data[begins] == 0))
    return found


def kind_name(kind: int) -> str:
    """Why a feature is left out."""
    from osgeo import ogr

    return f"a {ogr.GeometryTypeToName(kind)}, no polygon" if kind else "a feature without a geometry"


__all__ = ["MapColumn", "ReadingFault", "read"]
