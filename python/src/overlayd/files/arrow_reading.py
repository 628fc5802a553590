"""Layers of files as columns, by GDAL's Arrow stream and numpy: no feature of its own in Python."""

import pathlib
from collections.abc import Iterator
from dataclasses import dataclass
from typing import Any

import numpy as np

from .. import ending
from ..geometry.flat_arrays import Numbers
from ..kernel.columns import Column, of_arrow
from . import coordinate_systems, gdal_files

BATCH = 1 << 16  # features that are read together
SHAPE = "wkb_geometry"  # how a stream calls a column that has no name
NUMBER = "OGC_FID"
NAMED_MAX = 20  # properties or layers that a refusal names


class ReadingFault(Exception):
    """Why a layer is not read."""


@dataclass(frozen=True)
class Batch:
    """Features that were read together: their numbers in the file, what they are called, and their shapes."""

    numbers: Numbers
    names: Numbers
    column: Column


class Layer:
    """A layer of a file, of which one property calls the features, or else their numbers do."""

    def __init__(self, path: str, layer: str | None = None, name_by: str | None = None,
                 where: str | None = None) -> None:
        self.path, self.name_by = path, name_by
        gdal, _ = coordinate_systems.modules()
        try:
            name, options, drivers = gdal_files.opened_as(pathlib.Path(path))
            self.file = gdal.OpenEx(name, gdal.OF_VECTOR, open_options=options, allowed_drivers=drivers)
            self.table = self._table(layer)
            self.table.SetAttributeFilter(where)
        except OSError as fault:
            raise ReadingFault(ending.fault_text(path, fault)) from fault
        except RuntimeError as fault:
            raise ReadingFault(f"{path}: {' '.join(str(fault).split())}") from None
        definition = self.table.GetLayerDefn()
        self.fields = [definition.GetFieldDefn(place).GetName() for place in range(definition.GetFieldCount())]
        if name_by is not None and name_by not in self.fields:
            raise ReadingFault(f"{path}: no property {name_by}; say one of: {listed(self.fields)}")

    def _table(self, layer: str | None) -> Any:
        names = [self.file.GetLayer(number).GetName() for number in range(self.file.GetLayerCount())]
        if layer is None and len(names) != 1:
            raise ReadingFault(f"{self.path}: {len(names)} layers, {listed(names)}; name one by --a-layer, or of B by "
                               "--b-layer")
        if layer is not None and layer not in names:
            raise ReadingFault(f"{self.path}: no layer {layer}; say one of: {listed(names)}")
        return self.file.GetLayer(0) if layer is None else self.file.GetLayerByName(layer)

    def system(self) -> str | None:
        """What the layer's system of coordinates is called; None where the file does not say it."""
        found = coordinate_systems.of_layer(self.file, self.table)
        return None if found == coordinate_systems.UNKNOWN else found

    def batches(self) -> Iterator[Batch]:
        """All features, so many at once."""
        self.table.SetIgnoredFields([field for field in self.fields if field != self.name_by])
        number, shape = self.table.GetFIDColumn() or NUMBER, self.table.GetGeometryColumn() or SHAPE
        try:
            for batch in self.table.GetArrowStreamAsNumPy(options=[f"MAX_FEATURES_IN_BATCH={BATCH}"]):
                numbers = batch[number]
                names = texts(numbers) if self.name_by is None else self._names(numbers, batch[self.name_by])
                yield Batch(numbers, names, of_arrow(batch[shape]))
        except RuntimeError as fault:
            raise ReadingFault(f"{self.path}: {str(fault) or 'GDAL cannot read it to its end'}") from None

    def _names(self, numbers: Numbers, names: Any) -> Numbers:
        """A property of features as texts, of which each has one."""
        own: Numbers = np.asarray(names)
        if np.any(np.ma.is_masked(names)):  # type: ignore[no-untyped-call]
            raise ReadingFault(f"{self.path}: feature {numbers[np.flatnonzero(names.mask)[0]]}: no {self.name_by}; say "
                               "another property, that each feature has")
        try:
            return texts(own if own.dtype.kind in "OS" else own.astype(str))
        except UnicodeDecodeError:
            raise ReadingFault(f"{self.path}: {gdal_files.not_utf8(pathlib.Path(self.path))}") from None


def texts(values: Numbers) -> Numbers:
    """Values as texts, of bytes those that they spell."""
    return np.array([one.decode() if isinstance(one, bytes) else str(one) for one in values.tolist()], object)


def listed(names: list[str]) -> str:
    """Names in a row, the first of many."""
    return ", ".join(names[:NAMED_MAX]) + (", .." if len(names) > NAMED_MAX else "") or "nothing"
