"""Layers of other files that go into a GeoPackage, and features that go into another one, by GDAL."""

import json
from collections.abc import Iterable
from pathlib import Path

from ..files.gdal_writing import modules
from .model import Refused
from .tables import Item


def layers_of(source: str) -> list[str]:
    """The layers of a file."""
    gdal, _ = modules()
    try:
        file = gdal.OpenEx(source, gdal.OF_VECTOR | gdal.OF_READONLY)
    except RuntimeError as fault:
        raise Refused(f"{source}: {fault}") from None
    return [file.GetLayer(number).GetName() for number in range(file.GetLayerCount())]


def copy(source: str, target: str, names: list[str] | None = None, called: str | None = None, is_empty: bool = False
         ) -> list[str]:
    """Copies layers of a file into a GeoPackage, which is made where it is not there, or their columns alone; what they
    are called there: as in the file, or where it has one alone, as is said."""
    gdal, _ = modules()
    there, made = layers_of(source), []
    for name in names or there:
        if name not in there:
            raise Refused(f"{source}: no layer {name}; there are {', '.join(there)}")
        own = called or name
        if Path(target).is_file() and own in layers_of(target):
            raise Refused(f"{target} has a layer {own} already")
        options = gdal.VectorTranslateOptions(format="GPKG", accessMode="append" if Path(target).exists() else None,
                                              layers=[name], layerName=own, where="1 = 0" if is_empty else None,
                                              geometryType=None if is_empty else "PROMOTE_TO_MULTI")
        try:
            gdal.VectorTranslate(target, source, options=options)
        except RuntimeError as fault:
            raise Refused(f"{source}: {fault}") from None
        made.append(own)
    return made


def write(target: str, name: str, items: Iterable[Item]) -> int:
    """Writes features into a layer of a GeoPackage; how many it has then."""
    gdal, ogr = modules()
    store = gdal.OpenEx(target, gdal.OF_VECTOR | gdal.OF_UPDATE)
    layer = store.GetLayerByName(name)
    layer.StartTransaction()
    for item in items:
        feature = ogr.Feature(layer.GetLayerDefn())
        feature.SetFID(item.fid)
        feature.SetGeometry(ogr.CreateGeometryFromWkb(item.shape) if item.shape else None)
        for column, value in item.values.items():
            if value is not None and feature.GetFieldIndex(column) >= 0:
                feature.SetField(column, value if isinstance(value, (int, float, str)) else json.dumps(value))
        layer.CreateFeature(feature)
    layer.CommitTransaction()
    return int(layer.GetFeatureCount())
