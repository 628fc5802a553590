"""Shapes with properties as files: GeoJSON as a text, GeoPackage and FlatGeobuf by GDAL."""

import json
import struct
from collections.abc import Iterator, Mapping, Sequence
from pathlib import Path
from typing import Any

from ..geometry.wkb import read
from ..kernel.columns import Column
from ..kernel.ring_walk import MULTIPOLYGON, POLYGON
from . import coordinate_systems, gdal_writing, writing
from .arrow_reading import ReadingFault

TEXTS = (".geojson", ".json")
ENDS = (*TEXTS, *gdal_writing.DRIVERS)
ONE = struct.pack("<BII", 1, MULTIPOLYGON, 1)
Properties = Mapping[str, Sequence[Any]]


def check(path: Path | None) -> None:
    """Refuses a file of another form."""
    if path is not None and path.suffix not in ENDS and not (path.exists() and not path.is_file()):
        raise ReadingFault(f"{path}: shapes are written as {', '.join(ENDS)}")


def write(path: Path, shapes: Column, properties: Properties, system: str | None) -> None:
    """Writes shapes, each a multipolygon; the file appears whole or not at all. Empty ones are left out."""
    pieces = pieces_of(shapes, properties)
    if path.suffix in gdal_writing.DRIVERS:
        gdal_writing.write(str(path), pieces, system)
        return
    with writing.whole(path) as file:
        file.writelines(texts(pieces, system))


def pieces_of(shapes: Column, properties: Properties) -> Iterator[tuple[dict[str, Any], bytes]]:
    """Shapes as multipolygons with their properties."""
    for place, wkb in enumerate(shapes.to_list()):
        if len(wkb) > len(ONE):
            own = ONE + wkb if wkb[1] == POLYGON else wkb
            yield {name: column[place] for name, column in properties.items()}, own


def texts(pieces: Iterator[tuple[dict[str, Any], bytes]], system: str | None) -> Iterator[str]:
    """A GeoJSON text, a feature a line."""
    yield f'{{"type": "FeatureCollection",\n{coordinate_systems.member(system)}"features": [\n'
    before = ""
    for properties, wkb in pieces:
        feature = {"type": "Feature", "properties": properties, "geometry": read(wkb)[0]}
        yield before + json.dumps(feature, ensure_ascii=False)
        before = ",\n"
    yield "\n]}\n"
