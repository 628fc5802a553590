"""Maps of GeoJSON and Well-Known Text as columns; arrow_reading.py reads other files.

GDAL reads these texts too, but loses of them ids that are not of one type, and how many digits a number has."""

import itertools
import struct
from collections.abc import Iterable, Iterator
from typing import Any

import numpy as np

from .. import ending, grid
from ..geometry import wkt
from ..kernel.columns import Column, of_bytes
from ..kernel.ring_walk import MULTIPOLYGON, POLYGON
from ..kernel.shapes import shapes
from ..grid import scale as scales
from . import map_reading, rounding
from .arrow_reading import ReadingFault
from .coordinate_systems import UNKNOWN
from .map_columns import MapColumn
from .map_reading import Refused, Shape, Source

NAMED_MAX = 10  # SRIDs, or features beside the first, that a refusal names
FARTHEST_LONGITUDE, FARTHEST_LATITUDE = 360, 90


class FeatureFault(ReadingFault):
    """Why a feature is to be mended before its map is overlaid."""


class Reading:
    """A map while it is read."""

    def __init__(self, source: Source) -> None:
        self.source, self.seen, self.longer = source, 0, 0
        self.shapes, self.names, self.labels = list[bytes](), list[str](), list[str]()
        self.left_out = list[str]()

    def feature(self, given: list[Shape]) -> None:
        """Takes in one feature. What of it is no polygon is left out, and reported."""
        self.seen += 1
        polygons: list[Any] = []
        left_out = len(self.left_out)
        for shape in given:
            if shape.fault:
                raise FeatureFault(f"{shape.label}: {shape.fault}; mend it there")
            try:
                polygons += shape.polygons()
            except Refused as fault:
                self.left_out.append(f"{shape.label}: {fault}")
        if not polygons and len(self.left_out) > left_out:
            return
        try:
            own = [self.polygon(polygon) for polygon in polygons]
        except (Refused, TypeError, IndexError, KeyError) as fault:
            reason = fault if isinstance(fault, Refused) else "coordinates of another form"
            raise FeatureFault(f"{given[0].label}: {reason}; mend it there") from fault
        self.names.append(self.name_of(given[0]))
        self.labels.append(given[0].label)
        self.shapes.append(own[0] if len(own) == 1 else struct.pack("<BII", 1, MULTIPOLYGON, len(own)) + b"".join(own))

    def name_of(self, shape: Shape) -> str:
        """What a feature is called: its property, or its number in the file, from 1."""
        if not self.source.name_by:
            return str(self.seen)
        if shape.wish is None and self.source.name_by in self.source.properties:
            raise ReadingFault(f"{shape.label}: no {self.source.name_by}; say another property, that each feature has")
        if shape.wish is None:
            has = ", ".join(list(self.source.properties)[:20]) or "no properties"
            raise ReadingFault(f"{shape.label}: no property {self.source.name_by}; say one of: {has}")
        return shape.wish

    def polygon(self, rings: Any) -> bytes:
        """A polygon as Well-Known Binary; rings without points are left out."""
        given = [[self.double(one) for position in rounding.closed(positions) for one in position[:2]]
                 for positions in rings]
        full = [own for own in given if own]
        return struct.pack("<BII", 1, POLYGON, len(full)) + b"".join(
            struct.pack(f"<I{len(own)}d", len(own) // 2, *own) for own in full)

    def double(self, given: Any) -> float:
        """A coordinate as the nearest double."""
        number = map_reading.decimal_of(given)
        self.longer += grid.is_longer(number)
        return float(number)


def read(path: str, name_by: str | None) -> MapColumn:
    """A map of a file, features called by a property, or by their numbers in the file."""
    source = Source(1, path, "map", name_by)
    given, crs, is_geojson = shapes_of(source)
    reading = Reading(source)
    faults = list[tuple[str, FeatureFault]]()
    for own in features_of(given):
        try:
            reading.feature(own)
        except FeatureFault as fault:
            faults.append((own[0].label.removeprefix(f"{path}, "), fault))
    if faults:
        raise ReadingFault(f"{faults[0][1]}{and_others(label for label, _ in faults[1:])}") from faults[0][1]
    column = of_bytes(reading.shapes)
    usual = scales.CRS84 if is_geojson and is_in_degrees(column) else None
    system = crs or own_crs(source) or usual
    return MapColumn(path, column, np.array(reading.names, object), reading.labels.__getitem__,
                     None if system == UNKNOWN else system, reading.left_out, reading.longer)


def and_others(labels: Iterable[str]) -> str:
    """What follows the refusal of one feature where others are to be mended too: how many, and the first of them."""
    others = list(dict.fromkeys(labels))
    if not others:
        return ""
    more = ", .." if len(others) > NAMED_MAX else ""
    return f"; {len(others)} more to be mended: {', '.join(others[:NAMED_MAX])}{more}"


def shapes_of(source: Source) -> tuple[list[Shape], str | None, bool]:
    """All shapes of a file, the name of its coordinates where it names some, and whether it is GeoJSON."""
    try:
        text = map_reading.content(source.name).decode("utf-8-sig")
        return *source.read(text), map_reading.is_geojson(text)
    except (OSError, ValueError, ArithmeticError, RecursionError, TypeError, AttributeError, wkt.WktFault) as fault:
        reason = ending.fault_text(source.name, fault)
        raise ReadingFault(f"{reason}; a map is GeoJSON, or a file that GDAL reads") from fault


def features_of(given: Iterable[Shape]) -> Iterator[list[Shape]]:
    """The shapes of each feature together; a collection gives several."""
    for _, own in itertools.groupby(given, lambda shape: shape.feature):
        yield list(own)


def is_in_degrees(column: Column) -> bool:
    """Whether all numbers can be longitude and latitude, which GeoJSON has where it names nothing else. Older writers
    leave the name out of other numbers too."""
    found = shapes(column)
    return all(bool((np.abs(own) <= most).all())
               for own, most in ((found.x, FARTHEST_LONGITUDE), (found.y, FARTHEST_LATITUDE)))


def own_crs(source: Source) -> str | None:
    """The system of Well-Known Text: that of its SRIDs."""
    if len(source.systems) > 1:
        raise ReadingFault(f"{source.name}: SRIDs {', '.join(source.systems[:NAMED_MAX])}; bring all to one of them, "
                           "as by ogr2ogr -t_srs")
    return f"EPSG:{source.systems[0]}" if source.systems else None
