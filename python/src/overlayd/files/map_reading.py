"""Reads GeoJSON and Well-Known Text into shapes, and gives the names of their coordinates.

GeoJSON is one object, or a feature on each line (GeoJSON text sequences). Other forms are read by gdal_files.py."""

import json
import pathlib
import re
import sys
from collections.abc import Iterator
from dataclasses import dataclass, field
from decimal import Decimal
from fractions import Fraction
from typing import Any

from .. import grid
from ..geometry import wkt
from . import coordinate_systems, gdal_files

COLLECTIONS = ("FeatureCollection", "GeometryCollection")
MARK = "\x1e"  # before each object of a text sequence, where they are not parted by lines
BEFORE = MARK + " \t\r\n"
HALVES = re.compile("[\ud800-\udfff]")  # JSON can spell the halves of a character without each other
BEYOND = 200  # a number with more digits than so many before or after its point is no coordinate


class Refused(Exception):
    """Why a geometry or a ring is not written."""


@dataclass(frozen=True)
class Shape:
    """One geometry: what it is called, the layer it asks for, type, coordinates, the feature and file it is from.

    A fault says why there is none."""

    label: str
    wish: str | None
    kind: str
    coordinates: Any
    feature: str
    file: int
    stem: str
    fault: str = ""

    def polygons(self) -> list[Any]:
        """Its polygons, each a list of rings of positions."""
        if self.fault:
            raise Refused(self.fault)
        found = wkt.polygons_of(self.kind, self.coordinates)
        if found is None:
            raise Refused(f"no polygon: {self.kind}")
        return found


@dataclass(frozen=True)
class Source:
    """A file: its number among the words, what its shapes are called, the property that names their layers, and all
    properties that its features have, as keys."""

    number: int
    name: str
    stem: str
    name_by: str | None
    properties: dict[str, None] = field(default_factory=dict)
    systems: list[str] = field(default_factory=list)  # the numbers after SRID= in Well-Known Text

    def shape(self, label: str, wish: str | None, kind: str, coordinates: Any, feature: str) -> Shape:
        return Shape(label, wish, kind, coordinates, feature, self.number, self.stem)

    def none(self, label: str, fault: str) -> list[Shape]:
        """What takes the place of a geometry that cannot be read."""
        return [Shape(label, None, "", None, label, self.number, self.stem, fault)]

    def of_geojson(self, value: Any, label: str, wish: str | None, feature: str) -> list[Shape]:
        """All shapes in a GeoJSON value, collections taken apart."""
        if not isinstance(value, dict):
            return [self.shape(label, wish, "no GeoJSON object", None, feature or label)]
        kind = value.get("type")
        if kind == "Feature":
            return self.of_feature(value, label, wish)
        if kind in COLLECTIONS:
            key, called = ("features", "feature") if kind == "FeatureCollection" else ("geometries", "member")
            members = value.get(key) or []
            if not isinstance(members, list):
                return self.none(label, f'"{key}" that are no list')
            if kind == "GeometryCollection" and not members:
                return [self.shape(label, wish, "GEOMETRYCOLLECTION EMPTY", None, feature or label)]
            return [shape for number, member in enumerate(members, 1)
                    for shape in self.of_geojson(member, f"{label}, {called} {number}", wish, feature)]
        return [self.shape(label, wish, str(kind).upper(), value.get("coordinates"), feature or label)]

    def of_feature(self, value: dict[str, Any], label: str, wish: str | None) -> list[Shape]:
        given = value.get("properties")
        properties: dict[str, Any] = given if isinstance(given, dict) else {}
        self.properties.update(dict.fromkeys(properties))
        if self.name_by and properties.get(self.name_by) is not None:
            wish = str(properties[self.name_by])
            if HALVES.search(wish):
                return self.none(label, f'property "{self.name_by}" has half of a character, {wish!a}: no UTF-8')
        called = f"{label} ({wish})" if self.name_by and wish else label
        if value.get("geometry") is None:
            return [self.shape(called, wish, "a feature without a geometry", None, called)]
        return self.of_geojson(value["geometry"], called, wish, called)

    def of_wkt(self, label: str, kind: str, coordinates: Any, feature: str) -> list[Shape]:
        if kind == "GEOMETRYCOLLECTION" and coordinates:
            return [shape for number, (own, inner) in enumerate(coordinates, 1)
                    for shape in self.of_wkt(f"{label}, member {number}", own, inner, feature)]
        return [self.shape(label, None, kind, coordinates, feature)]

    def read(self, text: str) -> tuple[list[Shape], str | None]:
        """All shapes of a text, and the name of its coordinates; GeoJSON where it begins as an object."""
        if is_geojson(text):
            value = object_of(text)
            label = f"{self.name}, feature 1" if value.get("type") == "Feature" else self.name
            return self.of_geojson(value, label, None, ""), crs_of(value)
        texts, systems = wkt.read_with_systems(text)
        self.systems.extend(systems)
        labelled = ((f"{self.name}, text {number}", kind, coordinates)
                    for number, (kind, coordinates) in enumerate(texts, 1))
        return [shape for label, kind, coordinates in labelled
                for shape in self.of_wkt(label, kind, coordinates, label)], None


def is_geojson(text: str) -> bool:
    """Whether a text is to be read as GeoJSON, and not as Well-Known Text."""
    return text.lstrip(BEFORE).startswith("{")


def object_of(text: str) -> Any:
    """The object of a text of GeoJSON: of several, each on a line or after a mark, a collection of them."""
    try:
        return json.loads(text, parse_float=Decimal)
    except json.JSONDecodeError as fault:
        if not text.startswith(MARK) and not fault.msg.startswith("Extra data"):
            raise
    return {"type": "FeatureCollection", "features": list(sequence(text))}


def sequence(text: str) -> Iterator[Any]:
    """The objects of a text sequence."""
    for number, part in enumerate(text.split(MARK if MARK in text else "\n"), 1):
        if part.strip():
            try:
                yield json.loads(part, parse_float=Decimal)
            except json.JSONDecodeError as fault:
                raise ValueError(f"{'record' if MARK in text else 'line'} {number}: {fault.msg}") from fault


def crs_of(value: dict[str, Any]) -> str | None:
    """The name of the coordinates that a GeoJSON object gives in its member crs, as older writers and GDAL do."""
    member = value.get("crs")
    properties = member.get("properties") if isinstance(member, dict) else None
    name = properties.get("name") if isinstance(properties, dict) else None
    return coordinate_systems.called_by(name) if isinstance(name, str) else None


def decimal_of(given: Any) -> int | Decimal:
    """A coordinate as a text spells it; what is none is refused."""
    if isinstance(given, bool) or not isinstance(given, (int, Decimal)):
        raise Refused(f"a coordinate that is no number: {given!r}"[:80])
    _, _, exponent = Decimal(given).as_tuple()
    if not isinstance(exponent, int) or exponent < -BEYOND or Decimal(given).adjusted() > BEYOND:
        raise Refused("a coordinate that is beyond all bounds")
    return given


def number_of(given: Any) -> Fraction:
    """The number that a coordinate stands for, as grid.py says."""
    return grid.decimal_stands_for(decimal_of(given))


def positions_of(shape: Shape) -> Iterator[tuple[Fraction, Fraction]]:
    """The positions of a shape that can be read at all."""
    try:
        for polygon in shape.polygons():
            for ring in polygon:
                for position in ring:
                    yield number_of(position[0]), number_of(position[1])
    except (Refused, TypeError, IndexError, KeyError, RecursionError):
        return


def content(name: str, layer: str | None = None) -> bytes:
    """The GeoJSON or Well-Known Text of a file, or of standard input for -. Of other forms a layer may be named."""
    if not name:
        raise gdal_files.GdalFault("a name without a letter is no file's")
    path = pathlib.Path(name)
    given = sys.stdin.buffer.read() if name == "-" else None
    form = gdal_files.form_of(path, gdal_files.begin_of(path) if given is None else given)
    if form and given is not None:
        raise gdal_files.GdalFault(f"{form} is read by its name, and not from standard input")
    if layer is not None and not form:
        raise gdal_files.GdalFault("GeoJSON and Well-Known Text have no layers; --source-layer is for other files")
    if form:
        return gdal_files.as_geojson(path, layer).encode()
    data = path.read_bytes() if given is None else given
    gdal_files.check_unpacked(data)  # a pipe shows its begin only here
    return data
