"""Reads and writes maps of other forms than GeoJSON and Well-Known Text, by GDAL.

`as_geojson` gives what a file has as GeoJSON whose numbers are the shortest ones that spell the file's doubles, and
`write` makes a file of GeoJSON."""

import contextlib
import json
import pathlib
import re
from collections.abc import Iterator
from typing import Any, NamedTuple

from .. import ending
from ..grid import scale as scales
from . import coordinate_systems, writing

TABLE = "a table with a column of Well-Known Text"
# By the end of a name: what the form is called, where it does not begin as one of MAGIC.
FORMS = {".gpkg": "a GeoPackage", ".shp": "a Shapefile", ".shz": "a Shapefile", ".fgb": "a FlatGeobuf", ".gml": "GML",
         ".csv": TABLE, ".kml": "KML", ".kmz": "KML", ".gdb": "a file geodatabase", ".tab": "a MapInfo file",
         ".mif": "a MapInfo file", ".sqlite": "a SpatiaLite store", ".zip": "an archive"}
SQLITE = b"SQLite format 3\0"
GML = b"opengis.net/gml"  # within the begin of each
MAGIC = {SQLITE: "a GeoPackage or SpatiaLite store", b"\0\0\x27\x0a": "a Shapefile", b"fgb": "a FlatGeobuf",
         b"PK\x03\x04": "an archive", b"<": "XML, as GML and KML are"}
# How texts begin that need no GDAL, whatever the file is called.
OWN = re.compile(rb"(?:\xef\xbb\xbf)?[\s\x1e]*"
                 rb"(?:\{|SRID=|[A-Z]*(?:POINT|LINESTRING|POLYGON|COLLECTION)[ A-Z]*\()", re.I)
GZIP = b"\x1f\x8b"
BEGIN = 4096
WRITTEN = {".gpkg": "GPKG", ".fgb": "FlatGeobuf"}
UNAIDED = (".geojson", ".json")  # written without GDAL
IN_MEMORY = f"/vsimem/{writing.OWN}"  # a folder of GDAL's for this process
COLUMNS = "WKT,wkt,geom,geometry,the_geom,wkb_geometry"
TABLES = ["CSV"]  # as GDAL calls its reader of them
NO_GEOMETRY = 100  # as GDAL calls it
REASON_MAX = 200


class GdalFault(ValueError):
    """Why a file is not read or written."""


def form_of(path: pathlib.Path, begin: bytes) -> str | None:
    """What a file is where GDAL is to read it, by how it begins, and by its name alone where that says nothing; None of
    GeoJSON and Well-Known Text."""
    check_unpacked(begin)
    if OWN.match(begin):
        return None
    by_begin = next((form for magic, form in MAGIC.items() if begin.startswith(magic)), None)
    return by_begin or (TABLE if is_table(begin) else FORMS.get(path.suffix.lower()))


def check_unpacked(begin: bytes) -> None:
    """Refuses what gzip has made, by how it begins: a map within it is not looked for."""
    if begin.startswith(GZIP):
        raise GdalFault("it is compressed by gzip: unpack it first (gunzip)")


def is_table(begin: bytes) -> bool:
    """Whether a text begins with a line of names, one of them that of a column of Well-Known Text."""
    names = re.split("[,;\t]", begin.decode("utf-8-sig", "replace").splitlines()[0]) if begin.strip() else []
    return len(names) > 1 and not {name.strip().strip('"') for name in names}.isdisjoint(COLUMNS.split(","))


class Opened(NamedTuple):
    """How GDAL is to open a file: by which name, with which options, and as which of its forms; all where none is named
    here."""

    name: str
    options: list[str]
    drivers: list[str]


def opened_as(path: pathlib.Path) -> Opened:
    """How GDAL is to open a file, by its content and not by its name."""
    begin = begin_of(path)
    if form_of(path, begin) != TABLE:
        options = ["WRITE_GFS=NO"] if GML in begin else []  # else GDAL writes a file beside it
        return Opened(source_of(path), options, ["GPKG", "SQLite"] if begin.startswith(SQLITE) else [])
    prefix = "" if path.suffix.lower() == ".csv" else "CSV:"
    return Opened(prefix + source_of(path), [f"GEOM_POSSIBLE_NAMES={COLUMNS}", "KEEP_GEOM_COLUMNS=NO"], TABLES)


def begin_of(path: pathlib.Path) -> bytes:
    """The begin of a file; nothing of a folder, as a file geodatabase is, nor of a pipe, which gives its bytes once."""
    if path.exists() and not path.is_file():
        return b""
    with path.open("rb") as file:
        return file.read(BEGIN)


def source_of(path: pathlib.Path) -> str:
    """The file as GDAL names it."""
    plain = str(path) if path.is_absolute() else f"./{path}"  # a name that begins with - is no option
    return f"/vsizip/{plain}" if path.suffix.lower() == ".zip" else plain


@contextlib.contextmanager
def by_gdal() -> Iterator[Any]:
    """GDAL. What it warns of is not said, and its faults are GdalFaults."""
    gdal, _ = coordinate_systems.modules()
    gdal.PushErrorHandler("CPLQuietErrorHandler")
    try:
        yield gdal
    except RuntimeError as fault:
        raise GdalFault(" ".join(str(fault).split())[:REASON_MAX] or "GDAL cannot read it to its end") from fault
    finally:
        gdal.PopErrorHandler()


def layer_of(file: Any, wanted: str | None) -> Any:
    """The layer of an open file that is meant: the one that is named, or the only one that has a geometry."""
    layers = (file.GetLayer(number) for number in range(file.GetLayerCount()))
    found = {layer.GetName(): layer for layer in layers if layer.GetGeomType() != NO_GEOMETRY}
    if wanted is not None and wanted not in found:
        raise GdalFault(f"no layer {wanted}; it has {', '.join(found) or 'none'}")
    if not found:
        raise GdalFault("it has no layer with a geometry")
    if wanted is None and len(found) != 1:
        raise GdalFault(f"it has {len(found)} layers; say one of them by --source-layer: {', '.join(found)}")
    return next(iter(found.values())) if wanted is None else found[wanted]


def translated(gdal: Any, source: Any, name: str, words: list[str]) -> bytes:
    """What GDAL makes of an open file by words of ogr2ogr, under a name in its memory."""
    target = f"{IN_MEMORY}/{name}"
    try:
        gdal.VectorTranslate(target, source, options=words)
        file = gdal.VSIFOpenL(target, "rb")
        try:
            return bytes(gdal.VSIFReadL(1, gdal.VSIStatL(target).size, file))
        finally:
            gdal.VSIFCloseL(file)
    finally:
        gdal.Unlink(target)


def as_geojson(path: pathlib.Path, layer: str | None = None) -> str:
    """What a file has, as GeoJSON."""
    words = ["-f", "GeoJSON", "-lco", "SIGNIFICANT_FIGURES=17", "-nlt", "CONVERT_TO_LINEAR"]
    words += ["-preserve_fid"] if begin_of(path).startswith(SQLITE) else []
    name, options, drivers = opened_as(path)
    with by_gdal() as gdal:
        file = gdal.OpenEx(name, gdal.OF_VECTOR, open_options=options, allowed_drivers=drivers)
        found = layer_of(file, layer)
        written = translated(gdal, file, "map.geojson", [*words, found.GetName()])
        value = read_value(written, path)
        found.ResetReading()
        for own, feature in zip(value["features"], found, strict=True):
            if own["geometry"] and own["geometry"]["type"] in ("Polygon", "MultiPolygon"):
                set_doubles(own["geometry"]["coordinates"], feature.GetGeometryRef().GetLinearGeometry())
        # A table has no place for a system.
        system = None if drivers == TABLES else coordinate_systems.of_layer(file, found)
    if system:
        value["crs"] = {"type": "name", "properties": {"name": system}}
    return json.dumps(value)


def read_value(written: bytes, path: pathlib.Path) -> Any:
    """The GeoJSON that GDAL has written of a file."""
    try:
        return json.loads(written)
    except UnicodeDecodeError as fault:
        raise GdalFault(not_utf8(path)) from fault


def set_doubles(coordinates: Any, shape: Any) -> None:
    """Has the coordinates of rings be the doubles that a file has: GDAL writes 618.3149999999999 as 618.315."""
    for place, part in enumerate(coordinates if shape.GetGeometryCount() else ()):
        set_doubles(part, shape.GetGeometryRef(place))
    for position, point in zip(coordinates, (shape.GetPoints() or ()) if not shape.GetGeometryCount() else ()):
        position[:2] = point[:2]


def not_utf8(path: pathlib.Path) -> str:
    """Why a file is not read whose texts GDAL takes for UTF-8, and what makes them so."""
    if path.suffix.lower() == ".shp":
        return f"its texts are no UTF-8: say in {path.stem}.cpg beside it what they are, as ISO-8859-1"
    return f"its texts are no UTF-8; {ending.UTF8}"


def check_target(path: pathlib.Path) -> None:
    """Refuses a file that cannot be written, before there is anything to write."""
    if path.suffix.lower() not in WRITTEN:
        raise GdalFault(f"{path}: written are {', '.join((*UNAIDED, *WRITTEN))}")
    if reason := writing.in_hand(path):
        raise GdalFault(f"{path}: {reason}")


def write(path: pathlib.Path, geojson: str, crs: str | None) -> None:
    """Makes a file of GeoJSON in a coordinate system, or of a plane of its own, whole or not at all."""
    check_target(path)
    words = ["-f", WRITTEN[path.suffix.lower()], "-nln", path.stem]
    words += [] if crs == scales.CRS84 else ["-a_srs", crs or coordinate_systems.UNKNOWN]
    source = f"{IN_MEMORY}/source.geojson"
    with by_gdal() as gdal:
        gdal.FileFromMemBuffer(source, geojson.encode())
        try:
            data = translated(gdal, gdal.OpenEx(source, gdal.OF_VECTOR), path.name, words)
        finally:
            gdal.Unlink(source)
    writing.write_all({path: data})
