"""Writes pieces by GDAL, as GeoPackage or FlatGeobuf: in one file, or where they are many in several with an index.

Of more than PART_MAX pieces, pieces.gpkg becomes pieces-001.gpkg, pieces-002.gpkg and so on, and pieces.vrt, which
names them with their extents: QGIS and GDAL open that as one layer, and look into no part that is elsewhere. """

import contextlib
import html
import re
import sys
import traceback
from collections.abc import Iterable, Iterator, Mapping
from dataclasses import dataclass, field
from itertools import chain, islice
from pathlib import Path
from typing import Any

from .. import ending
from ..ending import Unusable
from . import coordinate_systems, writing
from .arrow_reading import ReadingFault

Piece = tuple[Mapping[str, Any], bytes]
"""Properties, and Well-Known Binary of a multipolygon."""

PART_MAX = 1_000_000  # pieces of one file
LAYER = "pieces"
NO_REASON = "GDAL gives no reason; is the disk full?"
DRIVERS = {".gpkg": "GPKG", ".fgb": "FlatGeobuf"}
# The file appears by a rename when it is whole, so a half one need not survive a crash.
QUICKLY = {"OGR_SQLITE_SYNCHRONOUS": "OFF", "OGR_SQLITE_JOURNAL": "OFF"}
DESCRIPTION = ("Exact areas are in the properties; coordinates are the doubles nearest to the exact ones, so a polygon "
               "may touch or cross itself by a rounding.")


def modules() -> tuple[Any, Any]:
    """GDAL and its part for features."""
    from osgeo import ogr

    gdal, _ = coordinate_systems.modules()
    return gdal, ogr


@dataclass
class Part:
    """One file: under its name at the end, until then beside it."""

    path: Path
    extent: tuple[float, float, float, float] | None = None

    @property
    def beside(self) -> Path:
        return writing.beside(self.path, self.path.suffix)


@dataclass
class Writing:
    """Pieces on their way into files."""

    path: Path
    crs: str | None
    part_max: int
    count: int = 0
    parts: list[Part] = field(default_factory=list)

    def __post_init__(self) -> None:
        self.gdal, self.ogr = modules()
        if self.path.suffix not in DRIVERS:
            raise ReadingFault(f"{self.path}: pieces are written as {', '.join(DRIVERS)} or .geojson")
        if self.path.exists() and not self.path.is_file():
            raise ReadingFault(f"{self.path}: no file; GDAL writes pieces to files alone")

    def take(self, pieces: Iterable[Piece]) -> None:
        """Writes all, so many a part; at least one part, that there is a file."""
        left = iter(pieces)
        while (first := next(left, None)) is not None or not self.parts:
            some = islice(left, self.part_max - 1)
            self._write(chain([first], some) if first is not None else iter(()))

    def _write(self, pieces: Iterator[Piece]) -> None:
        """One part."""
        part = Part(self.path.with_name(f"{self.path.stem}-{len(self.parts) + 1:03d}{self.path.suffix}"))
        self.parts.append(part)
        part.beside.unlink(missing_ok=True)
        file = self.gdal.GetDriverByName(DRIVERS[self.path.suffix]).Create(str(part.beside), 0, 0, 0)
        layer = self._layer(file, pieces)
        if layer.GetFeatureCount():
            part.extent = layer.GetExtent()
        del layer, file  # closed

    def _layer(self, file: Any, pieces: Iterator[Piece]) -> Any:
        first = next(pieces, None)
        options = [f"DESCRIPTION={DESCRIPTION}"] if self.path.suffix == ".gpkg" else []
        layer = file.CreateLayer(LAYER, self._system(), self.ogr.wkbMultiPolygon, options)
        for name, value in (first[0] if first else {}).items():
            kind = self.ogr.OFTReal if isinstance(value, float) else self.ogr.OFTString
            layer.CreateField(self.ogr.FieldDefn(name, kind))
        layer.StartTransaction()
        for properties, wkb in chain([first] if first else [], pieces):
            self._feature(layer, properties, wkb)
        layer.CommitTransaction()
        return layer

    def _feature(self, layer: Any, properties: Mapping[str, Any], wkb: bytes) -> None:
        feature = self.ogr.Feature(layer.GetLayerDefn())
        for place, value in enumerate(properties.values()):
            if value != "":
                feature.SetField(place, value)
        feature.SetGeometryDirectly(self.ogr.CreateGeometryFromWkb(wkb))
        layer.CreateFeature(feature)
        self.count += 1

    def _system(self) -> Any:
        """The coordinates' system; a plane where none is named, as GDAL takes none for degrees."""
        _, osr = coordinate_systems.modules()
        system = coordinate_systems.parsed(self.crs or coordinate_systems.UNKNOWN)
        system.SetAxisMappingStrategy(osr.OAMS_TRADITIONAL_GIS_ORDER)
        return system

    def finish(self) -> None:
        """Gives each file its name; the index comes when all that it names are there, and what an earlier run wrote
        under these names goes last."""
        index = self.path.with_suffix(".vrt")
        earlier = named_by(index, self.path)
        foreign = [path for path in (index, *(part.path for part in self.parts)) if path.exists()
                   and path not in earlier
                   and not (earlier and path == index)] if len(self.parts) > 1 else []
        if foreign:
            raise ReadingFault(
                f"{foreign[0]} stands, and was not named: {self.path} has {len(self.parts)} parts of such names; "
                "move it away, or take another name")
        if len(self.parts) == 1:
            writing.take_places({self.parts[0].beside: self.path})
            for old in (index, *earlier) if earlier else ():
                old.unlink(missing_ok=True)
            return
        writing.take_places({part.beside: part.path for part in self.parts})
        writing.write_all({index: index_of(self.parts).encode()})
        for old in {self.path, *earlier} - {part.path for part in self.parts}:
            old.unlink(missing_ok=True)

    def drop(self) -> None:
        """Takes away what has no name yet."""
        for part in self.parts:
            with contextlib.suppress(OSError):
                part.beside.unlink(missing_ok=True)


def index_of(parts: Iterable[Part]) -> str:
    """A virtual file of GDAL that shows all parts as one layer."""
    lines = ["<OGRVRTDataSource>", f'  <OGRVRTUnionLayer name="{LAYER}">']
    for part in parts:
        name = html.escape(part.path.name, quote=False)
        lines += [f'    <OGRVRTLayer name="{LAYER}">', f'      <SrcDataSource relativeToVRT="1">{name}</SrcDataSource>']
        if part.extent:
            west, east, south, north = part.extent
            for end, value in (("XMin", west), ("YMin", south), ("XMax", east), ("YMax", north)):
                lines.append(f"      <Extent{end}>{value!r}</Extent{end}>")
        lines.append("    </OGRVRTLayer>")
    return "\n".join([*lines, "  </OGRVRTUnionLayer>", "</OGRVRTDataSource>", ""])


def named_by(index: Path, path: Path) -> set[Path]:
    """The parts of a file that an index names, as an earlier run left it; none where it names anything else."""
    try:
        text = index.read_text(encoding="utf-8") if index.is_file() else ""
    except ValueError:
        return set()
    own = re.compile(rf"{re.escape(path.stem)}-[0-9]{{3,}}{re.escape(path.suffix)}")
    names = [html.unescape(name) for name in re.findall(r"<SrcDataSource[^>]*>([^<]*)<", text)]
    return {path.with_name(name) for name in names} if all(map(own.fullmatch, names)) else set()


@contextlib.contextmanager
def configured(gdal: Any, options: Mapping[str, str]) -> Iterator[None]:
    """Options of GDAL, for a while."""
    before = {name: gdal.GetConfigOption(name) for name in options}
    for name, value in options.items():
        gdal.SetConfigOption(name, value)
    try:
        yield
    finally:
        for name, had in before.items():
            gdal.SetConfigOption(name, had)


@contextlib.contextmanager
def told_when_closed(path: str) -> Iterator[None]:
    """Raises what GDAL says while it closes a file: some forms are written only then, and Python gives a fault of what
    it takes away to a hook alone."""
    reasons = list[str]()
    had = sys.unraisablehook

    def keep(fault: Any) -> None:
        if isinstance(fault.exc_value, RuntimeError):
            reasons.append(str(fault.exc_value))
        else:
            had(fault)

    sys.unraisablehook = keep
    try:
        yield
    except BaseException as fault:
        traceback.clear_frames(fault.__traceback__)  # closes the files that they have
        raise
    finally:
        sys.unraisablehook = had
    if reasons:
        raise Unusable(f"{path}: {next(filter(None, reasons), NO_REASON)}")


def write(path: str, pieces: Iterable[Piece], crs: str | None, part_max: int = PART_MAX) -> int:
    """Writes pieces; how many. Each file appears whole, and none before all pieces are written."""
    own = Writing(Path(path).resolve(), crs, part_max)
    try:
        with configured(own.gdal, QUICKLY), told_when_closed(path):
            own.take(pieces)
        own.finish()
    except RuntimeError as fault:  # GDAL's
        raise Unusable(f"{path}: {str(fault) or NO_REASON}") from fault
    except OSError as fault:
        raise Unusable(ending.fault_text(fault.filename or path, fault)) from fault
    finally:
        own.drop()
    return own.count
