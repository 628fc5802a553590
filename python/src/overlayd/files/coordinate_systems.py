"""Names coordinate systems: by an authority and its code where a system equals one of its, else by Well-Known Text.

A system that only resembles one of an authority has no name, and its Well-Known Text goes with the map into whatever is
written of it. A map that says nothing of its system is of UNKNOWN, a plane of its own, which no reader takes for
degrees.

Systems are compared by GDAL. A module for the tools; it is no tool of its own."""

import json
import contextlib
import math
import pathlib
import re
from collections.abc import Iterable
from typing import Any

from ..grid import scale as scales

UNKNOWN = ('ENGCRS["A plane",EDATUM["Unknown"],CS[Cartesian,2],AXIS["x",unspecified],AXIS["y",unspecified],'
           'LENGTHUNIT["unknown",1]]')
# What planes are called that say no more.
NAMELESS = ("A plane", "Undefined Cartesian SRS", "Nonearth", "unknown", "unnamed")
DEGREES = ("EPSG:4326", scales.CRS84)  # of files, which have longitudes first by either name
# How large units are, in radians and in metres: texts call one unit in many ways.
ANGLES = {"degree": math.pi / 180}
LENGTHS = {"metre": 1.0, "kilometre": 1000.0, "foot": 0.3048, "US survey foot": 1200 / 3937}
EQUAL = 100  # by GDAL's measure of a match
BUT_FOR_AXES = ["IGNORE_DATA_AXIS_TO_SRS_AXIS_MAPPING=YES", "CRITERION=EQUIVALENT_EXCEPT_AXIS_ORDER_GEOGCRS"]
TEXT = re.compile(r'\s*[A-Z_]+\s*[\[(]\s*"([^"]*)"')
IN_A_SHAPEFILE = ["FORMAT=WKT1_ESRI"]
SHAPEFILE = "ESRI Shapefile"


class SystemFault(ValueError):
    """Why a coordinate system is not named."""


def modules() -> tuple[Any, Any]:
    """GDAL and its part for coordinate systems."""
    from osgeo import gdal, ogr, osr

    for one in (gdal, ogr, osr):
        one.UseExceptions()
    return gdal, osr


def is_text(name: str) -> bool:
    """Whether a system is given by Well-Known Text, and not by a name."""
    return bool(TEXT.match(name))


def shown(name: str | None) -> str:
    """A system as a line says it: by its name, in quotes where only its Well-Known Text has one."""
    if name is None or name == UNKNOWN:
        return "unknown"
    found = TEXT.match(name)
    return f'"{found[1]}"' if found else name


def parsed(name: str) -> Any:
    """A system by its name or its Well-Known Text."""
    gdal, osr = modules()
    system = osr.SpatialReference()
    gdal.PushErrorHandler("CPLQuietErrorHandler")
    try:
        system.SetFromUserInput(name)
    except RuntimeError as fault:
        raise SystemFault(f"no coordinate system: {name[:80]}") from fault
    finally:
        gdal.PopErrorHandler()
    return system


def called(system: Any) -> str:
    """What a system of GDAL is called: CRS84, the name of the system that it equals, or its Well-Known Text."""
    if system is None or (system.IsLocal() and system.GetName() in NAMELESS):
        return UNKNOWN
    if system.IsSame(parsed(DEGREES[0]), BUT_FOR_AXES):
        return scales.CRS84
    own = own_name(system)
    if own and is_known(own) and is_same(system, parsed(own)):
        return own
    equal = [own_name(found) for found, confidence in system.FindMatches() if confidence >= EQUAL]
    return next((name for name in equal if name), str(system.ExportToWkt(["FORMAT=WKT2_2019"])))


def own_name(system: Any) -> str | None:
    """The authority and the code that a system itself names."""
    name, code = system.GetAuthorityName(None), system.GetAuthorityCode(None)
    return f"{name}:{code}" if name and code else None


def is_known(name: str) -> bool:
    """Whether GDAL knows a system by this name or this Well-Known Text."""
    try:
        return parsed(name) is not None
    except SystemFault:
        return False


def unit_of(name: str | None) -> str | None:
    """The unit of a system's coordinates, as `metre` or `US survey foot`, also of one that has no name; None where it
    is not known."""
    if name is None or name == UNKNOWN:
        return None
    if name in DEGREES:
        return "degree"
    try:
        system = parsed(name)
    except SystemFault:
        return None
    is_angle = system.IsGeographic()
    size = system.GetAngularUnits() if is_angle else system.GetLinearUnits()
    own = str(system.GetAngularUnitsName() if is_angle else system.GetLinearUnitsName())
    names = (name for name, known in (ANGLES if is_angle else LENGTHS).items()
             if math.isclose(size, known, rel_tol=1e-9))
    return None if own in ("", "unknown") else next(names, own)


def is_same(one: Any, other: Any) -> bool:
    """Whether two systems are equal, as such or as a Shapefile has them, which says nothing of the order of axes."""
    if one.IsSame(other, BUT_FOR_AXES):
        return True
    try:
        return bool(one.ExportToWkt(IN_A_SHAPEFILE) == other.ExportToWkt(IN_A_SHAPEFILE))
    except RuntimeError:  # not every system has such a text
        return False


def called_by(name: str) -> str:
    """What a file calls its system, in the form of this module: UNKNOWN where that is no name."""
    if name == UNKNOWN:
        return UNKNOWN
    if is_text(name):
        modules()
        return called(parsed(name)) if is_known(name) else UNKNOWN
    found = scales.crs_called(name) or re.sub(r"^urn:ogc:def:crs:([\w-]+):[\w.]*:([\w.-]+)$", r"\1:\2", name)
    return found if scales.CRS_NAME.fullmatch(found) else UNKNOWN


def of_layer(file: Any, layer: Any) -> str:
    """What the system of a layer is called. Of a Shapefile its .prj is asked, as GDAL takes what
    resembles it for it."""
    if file.GetDriver().ShortName != SHAPEFILE:
        return called(layer.GetSpatialRef())
    with contextlib.suppress(RuntimeError):  # GDAL says once that it cannot read a .prj, and else amid the features
        layer.GetSpatialRef()
    stem = stem_of(file.GetDescription(), layer.GetName())
    text = content(f"{stem}.prj") or content(f"{stem}.PRJ")
    if not is_text(text):
        return UNKNOWN
    _, osr = modules()
    system = osr.SpatialReference()
    try:
        system.ImportFromESRI(text.splitlines())
        return called(system)
    except RuntimeError:  # other programs write other text into a .prj
        return called_by(text)


def stem_of(path: str, layer: str) -> str:
    """The files of a layer of a Shapefile, without their ends: of a path to one of them, to their
    folder or an archive."""
    if re.search(r"\.(shp|shx|dbf)$", path, re.IGNORECASE):
        return path[:-4]
    gdal, _ = modules()
    folder = f"/vsizip/{path}" if path.lower().endswith(".shz") and not path.startswith("/vsizip/") else path
    names = (name for name in gdal.ReadDirRecursive(folder) or () if name.lower().endswith(".shp"))
    return next((f"{folder}/{name[:-4]}" for name in names if pathlib.PurePath(name).stem == layer),
                f"{folder}/{layer}")


def content(name: str) -> str:
    """The text of a file that GDAL opens, also in an archive; none where it is not there."""
    gdal, _ = modules()
    found = gdal.VSIStatL(name)
    if found is None or not found.size:
        return ""
    file = gdal.VSIFOpenL(name, "rb")
    try:
        return bytes(gdal.VSIFReadL(1, found.size, file)).decode("utf-8", "replace")
    finally:
        gdal.VSIFCloseL(file)


def are_one(first: str, second: str) -> bool:
    """Whether two names, one of them Well-Known Text, or two of the names of degrees, are of one system."""
    if first == second or {first, second} == set(DEGREES):
        return True
    has_text = is_text(first) or is_text(second)
    return has_text and is_known(first) and is_known(second) and is_same(parsed(first), parsed(second))


def distinct(names: Iterable[str | None]) -> list[str]:
    """The systems that these are, without what is unknown, each once: by its name where one of them has it."""
    found: list[str] = []
    for name in sorted(dict.fromkeys(name for name in names if name and name != UNKNOWN), key=is_text):
        if not any(are_one(name, other) for other in found):
            found.append(name)
    return found


def member(crs: str | None) -> str:
    """The member that names the coordinates, where they are not GeoJSON's own; GDAL and QGIS read it. A system that
    nobody named is a plane of its own, as without the member numbers are degrees."""
    if crs == scales.CRS84:
        return ""
    crs = crs or UNKNOWN
    name = crs.replace("EPSG:", "urn:ogc:def:crs:EPSG::", 1) if crs.startswith("EPSG:") else crs
    return f'"crs": {{"type": "name", "properties": {{"name": {json.dumps(name)}}}}},\n'
