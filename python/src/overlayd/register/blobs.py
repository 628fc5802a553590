"""Geometries of a GeoPackage and their Well-Known Binary."""

from __future__ import annotations

import struct

MAGIC = b"GP"
ENVELOPES = (0, 32, 48, 48, 64)  # bytes of the box in a head, by its kind
HEAD = 8
EXTENDED = 0x20  # the bit of a geometry that is no Well-Known Binary
UNREADABLE = b"\0"
POLYGON, MULTIPOLYGON = 3, 6
GATHERED = struct.pack("<BII", 1, MULTIPOLYGON, 1)  # the head of a multipolygon of one polygon
Box = tuple[float, float, float, float]


def well_known(blob: object) -> bytes | None:
    """The Well-Known Binary of a geometry; of what is none, bytes that cannot be read."""
    if blob is None:
        return None
    if not isinstance(blob, bytes) or len(blob) < HEAD or blob[:2] != MAGIC or blob[3] & EXTENDED:
        return UNREADABLE
    kind = blob[3] >> 1 & 7
    return kind < len(ENVELOPES) and blob[HEAD + ENVELOPES[kind]:] or UNREADABLE


def system_of(blob: bytes) -> int:
    """The number of a geometry's coordinate system."""
    (number,) = struct.unpack_from("<i" if blob[3] & 1 else ">i", blob, 4)
    return int(number)


def blob_of(shape: bytes, system: int, box: Box | None) -> bytes:
    """A geometry of Well-Known Binary: least x, least y, greatest x, greatest y; of an empty one no box."""
    if box is None:
        return struct.pack("<2sBBi", MAGIC, 0, 0x11, system) + shape
    return struct.pack("<2sBBi4d", MAGIC, 0, 3, system, box[0], box[2], box[1], box[3]) + shape


def fitted(shape: bytes, kind: str) -> bytes:
    """A polygon as a multipolygon, for a column of these."""
    order = "<" if shape[0] else ">"
    is_single = struct.unpack_from(order + "I", shape, 1)[0] % 1000 == POLYGON
    return GATHERED + shape if is_single and kind.upper().startswith("MULTI") else shape


def box_of(blob: object) -> Box | None:
    """The box of a geometry, by its head where that has one: least x, least y, greatest x, greatest y."""
    if not isinstance(blob, bytes) or len(blob) < HEAD or blob[3] & 0x10:
        return None
    if blob[3] >> 1 & 7:
        low_x, high_x, low_y, high_y = struct.unpack_from("<4d" if blob[3] & 1 else ">4d", blob, HEAD)
        return low_x, low_y, high_x, high_y
    return bounds(well_known(blob) or UNREADABLE)


def bounds(shape: bytes) -> Box | None:
    """The box of Well-Known Binary."""
    from osgeo import ogr
    found = ogr.CreateGeometryFromWkb(shape)
    if found is None or found.IsEmpty():
        return None
    low_x, high_x, low_y, high_y = found.GetEnvelope()
    return low_x, low_y, high_x, high_y
