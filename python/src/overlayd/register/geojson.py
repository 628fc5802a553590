"""Polygons as GeoJSON has them, and their Well-Known Binary."""

from __future__ import annotations

import math
import struct
from typing import Any

from ..geometry import wkb
from .blobs import MULTIPOLYGON, POLYGON
from .transacting import Unfit

KINDS = {"Polygon": POLYGON, "MultiPolygon": MULTIPOLYGON}


def geometry_of(shape: bytes | None) -> dict[str, Any] | None:
    """A polygon or a multipolygon of Well-Known Binary, without heights; None of what is neither."""
    try:
        return wkb.read(shape or b"")[0]
    except (struct.error, ValueError):
        return None


def shape_of(geometry: object) -> bytes:
    """The Well-Known Binary of a polygon or a multipolygon; Unfit where it is none."""
    kind = geometry.get("type") if isinstance(geometry, dict) else None
    if not isinstance(geometry, dict) or kind not in KINDS:
        raise Unfit("a Polygon or a MultiPolygon of GeoJSON is wanted")
    if kind == "Polygon":
        return polygon(geometry.get("coordinates"))
    parts = [polygon(one) for one in listed(geometry.get("coordinates"))]
    return struct.pack("<BII", 1, MULTIPOLYGON, len(parts)) + b"".join(parts)


def polygon(rings: object) -> bytes:
    """The same of one polygon."""
    parts = []
    for ring in listed(rings):
        points = [point(one) for one in listed(ring)]
        if not points:
            raise Unfit("empty: a ring has no position")
        parts.append(struct.pack(f"<I{2 * len(points)}d", len(points), *[axis for one in points for axis in one]))
    return struct.pack("<BII", 1, POLYGON, len(parts)) + b"".join(parts)


def listed(given: object) -> list[Any]:
    """A list."""
    if not isinstance(given, list):
        raise Unfit("coordinates are lists of rings, and these of positions")
    return given


def point(given: object) -> tuple[float, float]:
    """A position."""
    if not isinstance(given, list) or len(given) < 2 or any(isinstance(axis, bool) or not isinstance(axis, (int, float))
                                                            or not math.isfinite(axis) for axis in given[:2]):
        raise Unfit("a position is a list of two numbers")
    return float(given[0]), float(given[1])
