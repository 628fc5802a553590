"""Reads polygons of Well-Known Binary one by one, as GeoJSON has them; kernel/ reads whole columns of them."""

import struct
from typing import Any

KINDS = {3: "Polygon", 6: "MultiPolygon"}
Z, M, SYSTEM = 0x80000000, 0x40000000, 0x20000000


def read(shape: bytes, at: int = 0) -> tuple[dict[str, Any], int]:
    """One geometry without heights, and where it ends; a ValueError where it is no polygon."""
    order = "<" if shape[at : at + 1] == b"\1" else ">"
    (kind,) = struct.unpack_from(order + "I", shape, at + 1)
    axes = 2 + bool(kind & Z) + bool(kind & M) + (0, 1, 1, 2)[(kind & 0xFFFF) // 1000 % 4]
    name = KINDS.get((kind & 0xFFFF) % 1000)
    if name is None:
        raise ValueError("no polygon")
    at += 9 if kind & SYSTEM else 5
    (count,) = struct.unpack_from(order + "I", shape, at)
    at, parts = at + 4, []
    for _ in range(count):
        if name == "MultiPolygon":
            own, at = read(shape, at)
            parts.append(own["coordinates"])
            continue
        (points,) = struct.unpack_from(order + "I", shape, at)
        numbers = struct.unpack_from(f"{order}{axes * points}d", shape, at + 4)
        parts.append([[*numbers[place : place + 2]] for place in range(0, len(numbers), axes)])
        at += 4 + 8 * axes * points
    return {"type": name, "coordinates": parts}, at
