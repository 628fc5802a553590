"""GeoDataFrames for tests: maps of rectangles in whole numbers, of which GEOS's overlays are exact, and others."""

import math
import random
from typing import Any

import geopandas
from shapely import affinity
from shapely.geometry import Polygon, box

SYSTEM = "EPSG:25832"


def boxes(seed: int, count: int, name: str = "own") -> Any:
    """Rectangles that may lie on each other, with a number and a word of each."""
    source = random.Random(seed)
    shapes = []
    for _ in range(count):
        x, y = source.randint(0, 30), source.randint(0, 30)
        shapes.append(box(x, y, x + source.randint(1, 12), y + source.randint(1, 12)))
    words = [source.choice("abc") for _ in shapes]
    return geopandas.GeoDataFrame({name: range(count), "word": words}, geometry=shapes, crs=SYSTEM)


def tiles(seed: int, name: str = "tile") -> Any:
    """Rectangles that fill a square and do not overlap."""
    source = random.Random(seed)
    cuts = [sorted({0, 40, *source.sample(range(1, 40), 4)}) for _ in range(2)]
    columns, rows = ([*zip(own, own[1:])] for own in cuts)
    shapes = [box(x, y, far_x, far_y) for x, far_x in columns for y, far_y in rows]
    return geopandas.GeoDataFrame({name: range(len(shapes))}, geometry=shapes, crs=SYSTEM)


def turned(width: int, rows: int, each: int) -> tuple[Any, Any]:
    """Parcels and zones of so many parcels in a row each, both turned, so that their corners are doubles."""
    parcels = [box(x * 20, y * 30, x * 20 + 20, y * 30 + 30) for y in range(rows) for x in range(width)]
    zones = [box(x * 20, y * 30, (x + each) * 20, y * 30 + 30) for y in range(rows) for x in range(0, width, each)]
    found = []
    for name, shapes in (("parcel", parcels), ("zone", zones)):
        own = [affinity.rotate(one, 0.37, origin=(0, 0), use_radians=True) for one in shapes]
        found.append(geopandas.GeoDataFrame({name: range(len(own))}, geometry=own, crs=SYSTEM))
    return found[0], found[1]


def stars(seed: int, count: int) -> Any:
    """Polygons of many directions, with corners at doubles."""
    source = random.Random(seed)
    shapes = []
    for _ in range(count):
        x, y = source.uniform(0, 30), source.uniform(0, 30)
        turns = sorted(source.uniform(0, 2 * math.pi) for _ in range(9))
        shapes.append(Polygon([(x + source.uniform(2, 9) * math.cos(t), y + source.uniform(2, 9) * math.sin(t))
                               for t in turns]))
    return geopandas.GeoDataFrame({"star": range(count)}, geometry=shapes, crs=SYSTEM)
