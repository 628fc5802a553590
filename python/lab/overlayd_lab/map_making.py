#!/usr/bin/env python3
"""Makes two maps like a land register's, with whole millimetres for coordinates.

    /usr/bin/python3 python/lab/overlayd_lab/map_making.py PARCELS ZONES FOLDER [--lattice]

Parcels cover a square: four-sided cells whose borders have one more corner, half of them split in two by a line whose
ends lie on a border as near as a millimetre allows, which the neighbour there does not have. Zones cover it too, with
winding borders of 48 corners. FOLDER gets parcels.gpkg (about PARCELS features, property parcel) and zones.gpkg (about
ZONES, property zone), in EPSG:25832. With --lattice parcels are squares of 30 m that are turned, and a zone is one of
rows of six of them: the corners of parcels lie exactly on the borders of zones. Needs python3-numpy and python3-gdal.
"""

import argparse
import pathlib
import sys
from collections.abc import Iterator
from typing import Any

try:
    import numpy as np
    from osgeo import gdal, ogr, osr
except ImportError as fault:
    if {"-h", "--help"} & {*sys.argv}:
        print(__doc__)
        sys.exit(0)
    sys.exit(f"{fault}: apt-get install python3-numpy python3-gdal, and run this by /usr/bin/python3")

WEST, SOUTH, FACTOR = 480_000.0, 5_400_000.0, 1000
PARCEL = 30_000  # millimetres, about, from side to side
HEAD = np.dtype([("order", "u1"), ("kind", "<u4"), ("rings", "<u4"), ("points", "<u4")])
Numbers = np.ndarray[Any, Any]
Cells = list[Numbers]


def jittered(count: int, step: int, draw: np.random.Generator) -> Numbers:
    """The corners of count by count cells, [column, row, axis]."""
    at = np.stack(np.meshgrid(np.arange(count + 1), np.arange(count + 1), indexing="ij"), axis=-1) * step
    corners: Numbers = at + draw.integers(-step // 4, step // 4, at.shape)
    return corners


def between(a: Numbers, b: Numbers, part: Numbers) -> Numbers:
    """Places on the lines from a to b, rounded."""
    places: Numbers = np.rint(a + (b - a) * part[..., None])
    return places.astype(np.int64)


def parcels(count: int, step: int, draw: np.random.Generator) -> Cells:
    """Rings of parcels by their numbers of corners: [ring, corner, axis]."""
    corners = jittered(count, step, draw)
    sides = between(corners[:, :-1], corners[:, 1:], 0.3 + 0.4 * draw.random((count + 1, count)))
    sides += draw.integers(-step // 20, step // 20, sides.shape)
    low_left, low_right, top_right, top_left = corners[:-1, :-1], corners[1:, :-1], corners[1:, 1:], corners[:-1, 1:]
    west, east = sides[:-1], sides[1:]
    whole = np.stack([low_left, low_right, east, top_right, top_left, west], axis=2)
    low = between(low_left, low_right, 0.3 + 0.4 * draw.random((count, count)))
    top = between(top_left, top_right, 0.3 + 0.4 * draw.random((count, count)))
    split = draw.random((count, count)) < 0.5
    left, right = (np.stack(one, axis=2)[split] for one in
                   ([low_left, low, top, top_left, west], [low, low_right, east, top_right, top]))
    return [whole[~split], np.concatenate([left, right])]


def winding(a: Numbers, b: Numbers, parts: int, draw: np.random.Generator) -> Numbers:
    """Corners from a towards b, a among them, off the line by up to a twentieth of it: [.., corner, axis]."""
    along = np.arange(parts) / parts
    across = np.stack([a[..., 1] - b[..., 1], b[..., 0] - a[..., 0]], axis=-1)
    off = (draw.random((*a.shape[:-1], parts)) - 0.5) * 0.4 * along * (1 - along)
    corners: Numbers = a[..., None, :] + (b - a)[..., None, :] * along[:, None] + across[..., None, :] * off[..., None]
    return np.rint(corners).astype(np.int64)


def zones(count: int, step: int, draw: np.random.Generator) -> Cells:
    corners = jittered(count, step, draw)
    flat = winding(corners[:-1], corners[1:], 12, draw)  # west to east
    steep = winding(corners[:, :-1], corners[:, 1:], 12, draw)  # south to north
    # East to west, its first corner the east.
    closed = np.concatenate([flat, corners[1:, :, None]], axis=2)[:, :, :0:-1]
    down = np.concatenate([steep, corners[:, 1:, None]], axis=2)[:, :, :0:-1]
    return [np.concatenate([flat[:, :-1], steep[1:], closed[:, 1:], down[:-1]], axis=2).reshape(-1, 48, 2)]


def turned_squares(count: int, long: int) -> Numbers:
    """Rectangles of one by so many squares, count by count of the squares: each corner is whole,
    and all are on lines."""
    along, across = np.array([24_001, 18_003]), np.array([-18_003, 24_001])  # 30 m, at a right angle
    column, row = (one.ravel()[:, None] for one in np.meshgrid(np.arange(0, count, long), np.arange(count)))
    corners = [(0, 0), (long, 0), (long, 1), (0, 1)]
    return np.stack([(column + i) * along + (row + j) * across for i, j in corners], axis=1)


def well_known(cells: Cells) -> Iterator[bytes]:
    """Well-Known Binary of each ring as a polygon."""
    for rings in cells:
        size = rings.shape[1] + 1
        kind = np.dtype([("head", HEAD), ("points", "<f8", (size, 2))])
        made = np.zeros(len(rings), kind)
        made["head"] = (1, 3, 1, size)
        made["points"][:, :-1] = rings / FACTOR + (WEST, SOUTH)
        made["points"][:, -1] = made["points"][:, 0]
        for one in made:
            yield one.tobytes()


def write(path: pathlib.Path, cells: Cells, name: str) -> int:
    path.unlink(missing_ok=True)
    system = osr.SpatialReference()
    system.ImportFromEPSG(25832)
    store = gdal.GetDriverByName({".gpkg": "GPKG", ".fgb": "FlatGeobuf"}[path.suffix]).Create(str(path), 0, 0, 0)
    layer = store.CreateLayer(name, system, ogr.wkbPolygon)
    layer.CreateField(ogr.FieldDefn(name, ogr.OFTString))
    layer.StartTransaction()
    count = 0
    for count, shape in enumerate(well_known(cells), 1):
        feature = ogr.Feature(layer.GetLayerDefn())
        feature.SetField(0, f"{name[0]}{count - 1}")
        feature.SetGeometryDirectly(ogr.CreateGeometryFromWkb(shape))
        layer.CreateFeature(feature)
    layer.CommitTransaction()
    return count


def main() -> None:
    parser = argparse.ArgumentParser(description=__doc__, formatter_class=argparse.RawDescriptionHelpFormatter)
    parser.add_argument("parcels", metavar="PARCELS", type=int)
    parser.add_argument("zones", metavar="ZONES", type=int)
    parser.add_argument("folder", metavar="FOLDER", type=pathlib.Path)
    parser.add_argument("--lattice", action="store_true", help="squares whose corners lie on the zones' borders")
    parser.add_argument("--suffix", choices=["gpkg", "fgb"], default="gpkg")
    words = parser.parse_args()
    gdal.UseExceptions()
    words.folder.mkdir(parents=True, exist_ok=True)
    if words.lattice:
        count = 6 * round(words.parcels**0.5 / 6)
        maps = [turned_squares(count, 1)], [turned_squares(count, 6)]
    else:
        draw = np.random.default_rng(7)
        count, across = round((words.parcels / 1.5) ** 0.5), round(words.zones**0.5)
        maps = parcels(count, PARCEL, draw), zones(across, count * PARCEL // across, draw)
    made = write(words.folder / f"parcels.{words.suffix}", maps[0], "parcel")
    also = write(words.folder / f"zones.{words.suffix}", maps[1], "zone")
    print(f"{made} parcels, {also} zones")


if __name__ == "__main__":
    main()
