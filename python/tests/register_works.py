"""Small registers, writers that edit them, and what their tables are to have, worked out by fractions alone."""

from __future__ import annotations

import contextlib
import random
import sqlite3
import struct
from collections.abc import Callable, Iterator
from dataclasses import dataclass
from decimal import ROUND_HALF_UP, Decimal
from fractions import Fraction
from itertools import combinations, product
from pathlib import Path
from typing import Any

import pytest
from osgeo import gdal, ogr, osr

from overlayd.kernel import Ask
from overlayd.register.answers import Program
from overlayd.register.blobs import blob_of, well_known
from overlayd.register.filling import keep
from overlayd.register.model import Kept, Kind
from overlayd.register.package import GeoPackage
from overlayd.register.refreshing import refresh
from overlayd.register.registers import Register

from . import slabs
from .common import Programs

gdal.UseExceptions()
ogr.UseExceptions()

GRID = 1000  # units in a metre
SYSTEM = 25832
EAST, NORTH = 500000, 5400000
SIDE = 6  # metres, about, of a feature
Feature = list[slabs.Ring]
Row = tuple[Any, ...]


def polygon(*rings: list[tuple[float, float]]) -> bytes:
    """Well-Known Binary of rings that are closed."""
    parts = [struct.pack("<I", len(ring)) + b"".join(struct.pack("<2d", *corner) for corner in ring) for ring in rings]
    return struct.pack("<BII", 1, 3, len(rings)) + b"".join(parts)


def blob(shape: bytes) -> bytes:
    """A geometry of a GeoPackage."""
    found = ogr.CreateGeometryFromWkb(shape)
    low_x, high_x, low_y, high_y = found.GetEnvelope()
    return blob_of(shape, SYSTEM, None if found.IsEmpty() else (low_x, low_y, high_x, high_y))


def rings_of(shape: bytes) -> list[list[tuple[float, float]]]:
    """The closed rings of a polygon or a multipolygon, by OGR."""
    found = ogr.CreateGeometryFromWkb(shape)
    parts = [found.GetGeometryRef(place) for place in range(found.GetGeometryCount())] \
        if found.GetGeometryType() in (ogr.wkbMultiPolygon, ogr.wkbMultiPolygon25D) else [found]
    return [[point[:2] for point in part.GetGeometryRef(place).GetPoints()]
            for part in parts for place in range(part.GetGeometryCount())]


def drawn(draw: random.Random, reach: int) -> bytes:
    """A quadrangle somewhere, on the grid of a millimetre."""
    x, y = draw.randint(0, 1000 * reach), draw.randint(0, 1000 * reach)
    corners = [(x + sign_x * draw.randint(500, 500 * SIDE), y + sign_y * draw.randint(500, 500 * SIDE))
               for sign_x, sign_y in ((-1, -1), (1, -1), (1, 1), (-1, 1))]
    ring = [(EAST + own / 1000, NORTH + other / 1000) for own, other in corners]
    return polygon([*ring, ring[0]])


def made(path: Path, draw: random.Random, parcels: int = 9, zones: int = 3, reach: int = 9) -> Path:
    """A GeoPackage with two layers, by GDAL."""
    store = gdal.GetDriverByName("GPKG").Create(str(path), 0, 0, 0)
    system = osr.SpatialReference()
    system.ImportFromEPSG(SYSTEM)
    for name, count in (("parcels", parcels), ("zones", zones)):
        layer = store.CreateLayer(name, system, ogr.wkbUnknown)
        layer.CreateField(ogr.FieldDefn("nr", ogr.OFTString))
        layer.StartTransaction()
        for number in range(count):
            feature = ogr.Feature(layer.GetLayerDefn())
            feature.SetGeometry(ogr.CreateGeometryFromWkb(drawn(draw, reach)))
            feature.SetField("nr", f"{name[0]}{number}")
            layer.CreateFeature(feature)
        layer.CommitTransaction()
    return path


@dataclass
class Land:
    """A register in a file, and the program."""

    path: Path | str
    register: Register
    program: Program

    def refresh(self, **words: Any) -> int:
        return refresh(self.register, self.program, **words)

    def ask(self, text: str, *values: object) -> list[Row]:
        return self.register.engine.ask(text, *values)

    def table(self, name: str) -> list[Row]:
        return self.ask(f"SELECT * FROM overlay_result_{name}")


PAIRS = Kept("pz", Kind.PAIRS, "parcels", "zones")
CHECK = Kept("shared", Kind.CHECK, "parcels", "parcels")
DERIVED = Kept("rest", Kind.DERIVE, None, None, "(zones - parcels) | (parcels & zones)", 6000)
ALL = (PAIRS, CHECK, DERIVED)


def land(path: Path, seed: int = 1, keeps: tuple[Kept, ...] = ALL, **words: int) -> Land:
    """A register with tables."""
    made(path, random.Random(seed), **words)
    register = Register(GeoPackage(str(path)))
    register.begin(Fraction(GRID))
    register.adopt("parcels", "nr")
    register.adopt("zones")
    assert Programs.features is not None
    own = Land(path, register, Program(Ask(Programs.features), Fraction(GRID)))
    for one in keeps:
        keep(register, one, own.program)
    return own


def whole(number: float) -> int:
    """The unit of the grid nearest to a coordinate, of two as near the greater."""
    scaled = Decimal(repr(number)) * GRID
    return int((scaled + Decimal("0.5")).to_integral_value(rounding="ROUND_FLOOR")) if scaled < 0 else \
        int(scaled.to_integral_value(rounding=ROUND_HALF_UP))


def features_in(path: Path | str, name: str) -> dict[int, Feature]:
    """The features of a layer in whole numbers, by OGR: those that are polygons. Of a file it reads a copy, since to
    close the file itself would take SQLite's locks from this process."""
    if isinstance(path, Path):
        copy = path.with_name(f"read-{path.name}")
        with contextlib.closing(sqlite3.connect(path)) as own, contextlib.closing(sqlite3.connect(copy)) as other:
            own.backup(other)
        path = copy
    store = gdal.OpenEx(str(path), gdal.OF_VECTOR | gdal.OF_READONLY)
    found = {}
    for feature in store.GetLayerByName(name):
        shape = feature.GetGeometryRef()
        if shape is not None and not shape.IsEmpty() and ogr.GT_Flatten(shape.GetGeometryType()) in (3, 6):
            rings = rings_of(bytes(shape.ExportToWkb()))
            found[feature.GetFID()] = [[(whole(x), whole(y)) for x, y in ring[:-1]] for ring in rings]
    return found


def relation(a: Feature, b: Feature) -> tuple[str, Fraction] | None:
    """How two features lie and their common area; None where they have no common point."""
    if any(boxes_apart(a, b, axis) for axis in (0, 1)):
        return None
    area, own, other = slabs.common(a, b), slabs.common(a, a), slabs.common(b, b)
    if not area:
        return ("touches", area) if meet(a, b) else None
    if area in (own, other):
        return ("equals" if own == other else "within" if area == own else "contains"), area
    return "overlaps", area


def boxes_apart(a: Feature, b: Feature, axis: int) -> bool:
    """Whether the boxes of two features have no common point, by one axis."""
    own, other = ([corner[axis] for ring in one for corner in ring] for one in (a, b))
    return max(own) < min(other) or max(other) < min(own)


def meet(a: Feature, b: Feature) -> bool:
    """Whether two boundaries have a common point."""
    own, other = ([pair for ring in one for pair in zip(ring, ring[1:] + ring[:1])] for one in (a, b))
    return any(segments_meet(first, second) for first, second in product(own, other))


def turn(a: slabs.Point, b: slabs.Point, c: slabs.Point) -> int:
    """On which side of a line a point lies."""
    found = (b[0] - a[0]) * (c[1] - a[1]) - (b[1] - a[1]) * (c[0] - a[0])
    return (found > 0) - (found < 0)


def within_box(a: slabs.Point, b: slabs.Point, c: slabs.Point) -> bool:
    """Whether the third point lies in the box of the others."""
    return all(min(a[axis], b[axis]) <= c[axis] <= max(a[axis], b[axis]) for axis in (0, 1))


def segments_meet(first: slabs.Segment, second: slabs.Segment) -> bool:
    """Whether two segments have a common point."""
    (a, b), (c, d) = first, second
    sides = turn(a, b, c), turn(a, b, d), turn(c, d, a), turn(c, d, b)
    if sides[0] * sides[1] < 0 and sides[2] * sides[3] < 0:
        return True
    ends = ((a, b, c), (a, b, d), (c, d, a), (c, d, b))
    return any(not side and within_box(*three) for side, three in zip(sides, ends))


def expected(path: Path | str, kept: Kept) -> dict[Row, Fraction]:
    """What a table is to have: keys and relation, or a cell, and the area."""
    maps = {name: features_in(path, name) for name in ("parcels", "zones")}
    if kept.kind is Kind.DERIVE:
        return cells_expected(maps, kept)
    a, b = (maps[name or ""] for name in (kept.a, kept.b))
    of = combinations(sorted(a), 2) if kept.kind is Kind.CHECK else product(a, b)
    found: dict[Row, Fraction] = {}
    for i, j in of:
        row = relation(a[i], b[j])
        if row is not None and (kept.kind is Kind.PAIRS or row[0] != "touches"):
            found[i, j, row[0]] = row[1]
    return found


def cells_expected(maps: dict[str, dict[int, Feature]], kept: Kept) -> dict[Row, Fraction]:
    """The cells of (zones - parcels) | (parcels & zones), which is zones, or of zones - parcels."""
    counts = [len(maps["parcels"]), len(maps["zones"])]
    layers: list[Feature] = [*maps["parcels"].values(), *maps["zones"].values()]

    def inside(states: list[bool]) -> bool:
        parcel, zone = any(states[: counts[0]]), any(states[counts[0] : -1])
        return states[-1] and zone and (not parcel or kept.expression != "zones - parcels")

    corners = [corner for layer in layers for ring in layer for corner in ring]
    if not corners:
        return {}
    (west, south), (east, north) = ([edge(own) // kept.cell for own in zip(*corners)] for edge in (min, max))
    found: dict[Row, Fraction] = {}
    for i, j in product(range(west, east + 1), range(south, north + 1)):
        x, y, far_x, far_y = i * kept.cell, j * kept.cell, (i + 1) * kept.cell, (j + 1) * kept.cell
        core = [[(x, y), (far_x, y), (far_x, far_y), (x, far_y)]]
        near = [[] if any(boxes_apart(layer, core, axis) for axis in (0, 1)) else layer for layer in layers]
        if any(near[counts[0] :]) and (area := slabs.area([*near, core], inside)):
            found[i, j] = area
    return found


def check_tables(own: Land, keeps: tuple[Kept, ...] = ALL) -> None:
    """Looks whether all tables have what fractions say, idents among it."""
    for kept in keeps:
        want = expected(own.path, kept)
        if kept.kind is Kind.DERIVE:
            rows = own.ask(f"SELECT i, j, area, bound FROM {kept.table()}")
            have = {(i, j): (area, bound) for i, j, area, bound in rows}
        else:
            rows = own.ask(f"SELECT a, b, relation, area, bound FROM {kept.table()}")
            have = {(a, b, how): (area, bound) for a, b, how, area, bound in rows}
        assert len(have) == len(rows)
        assert have.keys() == want.keys(), kept.name
        for key, area in want.items():
            got, bound = have[key]
            assert abs(Fraction(got) - area / GRID**2) <= Fraction(bound), (kept.name, key)
        if kept.kind is not Kind.DERIVE:
            wrong = own.ask(f"SELECT 1 FROM {kept.table()} JOIN parcels ON fid = a WHERE nr IS DISTINCT FROM a_id")
            assert not wrong and not own.ask(f"SELECT 1 FROM {kept.table()} WHERE b_id IS NOT NULL") \
                or kept.kind is Kind.CHECK


def shaken(draw: random.Random, shape: bytes) -> bytes:
    """One corner of a polygon moved by up to 3 m, or all by up to 8 m; now and then off the grid."""
    ring = rings_of(shape)[0]
    off = draw.random() / 1000 if draw.random() < 0.1 else 0.0
    if draw.random() < 0.3:
        dx, dy = (draw.randint(-8000, 8000) / 1000 for _ in "xy")
        return polygon([(x + dx, y + dy) for x, y in ring])
    place = draw.randrange(len(ring) - 1)
    dx, dy = (draw.randint(-3000, 3000) / 1000 + off for _ in "xy")
    return polygon([(x + dx, y + dy) if at % (len(ring) - 1) == place else (x, y) for at, (x, y) in enumerate(ring)])


def by_sql(path: Path, draw: random.Random, edits: int) -> None:
    """Edits by SQL: all that it can do to a row."""
    engine = GeoPackage(str(path), writes_layers=True)
    for _ in range(edits):
        name = draw.choice(("parcels", "parcels", "zones"))
        with engine.writing():
            for _ in range(draw.choice((1, 1, 3))):
                edit_by_sql(engine, name, draw)
    engine.close()


def edit_by_sql(engine: GeoPackage, name: str, draw: random.Random) -> None:
    """One edit."""
    rows = engine.ask(f"SELECT fid, geom FROM {name}")
    if len(rows) < 3:
        engine.ask(f"INSERT INTO {name} (geom, nr) VALUES (?, 'more')", blob(drawn(draw, 9)))
        return
    fid, was = draw.choice(rows)
    shape = well_known(was)
    new = blob(drawn(draw, 9) if shape is None or was[3] & 0x10 else shaken(draw, shape))
    free = engine.ask(f"SELECT max(fid) + 1 FROM {name}")[0][0]
    texts: list[tuple[float, str, tuple[object, ...]]] = [
        (8, f"UPDATE {name} SET geom = ? WHERE fid = ?", (new, fid)),
        (2, f"DELETE FROM {name} WHERE fid = ?", (fid,)),
        (2, f"INSERT INTO {name} (geom, nr) VALUES (?, 'new')", (new,)),
        (1, f"REPLACE INTO {name} (fid, geom, nr) VALUES (?, ?, 'replaced')", (fid, new)),
        (1, f"UPDATE {name} SET fid = ? WHERE fid = ?", (free, fid)),
        (1, f"UPDATE {name} SET nr = ? WHERE fid = ?", (f"n{draw.randrange(99)}", fid)),
        (0.5, f"UPDATE {name} SET geom = NULL WHERE fid = ?", (fid,)),
    ]
    (chosen,) = draw.choices(texts, [weight for weight, _, _ in texts])
    engine.ask(chosen[1], *chosen[2])


def by_ogr(path: Path | str, draw: random.Random, edits: int) -> None:
    """Edits by OGR."""
    for _ in range(edits):
        store = gdal.OpenEx(str(path), gdal.OF_VECTOR | gdal.OF_UPDATE)
        layer = store.GetLayerByName(draw.choice(("parcels", "zones")))
        features = [*layer]
        if not features:
            continue
        layer.StartTransaction()
        feature = draw.choice(features)
        shape, what = feature.GetGeometryRef(), draw.random()
        if shape is None or shape.IsEmpty() or (what < 0.1 and len(features) > 3):
            layer.DeleteFeature(feature.GetFID())
        else:
            feature.SetGeometry(ogr.CreateGeometryFromWkb(shaken(draw, bytes(shape.ExportToWkb()))))
            if what < 0.25:
                feature.SetFID(-1)
                layer.CreateFeature(feature)
            else:
                layer.SetFeature(feature)
        layer.CommitTransaction()
        del features, feature, layer, store


def by_fiona(path: Path, draw: random.Random, edits: int) -> None:
    """Features that fiona appends."""
    fiona: Any = pytest.importorskip("fiona")
    for _ in range(edits):
        with fiona.open(path, "a", layer="parcels") as sink:
            ring = rings_of(drawn(draw, 9))[0]
            sink.write({"type": "Feature", "properties": {"nr": "fiona"},
                        "geometry": {"type": "Polygon", "coordinates": [ring]}})


WRITERS: dict[str, Callable[[Path, random.Random, int], None]] = {"sql": by_sql, "ogr": by_ogr, "fiona": by_fiona}


def warnings_of(work: Callable[[], object]) -> list[str]:
    """What GDAL says while something is done."""
    told: list[str] = []
    gdal.PushErrorHandler(lambda kind, number, text: told.append(text))
    try:
        work()
    finally:
        gdal.PopErrorHandler()
    return told


def rows_of(path: Path, text: str) -> list[Row]:
    """The rows of a statement, by a connection of its own."""
    store = sqlite3.connect(path)
    try:
        return store.execute(text).fetchall()
    finally:
        store.close()


def seeds(count: int) -> Iterator[random.Random]:
    """Sources of numbers."""
    return map(random.Random, range(count))
