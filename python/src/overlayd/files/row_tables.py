"""Tables of the kernel's rows: as text, as arrays of numpy, and as a layer of a GeoPackage, without a loop over rows.

What calls a feature is a text; a map's features are called by their numbers where no names are given."""

import io
import sqlite3
from collections.abc import Iterator, Mapping
from dataclasses import dataclass, field
from pathlib import Path

import numpy as np

from ..geometry.flat_arrays import Numbers, offsets, spans
from ..geometry.shortest import PAD, spelled
from ..kernel.columns import Column, of_bytes
from ..kernel.overlaying import Overlay
from ..kernel.rows import Relation
from . import writing
from .coordinate_systems import UNKNOWN, parsed
from .gdal_writing import QUICKLY, configured, modules

HEADS = ("a", "b", "relation", "area", "bound", "area_a", "area_b")
QUOTED = set(',"\r\n')  # marks for which a name is quoted
AT_ONCE, LONG = 1 << 13, 1 << 10  # lines of a text, and the letters of names up to which there are so many
LAYER = "pairs"
HEAD = np.frombuffer(b"GP\x00\x01", np.uint8)  # of a shape in a GeoPackage: version 0, lowest bytes first, no box
EMPTY, SIZE_OF_EMPTY = 0x10, 9  # the bit of an empty shape; the bytes of one, than which no other has so few


@dataclass(frozen=True)
class Named:
    """Rows, what features of both maps are called, or None, and further columns by their heads."""

    rows: Overlay
    a: Numbers | None = None
    b: Numbers | None = None
    more: Mapping[str, list[object]] = field(default_factory=dict)

    def heads(self) -> list[str]:
        """The heads of all columns."""
        return [*HEADS, *self.more]

    def columns(self) -> list[list[object]]:
        """What a table has below its heads, column by column."""
        relations = np.array([one.name.lower() for one in Relation])
        names = [called(own, self.rows.pairs[:, place]) for place, own in enumerate((self.a, self.b))]
        own = [column.tolist() for column in (*names, relations[self.rows.relations()], *self.numbers())]
        return [*own, *self.more.values()]

    def numbers(self) -> list[Numbers]:
        """The areas and the bound, column by column."""
        areas = [self.rows.areas(name) for name in ("both", "a", "b")]
        return [areas[0].doubles(), areas[0].bounds(), areas[1].doubles(), areas[2].doubles()]


def called(names: Numbers | None, features: Numbers) -> Numbers:
    """What features are called."""
    found: Numbers = features if names is None else names[features]
    return found


def quoted(names: Numbers) -> Numbers:
    """Names as a table of text has them."""
    if not QUOTED & {*"".join(names.tolist())}:
        return names
    own = [f'"{name.replace(chr(34), chr(34) * 2)}"' if QUOTED & {*name} else name for name in names.tolist()]
    return np.array(own, object)


def write_text(path: Path, named: Named) -> None:
    """Writes a table as CSV, whole or not at all."""
    with writing.whole(path) as file:
        file.writelines(lines(named))


def lines(named: Named) -> Iterator[str]:
    """A table as CSV, many lines in each text. Areas are the shortest decimals of their doubles."""
    yield ",".join(named.heads()) + "\n"
    rows = named.rows
    names = [texts(own, rows.pairs[:, place]) for place, own in enumerate((named.a, named.b))]
    called_by = [(own, rows.pairs[:, place]) for place, own in enumerate(names)]
    called_by.append((of_bytes([one.name.lower().encode() for one in Relation]), rows.relations()))
    numbers = named.numbers()
    at_once = max(1, AT_ONCE // (1 + sum(int(np.diff(own.at).max(initial=0)) for own in names) // LONG))
    for at in range(0, len(rows), at_once):
        some = slice(at, at + at_once)
        columns = [padded(own.part(places[some])) for own, places in called_by]
        columns += [spelled(own[some]) for own in numbers]
        columns += [padded(of_bytes([str(one).encode() for one in own[some]])) for own in named.more.values()]
        comma, end = (np.full((1, columns[0].shape[1]), mark, np.uint8) for mark in b",\n")
        parts = [part for own in columns for part in (own, comma)]
        whole = np.ascontiguousarray(np.concatenate([*parts[:-1], end]).T)
        yield whole.tobytes().translate(None, bytes([PAD])).decode()


def texts(names: Numbers | None, features: Numbers) -> Column:
    """What a table of text calls features, by their numbers."""
    own = np.arange(int(features.max(initial=-1)) + 1) if names is None else quoted(names)
    return of_bytes([str(one).encode() for one in own.tolist()])


def padded(own: Column) -> Numbers:
    """Texts as columns of bytes, PAD after each."""
    sizes = np.diff(own.at)
    rows: Numbers = np.full((len(sizes), int(sizes.max(initial=0))), PAD, np.uint8)
    rows[np.arange(rows.shape[1]) < sizes[:, None]] = own.data
    return rows.T


def write_array(path: Path, rows: Overlay) -> None:
    """Writes rows as one array of numpy, with the numbers of features, areas and bounds as doubles, and twice the areas
    as they are: numbers of 16 bytes, in parts of 2^-40 of the grid's unit square."""
    data = io.BytesIO()
    np.save(data, as_array(rows))
    writing.write_all({path: data.getvalue()})


def as_array(rows: Overlay) -> Numbers:
    """Rows as one array."""
    wide = ("both", "off", "of_a", "of_b")
    kind = [("a", "<i8"), ("b", "<i8"), ("relation", "u1"), ("is_proper", "?"), ("fault", "<u4"), ("area", "<f8"),
            ("bound", "<f8"), ("area_a", "<f8"), ("area_b", "<f8"), *((name, "<u8", 2) for name in wide)]
    found: Numbers = np.zeros(len(rows), kind)
    found["a"], found["b"] = rows.pairs[:, 0], rows.pairs[:, 1]
    for name in ("relation", "is_proper", "fault"):
        found[name] = rows.rows[name]
    for name, own in (("area", "both"), ("area_a", "a"), ("area_b", "b")):
        found[name] = rows.areas(own).doubles()
    found["bound"] = rows.areas().bounds()
    for name, own in zip(wide, ("both", "bound", "a", "b")):
        found[name] = np.ascontiguousarray(rows.rows[own]).view("<u8").reshape(-1, 2)
    return found


def write_package(path: Path, named: Named, system: str | None = None) -> None:
    """Writes a GeoPackage with a layer of the rows and, where they have them, their outlines. The
    coordinates' system is called as the other tools call it, or unknown."""
    target = path.resolve()
    new = writing.beside(target, ".gpkg")
    try:
        with configured(modules()[0], QUICKLY):
            number = made(new, named, system)
            fill(new, named, number)
            indexed(new)
        writing.take_places({new: target})
    finally:
        new.unlink(missing_ok=True)


def made(path: Path, named: Named, system: str | None) -> int:
    """Makes an empty layer by GDAL; the number of its system of coordinates."""
    gdal, ogr = modules()
    file = gdal.GetDriverByName("GPKG").Create(str(path), 0, 0, 0)
    options = ["SPATIAL_INDEX=NO", "GEOMETRY_NAME=geom", "FID=fid"]
    layer = file.CreateLayer(LAYER, parsed(system or UNKNOWN), ogr.wkbUnknown, options)
    own = [ogr.OFTReal if all(isinstance(one, float) for one in column) else ogr.OFTString
           for column in named.more.values()]
    for name, kind in zip(named.heads(), [ogr.OFTString] * 3 + [ogr.OFTReal] * 4 + own):
        layer.CreateField(ogr.FieldDefn(name, kind))
    del layer, file
    store = sqlite3.connect(path)
    try:
        (number,) = store.execute("SELECT srs_id FROM gpkg_geometry_columns").fetchone()
    finally:
        store.close()
    return int(number)


def fill(path: Path, named: Named, system: int) -> None:
    """Puts the rows in."""
    columns = named.columns()
    columns[:2] = [[*map(str, own)] for own in columns[:2]]
    heads = [*named.heads(), "geom"]
    insert = f"INSERT INTO {LAYER} ({', '.join(heads)}) VALUES ({', '.join('?' * len(heads))})"
    store = sqlite3.connect(path, isolation_level=None)
    try:
        store.execute("PRAGMA synchronous = OFF")
        store.execute("BEGIN")
        store.executemany(insert, zip(*columns, shapes_of(named.rows, system)))
        store.execute("COMMIT")
    finally:
        store.close()


def shapes_of(rows: Overlay, system: int) -> Iterator[bytes | None]:
    """The outlines as a GeoPackage has them."""
    if rows.outlines is None:
        return iter([None] * len(rows))
    return iter(headed(rows.outlines, system).to_list())


def headed(shapes: Column, system: int) -> Column:
    """Shapes with the head of a GeoPackage's."""
    sizes = np.diff(shapes.at)
    head = np.concatenate([HEAD, np.frombuffer(system.to_bytes(4, "little", signed=True), np.uint8)])
    at = offsets(sizes + len(head))
    data: Numbers = np.zeros(int(at[-1]), np.uint8)
    data[np.repeat(at[:-1], len(head)) + np.tile(np.arange(len(head)), len(sizes))] = np.tile(head, len(sizes))
    data[spans(at[:-1] + len(head), sizes)] = shapes.data
    data[at[:-1][sizes == SIZE_OF_EMPTY] + 3] |= EMPTY
    return Column(data, at)


def indexed(path: Path) -> None:
    """Adds the extent, and an index of places."""
    gdal, _ = modules()
    file = gdal.OpenEx(str(path), gdal.OF_VECTOR | gdal.OF_UPDATE)
    file.ExecuteSQL(f"RECOMPUTE EXTENT ON {LAYER}")  # by the shapes, as the index would give a wider one
    file.ExecuteSQL(f"SELECT CreateSpatialIndex('{LAYER}', 'geom')")
