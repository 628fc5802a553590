"""A register in a GeoPackage."""

from __future__ import annotations

import contextlib
import os
import sqlite3
import struct
import time
from collections.abc import Callable, Iterable, Iterator, Sequence
from pathlib import Path
from typing import Any

from . import statements, violation_map as shown
from .blobs import GATHERED, blob_of, bounds, box_of, fitted, well_known
from .engines import Found, Row
from .model import Layer, Refused
from .package_triggers import near, quoted, triggers

PATIENCE = 30.0  # seconds for which another's lock is waited for
LOOK = 0.05  # seconds between two looks whether something has changed
MOST_COLUMNS = 60  # of a layer that the log takes in: json_object takes 127 values at most
EXTENSION = ("overlayd_register", "docs/register.md", "write-only")
EXTENSIONS = ("CREATE TABLE IF NOT EXISTS gpkg_extensions (table_name TEXT, column_name TEXT, extension_name TEXT NOT"
              " NULL, definition TEXT NOT NULL, scope TEXT NOT NULL, CONSTRAINT ge_tce UNIQUE (table_name, column_name,"
              " extension_name))")
WHO = "one INTEGER PRIMARY KEY CHECK (one = 1), who TEXT, change BIGINT"  # of the transaction that is under way
INDEX = "CREATE VIRTUAL TABLE {} USING rtree(id, minx, maxx, miny, maxy, +digest BLOB)"
NEAR = ("WHERE t.{key} IN (SELECT i.id FROM overlay_boxes q CROSS JOIN {index} i WHERE i.maxx >= q.minx"
        " AND i.minx <= q.maxx AND i.maxy >= q.miny AND i.miny <= q.maxy)")
OURS = ("SELECT name, sql FROM sqlite_master WHERE type = 'trigger' AND tbl_name = ? AND name LIKE 'overlay\\_%'"
        " ESCAPE '\\'")
OTHERS = ("SELECT name FROM sqlite_master WHERE type = 'trigger' AND tbl_name = ? AND name NOT GLOB 'overlay_*'"
          " AND name NOT GLOB 'rtree_*' AND name NOT GLOB '*_feature_count_*' ORDER BY 1")


class GeoPackage:
    """A GeoPackage by one connection. One that writes layers has what the triggers of the standard's own index ask of
    whoever writes; all others run no function that a file brings."""

    def __init__(self, path: str, writes_layers: bool = False, patience: float = PATIENCE) -> None:
        if not Path(path).is_file():
            raise Refused(f"{path}: no such file")
        self.path, self.writes_layers, self.patience = path, writes_layers, patience
        self.db = sqlite3.connect(path, timeout=patience, isolation_level=None)
        try:
            if not self.ask("SELECT 1 FROM sqlite_master WHERE name = 'gpkg_contents'"):
                raise Refused(f"{path}: no GeoPackage")
        except sqlite3.DatabaseError as fault:
            raise Refused(f"{path}: no GeoPackage: {fault}") from None
        self.inode, self.log = os.stat(path).st_ino, self._log_now()
        self.ask("PRAGMA temp_store = MEMORY")
        if writes_layers:
            add_functions(self.db)
        else:
            self.ask("PRAGMA trusted_schema = OFF")

    @property
    def busy(self) -> tuple[type[Exception], ...]:
        """What is raised where others are in the way."""
        return (sqlite3.OperationalError,)

    @property
    def unfit(self) -> tuple[type[Exception], ...]:
        return (sqlite3.IntegrityError, sqlite3.InterfaceError, OverflowError)

    def ask(self, text: str, *values: object) -> list[Row]:
        return self.db.execute(text, values).fetchall()

    def many(self, text: str, rows: Iterable[Sequence[object]]) -> None:
        self.db.executemany(text, rows)

    def named(self, name: str) -> str:
        return quoted(name)

    @contextlib.contextmanager
    def reading(self) -> Iterator[None]:
        with self._transaction("BEGIN"):
            yield

    @contextlib.contextmanager
    def writing(self) -> Iterator[None]:
        with self._transaction("BEGIN IMMEDIATE"):
            self._need_log()
            yield
        self._need_log()

    def _log_now(self) -> int | None:
        """The inode of the log that is beside the file, if one is."""
        with contextlib.suppress(FileNotFoundError):
            return os.stat(f"{self.path}-wal").st_ino
        return None

    def _need_log(self) -> None:
        """Refuses what is written into a log that is the file's no more. A process that has also closed the file by
        other means, as by GDAL, has lost SQLite's locks on it, so that another process may take the log away."""
        found = self._log_now()
        self.log = self.log or found
        if found != self.log:
            raise sqlite3.DatabaseError(f"{self.path}-wal was taken away: nothing is written; open the file anew")

    @contextlib.contextmanager
    def _transaction(self, begin: str) -> Iterator[None]:
        self.db.execute(begin)
        try:
            yield
            self.db.execute("COMMIT")
        except BaseException:
            with contextlib.suppress(sqlite3.Error):
                self.db.execute("ROLLBACK")
            raise

    def is_register(self) -> bool:
        return bool(self.ask("SELECT 1 FROM sqlite_master WHERE type = 'table' AND name = 'overlay_state'"))

    def begin(self) -> None:
        self.ask(EXTENSIONS)
        for name, columns in statements.LISTED.items():
            self.create(name, columns, is_listed=True)
        for name, columns in statements.OWN.items():
            self.create(name, columns, is_listed=False)
        self.create("overlay_who", WHO, is_listed=False)
        self.ask("INSERT INTO overlay_who (one, who, change) VALUES (1, NULL, NULL)")

    def make_functions(self) -> None:
        """Nothing: triggers call none."""

    def create(self, name: str, columns: str, is_listed: bool) -> None:
        body = columns.replace("id KEY", "id INTEGER PRIMARY KEY AUTOINCREMENT NOT NULL")
        body = body.replace("BIGINT", "INTEGER").replace("DOUBLE PRECISION", "DOUBLE")  # the standard's own types
        self.ask(f"CREATE TABLE {quoted(name)} ({body})")
        self._tell_of(name, is_listed)

    def _tell_of(self, name: str, is_listed: bool) -> None:
        """Says of a table what it is: a table of attributes, or an extension's."""
        if is_listed:
            self.ask("INSERT OR IGNORE INTO gpkg_contents (table_name, data_type, identifier, srs_id)"
                     " VALUES (?, 'attributes', ?, 0)", name, name)
        else:
            self.ask("INSERT OR IGNORE INTO gpkg_extensions VALUES (?, NULL, ?, ?, ?)", name, *EXTENSION)

    def drop(self, name: str) -> None:
        self.ask(f"DROP TABLE IF EXISTS {quoted(name)}")
        for table in ("gpkg_contents", "gpkg_extensions", "gpkg_ogr_contents"):
            if self.ask("SELECT 1 FROM sqlite_master WHERE name = ?", table):
                self.ask(f"DELETE FROM {table} WHERE table_name = ?", name)

    def schema(self) -> int:
        return int(self.ask("PRAGMA main.schema_version")[0][0])

    def layer(self, name: str, ident: str | None) -> Layer:
        columns = self.ask("SELECT name, type, pk FROM pragma_table_info(?)", name)
        if not columns:
            raise Refused(f"{name}: no such layer in {self.path}")
        geometries = self.ask("SELECT column_name FROM gpkg_geometry_columns WHERE table_name = ?", name)
        if not geometries:
            raise Refused(f"{name}: a table without geometry")
        keys = [(column, kind) for column, kind, place in columns if place]
        if len(keys) != 1 or keys[0][1].upper() != "INTEGER":
            told = ", ".join(f"{column} ({kind})" for column, kind in keys) or "none"
            raise Refused(f"{name}: its key is to be one whole number (INTEGER PRIMARY KEY), but is {told}")
        if ident is not None and ident not in [column for column, _, _ in columns]:
            raise Refused(f"{name}: no column {ident}; there are {', '.join(column for column, _, _ in columns)}")
        return Layer(name, geometries[0][0], keys[0][0], ident)

    def make_index(self, layer: Layer) -> None:
        self.ask(INDEX.format(quoted(layer.index())))
        self._tell_of(layer.index(), is_listed=False)

    def _triggers(self, layer: Layer) -> dict[str, str]:
        """The triggers of a layer as they are to be."""
        return triggers(layer, self.columns(layer)[:MOST_COLUMNS])

    def arm(self, layer: Layer) -> None:
        self.disarm(layer)
        for text in self._triggers(layer).values():
            self.ask(text)

    def disarm(self, layer: Layer) -> None:
        for name, _ in self.ask(OURS, layer.name):
            self.ask(f"DROP TRIGGER {quoted(name)}")

    def is_armed(self, layer: Layer) -> bool:
        return {name: text for name, text in self.ask(OURS, layer.name)} == self._triggers(layer)

    def others(self, layer: Layer) -> list[str]:
        return [name for (name,) in self.ask(OTHERS, layer.name)]

    def may_write(self, layer: Layer) -> bool:
        return True

    def show_violations(self, layer: Layer) -> None:
        if self.ask("SELECT 1 FROM sqlite_master WHERE name = ?", shown.NAME):
            return
        ((system,),) = self.ask("SELECT srs_id FROM gpkg_geometry_columns WHERE table_name = ?", layer.name)
        shape = shown.BLOB.format(system=struct.pack("<i", system).hex(), gathered=GATHERED.hex())
        self.create(shown.FIRST, shown.TYPES, is_listed=False)
        rows = shown.ROWS.format(shape=shape)
        self.ask(f"CREATE VIEW {shown.NAME} AS SELECT * FROM {shown.FIRST} UNION ALL {rows}")
        self.ask("INSERT INTO gpkg_contents (table_name, data_type, identifier, srs_id) VALUES (?, 'features', ?, ?)",
                 shown.NAME, shown.NAME, system)
        self.ask("INSERT INTO gpkg_geometry_columns VALUES (?, 'geom', 'MULTIPOLYGON', ?, 0, 0)", shown.NAME, system)
        self.ask(shown.STYLES)
        self._tell_of("layer_styles", is_listed=True)
        self.ask(shown.ADD_STYLE, shown.NAME, shown.NAME, shown.style())

    def features(self, layer: Layer, where: str = "") -> Found:
        key, geom = quoted(layer.key), quoted(layer.geom)
        ident = "NULL" if layer.ident is None else f"CAST(t.{quoted(layer.ident)} AS TEXT)"
        rows = self.ask(f"SELECT t.{key}, t.{geom}, {ident} FROM {quoted(layer.name)} t {where} ORDER BY t.{key}")
        return Found([row[0] for row in rows], [well_known(row[1]) for row in rows], [row[2] for row in rows])

    def features_near(self, layer: Layer, waits: bool = False) -> Found:
        return self.features(layer, near(NEAR, layer, waits))

    @contextlib.contextmanager
    def editing(self, who: str | None) -> Iterator[int]:
        with self.writing():
            last = self.ask("SELECT seq FROM sqlite_sequence WHERE name = 'overlay_log'")
            number = (last[0][0] if last else 0) + 1
            self.ask("UPDATE overlay_who SET who = ?, change = ?", who, number)
            yield number
            self.ask("UPDATE overlay_who SET who = NULL, change = NULL")

    in_box = "maxx >= ? AND maxy >= ? AND minx <= ? AND miny <= ?"

    def place(self, layer: Layer) -> str:
        return quoted(layer.name)

    def columns(self, layer: Layer) -> list[str]:
        names = [name for (name,) in self.ask("SELECT name FROM pragma_table_info(?)", layer.name)]
        return [name for name in names if name not in (layer.geom, layer.key)]

    def shape_out(self, column: str) -> str:
        return f"t.{column}"

    def shape_read(self, value: Any) -> bytes | None:
        return well_known(value)

    def shape_in(self, layer: Layer, shape: bytes | None) -> tuple[str, object]:
        ((kind, system),) = self.ask("SELECT geometry_type_name, srs_id FROM gpkg_geometry_columns"
                                     " WHERE table_name = ?", layer.name)
        return "?", None if shape is None else blob_of(fitted(shape, kind), system, bounds(shape))

    def system(self, layer: Layer) -> str | None:
        found = self.ask("SELECT s.organization, s.organization_coordsys_id FROM gpkg_geometry_columns g JOIN"
                         " gpkg_spatial_ref_sys s ON s.srs_id = g.srs_id WHERE g.table_name = ? AND g.srs_id > 0",
                         layer.name)
        return f"{found[0][0].upper()}:{found[0][1]}" if found else None

    def second(self) -> GeoPackage:
        return type(self)(self.path, self.writes_layers, self.patience)

    def token(self) -> object:
        return self.ask("PRAGMA data_version")[0][0]

    def wait(self, seconds: float) -> None:
        time.sleep(min(LOOK, seconds))

    def is_replaced(self) -> bool:
        """Whether another file has the name now, or its log is lost to this connection."""
        try:
            return os.stat(self.path).st_ino != self.inode or self.log not in (None, self._log_now())
        except FileNotFoundError:
            return True

    def hold(self) -> None:
        """Has the file keep a log of what is written, so that nobody who reads is in the way of who writes."""
        with contextlib.suppress(sqlite3.OperationalError):  # locked, or on a drive that cannot do it
            self.ask("PRAGMA journal_mode = WAL")

    def settle(self) -> None:
        """Puts what is in the log into the file, so that a file that takes its place finds none of it."""
        self.ask("PRAGMA wal_checkpoint(TRUNCATE)")

    def backup(self, target: str) -> None:
        """Copies the file as it is now, while others write. The copy has its name when it is whole."""
        if os.path.exists(target):
            raise Refused(f"{target} is there already")
        with contextlib.closing(sqlite3.connect(target + ".part", isolation_level=None)) as copy:
            self.db.backup(copy)
            copy.execute("PRAGMA journal_mode = DELETE")  # so that one file has all
            found = copy.execute("PRAGMA quick_check(1)").fetchall()
        if found != [("ok",)]:
            raise Refused(f"{self.path} is damaged: {found[0][0]}")
        os.replace(target + ".part", target)

    def close(self) -> None:
        self.db.close()


def add_functions(db: sqlite3.Connection) -> None:
    """What the triggers of a GeoPackage's own index ask of whoever writes."""
    db.create_function("ST_IsEmpty", 1, lambda blob: None if blob is None else box_of(blob) is None, deterministic=True)
    for place, name in enumerate(("ST_MinX", "ST_MinY", "ST_MaxX", "ST_MaxY")):
        db.create_function(name, 1, edge_of(place), deterministic=True)


def edge_of(place: int) -> Callable[[object], float | None]:
    """One side of a geometry's box, as a function."""
    def edge(blob: object) -> float | None:
        box = box_of(blob)
        return None if box is None else box[place]
    return edge
