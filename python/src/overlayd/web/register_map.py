"""What the page with the map asks of a register beside OGC API - Features: tiles, where features are and where rules
are broken, what a feature overlaps, who has a corner, and what has changed.

Coordinates of questions and boxes are those of the register's own system, x first.
"""

import math
import threading
import time
from collections.abc import Callable
from fractions import Fraction
from typing import Any

from flask import Response, request

from ..files.coordinate_systems import unit_of
from ..register.blobs import bounds
from ..register.geojson import geometry_of
from ..register.model import Kind, Layer
from ..register.registers import Register
from ..register.tables import Table
from .pages import BOX, POINT, Problem, Word, numbers_of, page, sent, text, whole
from .register_api import AFTER, ROW, ROWS, RegisterApi, layer
from .register_corners import with_corner
from .vector_tiles import COARSE, EXTENT, square, tile
from .views import Busy

TILE = "application/vnd.mapbox-vector-tile"
FEATURES_MOST, BYTES_MOST = 40_000, 1 << 24  # of a tile
ZOOM_LEAST, ZOOM_MOST = -32, 32
PIXELS = 6  # a feature's mean width on the screen from which on a layer is drawn
NAMED, FINE = 3, 2  # zooms after the first one from which on a tile has names, and eight steps in a pixel
SQUARES, ROOM = 256, 3  # along the longer side of a shade at most, and how many features a square is wide at least
RESTS = 20  # what looks at all features is looked at again after so many times as long as it took
PATIENCE = 10.0  # seconds that a tile waits for others
SHOWN, OUTLINED, FOUND, PAIRED, CHANGED = 3000, 300, 10, 200, 1000
UNITS = {"metre": "m", "degree": "°"}
SIZES = ("SELECT count(*), avg(maxx - minx), avg(maxy - miny), min(minx), min(miny), max(maxx), max(maxy) FROM {}")
SHADE = ("SELECT round(((minx + maxx) / 2 - ?) / ? - 0.5) AS i, round(((miny + maxy) / 2 - ?) / ? - 0.5) AS j, count(*)"
         " FROM {} GROUP BY i, j")
OF_RULES = "SELECT v.* FROM overlay_rule r CROSS JOIN overlay_violation v WHERE v.rule = r.id AND v.width"
VIOLATIONS = f"FROM ({OF_RULES} > r.least UNION ALL {OF_RULES} IS NULL) v WHERE (v.area IS NULL OR v.area >= ?)"
VIOLATION = ("id", "rule", "a", "b", "a_id", "b_id", "area", "width", "minx", "miny", "maxx", "maxy", "who", "why",
             "accepted")
PAIRS = ("SELECT {other}, {other}_id, relation, area, bound FROM {table} WHERE {own} = ? AND relation <> 'touches'"
         " ORDER BY area DESC LIMIT ?")
LOG = ("SELECT id, coalesce(change, id), at, who, layer, fid, what, geom FROM overlay_log WHERE id > ? ORDER BY id"
       " LIMIT ?")
FIND = ("SELECT {key}, {called} AS called FROM {layer} WHERE substr({called}, 1, ?) = ? ORDER BY length({called}),"
        " called LIMIT ?")
NOW = "SELECT version, (SELECT coalesce(max(id), 0) FROM overlay_log) FROM overlay_state"
LEAST = Word("least", "the least area", {"type": "number"}, float, 0.0)
SEEN = BOX._replace(text="least x and y, greatest x and y", read=lambda given: numbers_of(given, 4))
FLAGS = tuple(whole(name, what, 0, 0, 1, {"maximum": 1, "default": 0}) for name, what in (
    ("accepted", "1: those that were accepted too"), ("outlines", "1: with outlines")))


class RegisterMap:
    """The pages of the map, beside those that tell of a register."""

    def __init__(self, pages: RegisterApi) -> None:
        self.pages, self.registers, self.systems = pages, pages.registers, pages.systems
        self._making, self._known = threading.Lock(), dict[str, tuple[float, Any]]()

    def _remembered(self, name: str, make: Callable[[], Any]) -> Any:
        """What is looked for in all features."""
        until, value = self._known.get(name, (0.0, None))
        began = time.monotonic()
        if began >= until:
            value = make()
            took = time.monotonic() - began
            self._known[name] = began + (1 + RESTS) * took, value
        return value

    def _size(self, register: Register, own: Layer) -> dict[str, Any]:
        """How many features a layer has, where they lie, and from which zoom on it is drawn."""
        index = register.engine.named(own.index())
        ((count, wide, high, *box),) = self._remembered(
            f"size {own.name}", lambda: register.engine.ask(SIZES.format(index)))
        mean = ((wide or 0) + (high or 0)) / 2
        first = math.ceil(math.log2(PIXELS / mean)) if mean > 0 else 0
        return {"name": own.name, "ident": own.ident, "count": count, "box": box if count else None, "wide": mean,
                "first": max(ZOOM_LEAST, min(first, ZOOM_MOST))}

    @page("GET", "/map")
    def map(self) -> Response:
        """What the page begins with."""
        with self.registers.reading() as register:
            ((version, last),), unit = register.engine.ask(NOW), unit_of(self.pages.scale.crs)
            made = {"title": self.pages.scale.title, "writable": self.pages.writable, "crs": self.pages.scale.crs,
                    "storage": self.systems.storage, "unit": UNITS.get(unit or "", unit or ""), "version": version,
                    "y_first": bool(self.systems.projection and self.systems.projection.y_first), "last": last,
                    "grid": float(1 / register.need().factor),
                    "layers": [self._size(register, one) for one in register.layers().values()],
                    "rules": [{"number": one.number, "rule": str(one), "least": one.least, "a": one.a, "b": one.b}
                              for one in register.rules()]}
        return sent(made)

    @page("GET", "/tiles/<collection:name>/<signed:z>/<signed:i>/<signed:j>.mvt")
    def tile(self, name: str, z: str, i: str, j: str) -> Response:
        """One is made at a time, which bounds the memory."""
        if not ZOOM_LEAST <= int(z) <= ZOOM_MOST:
            raise Problem(404, f"a zoom is {ZOOM_LEAST} to {ZOOM_MOST}")
        with self.registers.reading() as register:
            own = register.layers()[layer(register, name)]
            ((version, last),) = register.engine.ask(NOW)
            headers = {"ETag": f'"{version}-{last}"'}
            if request.if_none_match.contains_weak(f"{version}-{last}"):
                return Response(status=304, headers=headers)
            if not self._making.acquire(timeout=PATIENCE):
                raise Busy("others wait for tiles")
            try:
                body = self._tile(register, own, int(z), int(i), int(j))
            finally:
                self._making.release()
        return Response(body, headers=headers, content_type=TILE)

    def _tile(self, register: Register, own: Layer, z: int, i: int, j: int) -> bytes:
        engine, box, after = register.engine, square(z, i, j), z - self._size(register, own)["first"]
        is_named = own.ident is not None and after >= NAMED
        words = f", CAST(t.{engine.named(own.ident or '')} AS TEXT)" if is_named else ""
        key = f"t.{engine.named(own.key)}"
        rows = engine.ask(f"SELECT {key}, {engine.shape_out(engine.named(own.geom))}{words} FROM {engine.place(own)} t"
                          f" WHERE {key} IN (SELECT id FROM {engine.named(own.index())} WHERE {engine.in_box} LIMIT ?)",
                          *box, FEATURES_MOST + 1)
        shapes = [engine.shape_read(row[1]) for row in rows]
        if len(rows) > FEATURES_MOST or sum(len(one or b"") for one in shapes) > BYTES_MOST:
            raise Problem(413, f"a tile has at most {FEATURES_MOST} features of {BYTES_MOST} bytes: look closer")
        return tile(own.name, [row[0] for row in rows], shapes, [row[2] for row in rows] if is_named else None, box,
                    EXTENT if after >= FINE else COARSE)

    @page("GET", f"{ROWS}/shade", slow=True)
    def shade(self, name: str) -> Response:
        """How many features have their middle in each of some squares, row by row from the south."""
        with self.registers.reading() as register:
            own = register.layers()[layer(register, name)]
            size = self._size(register, own)
            return sent(self._remembered(f"shade {name}", lambda: self._shade(register, own, **size)))

    def _shade(self, register: Register, own: Layer, box: list[float] | None, wide: float, **_: object
               ) -> dict[str, Any]:
        if box is None or not wide:
            return {"x": 0, "y": 0, "side": 1, "width": 1, "height": 1, "counts": [0]}
        side = 2.0 ** math.ceil(math.log2(max(box[2] - box[0], box[3] - box[1], ROOM * wide * SQUARES) / SQUARES))
        x, y = math.floor(box[0] / side) * side, math.floor(box[1] / side) * side
        width, height = int((box[2] - x) // side) + 1, int((box[3] - y) // side) + 1
        counts = [0] * (width * height)
        for i, j, count in register.engine.ask(SHADE.format(register.engine.named(own.index())), x, side, y, side):
            if 0 <= i < width and 0 <= j < height:
                counts[int(j) * width + int(i)] = count
        return {"x": x, "y": y, "side": side, "width": width, "height": height, "counts": counts}

    @page("GET", "/violations", "", "", "", SEEN, LEAST, *FLAGS,
          whole("rule", "of one rule alone", 0, 0, 2**62, {}), whole("limit", "the most", 100, 1, SHOWN, {}), slow=True)
    def violations(self, bbox: list[Fraction] | None, least: float, accepted: int, outlines: int, rule: int, limit: int
                   ) -> Response:
        """What breaks rules and is wider than their least: how many, and the largest as rows of columns. A + keeps
        SQLite from all indexes but that of widths, as few violations are wide."""
        where, values = VIOLATIONS, [least]
        for is_asked, condition, more in ((not accepted, "v.accepted IS NULL", ()), (rule, "+v.rule = ?", (rule,)), (
                bbox, "+v.maxx >= ? AND +v.maxy >= ? AND +v.minx <= ? AND +v.miny <= ?", map(float, bbox or ()))):
            if is_asked:
                where, values = f"{where} AND {condition}", [*values, *more]
        columns = ", ".join(f"v.{name}" for name in (*VIOLATION, *["outline"] * outlines))
        with self.registers.reading() as register:
            ((count,),) = register.engine.ask(f"SELECT count(*) {where}", *values)
            rows = register.engine.ask(f"SELECT {columns} {where} ORDER BY v.area IS NULL DESC, v.area DESC LIMIT ?",
                                       *values, min(limit, OUTLINED) if outlines else limit)
        size = len(VIOLATION)
        return sent({"count": count, "columns": [*VIOLATION, "outline"], "rows": [
            [*row[:size], *(geometry_of(one and bytes(one)) for one in row[size:])] for row in rows]})

    @page("GET", f"{ROW}/results")
    def results(self, name: str, identity: str) -> Response:
        """What a feature overlaps, by each table of results that has it, and which rules it breaks."""
        made, broken = [], list[Any]()
        with self.registers.reading() as register:
            layer(register, name)
            for kept in register.kept():
                sides = [(own, other, to) for own, other, of, to in (("a", "b", kept.a, kept.b), (
                    "b", "a", kept.b, kept.a)) if of == name and kept.kind is not Kind.DERIVE]
                rows = [(to, *row) for own, other, to in sides for row in register.engine.ask(PAIRS.format(
                    own=own, other=other, table=register.engine.named(kept.table())), int(identity), PAIRED)]
                if sides:
                    made.append({"name": kept.name, "kind": kept.kind.value, "rows": [dict(zip(
                        ("collection", "id", "name", "relation", "area", "bound"), row)) for row in rows]})
            columns = ", ".join(f"v.{one}" for one in VIOLATION)
            for rule in register.rules():
                for own, of in (("a", rule.a), ("b", rule.b or rule.a)):
                    broken += register.engine.ask(
                        f"SELECT {columns} {VIOLATIONS} AND v.rule = ? AND v.{own} = ? LIMIT ?", 0, rule.number,
                        int(identity), PAIRED) if of == name else []
        return sent({"tables": made, "violations": {"columns": VIOLATION, "rows": broken}})

    @page("GET", "/find", "", "", "", text("text", "how a feature is called, or how that begins"), slow=True)
    def find(self, text: str | None) -> Response:
        """Features by what users call them, else by their keys, the shortest first."""
        made: list[dict[str, Any]] = []
        with self.registers.reading() as register:
            for own in register.layers().values() if text else ():
                key, column = register.engine.named(own.key), register.engine.named(own.ident or own.key)
                asked = FIND.format(key=key, called=f"CAST({column} AS TEXT)", layer=register.engine.place(own))
                rows = register.engine.ask(asked, len(text or ""), text, FOUND)
                made += [{"collection": own.name, "id": fid, "name": name} for fid, name in rows]
        return sent({"features": made})

    @page("GET", f"{ROWS}/corner", "", "", "", *POINT, slow=True)
    def corner(self, name: str, x: Fraction, y: Fraction) -> Response:
        """The features that have a corner at a point, with their digests, as they are to be before it is moved."""
        with self.registers.reading() as register:
            own = register.layers()[layer(register, name)]
            found = with_corner(Table(register.engine, own), register.need().factor, x, y)
        return sent({"features": [{
            "id": one.item.fid, "name": one.item.values.get(own.ident or "", one.item.fid), "etag": one.item.etag(),
            "added": one.added, "geometry": self.systems.geometry(one.geometry, self.systems.storage)}
            for one in found]})

    @page("GET", "/map/changes", "", "", "", AFTER)
    def changes(self, after: int) -> Response:
        """What has changed after a row of the log, with boxes before and after, and whether results have it yet."""
        with self.registers.reading() as register:
            engine = register.engine
            ((version, last),) = engine.ask(NOW)
            rows = engine.ask(LOG, after, CHANGED + 1) if last > after else []
            layers, made = register.layers(), []
            for row, change, at, who, name, fid, what, geom in rows[:CHANGED]:
                boxes = [] if name not in layers else [[*box] for box in engine.ask(
                    f"SELECT minx, miny, maxx, maxy FROM {engine.named(layers[name].index())} WHERE id = ?", fid)]
                shape = engine.shape_read(geom)
                made.append({"change": change, "at": at, "who": who, "collection": name, "id": fid, "what": what,
                             "boxes": [*boxes, *([bounds(shape)] if shape else [])]})
            is_pending = bool(engine.ask("SELECT 1 FROM overlay_pending LIMIT 1"))
        return sent({"version": version, "last": last, "pending": is_pending, "all": len(rows) > CHANGED,
                     "changes": made})
