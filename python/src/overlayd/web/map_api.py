"""What the front answers beyond the standard: where points lie, tiles as they are built, the version, and changes."""

import re
from fractions import Fraction
from typing import cast

from flask import Response

from ..files import coordinate_systems
from ..grid import limits
from ..program import LARGEST_BATCH, NAME, OUT_OF_RANGE, Piece, Point, Refused, Session
from ..store.world import text_of
from .layer_store import LayerStore
from .ogc_pages import LAYER
from .pages import POINT, Problem, Word, body, page, sent
from .systems import Systems
from .views import Busy

DEFINITION_MOST = 2000
COLUMNS_FORM = "[0-9]{1,2}(,[0-9]{1,2}){0,99}"


def columns_of(given: str) -> list[int]:
    if not re.fullmatch(COLUMNS_FORM, given):
        raise ValueError("numbers parted by commas are wanted")
    return sorted({int(one) for one in given.split(",")})


COLUMNS = Word("columns", "numbers of columns, from 0, parted by commas; all where it is left out",
               {"type": "string", "pattern": f"^{COLUMNS_FORM}$"}, columns_of, [*range(limits.COLUMNS)])


class MapApi:
    def __init__(self, store: LayerStore, systems: Systems | None = None) -> None:
        self.store, self.scale = store, store.scale
        self.systems = systems or Systems(store.scale)

    @page("GET", "/status", "getStatus", "the version, and what of it is durable", "status")
    def status(self) -> Response:
        store = self.store
        try:
            with store.view() as view:
                version, durable, count = view.version, store.durable, cast("int | None", len(view.layers))
        except (Busy, TimeoutError):  # what is lost is reported all the same
            version, durable, count = store.version, store.durable, None
        return sent(
            {
                "title": self.scale.title, "version": version, "durable": durable if store.kept else None,
                "lost": store.lost(), "writable": store.writable, "layers": count,
                "columns": self.scale.columns(), "crs": self.scale.scale.crs, "storage": self.systems.storage,
                "y_first": bool(self.systems.projection and self.systems.projection.y_first), "unit": self.scale.unit,
                "geographic": self.scale.is_geographic(), "limits": self.scale.limits(),
            }
        )

    @page("GET", f"{LAYER}/locate", "locate", "where a point lies in a collection", "located", *POINT)
    def locate(self, name: str, x: Fraction, y: Fraction) -> Response:
        question, answer = self._question(x, y)
        with self.store.view() as view:
            answer["place"] = view.locate([name], question)[name]
        return sent(answer)

    @page("GET", "/locate", "locateAll", "where a point lies in each layer", "locatedAll", *POINT)
    def locate_all(self, x: Fraction, y: Fraction) -> Response:
        question, answer = self._question(x, y)
        with self.store.view() as view:
            answer["places"] = view.locate([*view.layers], question)
        return sent(answer)

    def _question(self, x: Fraction, y: Fraction) -> tuple[Point, dict[str, object]]:
        """What LOCATE is asked, and what the answer says of it: the point that was asked, and whether it is as given.

        A point out of the plane is refused here, as the program reads no number of so many digits as it may have."""
        question = self.scale.scale.question(x, y)
        if max(abs(question[0]), abs(question[1])) > limits.COORDINATE_MAX * question[2]:
            system = self.systems.storage or coordinate_systems.shown(self.scale.scale.crs)
            order = f"; x and y, in this order, are those of {system}" if self.scale.scale.crs else ""
            raise Refused(OUT_OF_RANGE, f"point out of range: it is out of the plane{order}")
        point = self.scale.scale.world(question)
        return question, {"asked": question, "point": [self.scale.number(n) for n in point], "exact": point == (x, y)}

    @page("GET", f"{LAYER}/tiles", "getTiles", "the boundary of a derived layer by columns, as far as it is built",
          "tiles", COLUMNS)
    def tiles(self, name: str, columns: list[int]) -> Response:
        """The columns of a derived layer: of each its pieces, or null where it is pending."""
        with self.store.view() as view:
            revision = view.layer(name).revision
            found = view.columns(name, columns)
        if None in found:
            self.store.remind(name)
        return sent({"revision": revision, "tiles": [self._tile(*one) for one in zip(columns, found)]})

    def _tile(self, column: int, pieces: list[Piece] | None) -> dict[str, object]:
        lines = None if pieces is None else [[self.scale.position(a), self.scale.position(b)] for a, b in pieces]
        return {"column": column, "lines": lines}

    # ---- changes

    @page("PUT", LAYER, "putLayer", "puts or defines a layer", "changed", body="layer", slow=True)
    def put(self, name: str) -> Response:
        line, moved = self._command(body(number=str), name)
        return self._changed([line], moved)

    @page("DELETE", LAYER, "dropLayer", "drops a layer", "changed", slow=True)
    def drop(self, name: str) -> Response:
        return self._changed([f"DROP {name}"], 0.0)

    @page("POST", "/batch", "batch", "changes several layers as one version", "changed", body="batch", slow=True)
    def batch(self) -> Response:
        """{"commands": [{"put": name, "geometry": ..}, {"define": name, "definition": ..}, {"drop": name}]}."""
        commands = body(number=str).get("commands")
        if not isinstance(commands, list) or not 1 <= len(commands) <= LARGEST_BATCH:
            raise Problem(400, f"commands: a list of 1 to {LARGEST_BATCH} objects is wanted")
        made = [self._command_of_batch(one) for one in commands]
        return self._changed([line for line, _ in made], max(moved for _, moved in made))

    def _changed(self, lines: list[str], moved: float) -> Response:
        version = self.store.change(lines)
        durable = self.store.durable if self.store.kept else None
        return sent({"version": version, "durable": durable, "moved": moved})

    def _command_of_batch(self, given: object) -> tuple[str, float]:
        words = [word for word in ("put", "define", "drop") if isinstance(given, dict) and word in given]
        name = given[words[0]] if isinstance(given, dict) and len(words) == 1 else None
        if not isinstance(given, dict) or not isinstance(name, str) or not NAME.match(name):
            raise Problem(400, "commands: each has put, define or drop with a name")
        if words == ["drop"]:
            return f"DROP {name}", 0.0
        if ("definition" in given) != (words == ["define"]):
            raise Problem(400, "commands: define has a definition, put a geometry")
        return self._command(given, name)

    def _command(self, given: dict[str, object], name: str) -> tuple[str, float]:
        """The line that puts or defines a layer as an object says, and how far a corner is moved."""
        if "definition" in given:
            return f"DEFINE {name} = {definition_of(given['definition'])}", 0.0
        try:
            text = text_of(given.get("geometry", given), self.scale.scale)
        except ValueError as fault:
            raise Problem(400, f"geometry: {fault}") from fault
        return Session.put_line(name, text.wkt), text.moved


def definition_of(given: object) -> str:
    """An expression that is one line of printed ASCII."""
    if not isinstance(given, str) or not re.fullmatch(rf"[ -~]{{1,{DEFINITION_MOST}}}", given):
        raise Problem(400, f"definition: one line of at most {DEFINITION_MOST} printed letters is wanted")
    return given
