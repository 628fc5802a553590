"""The pages of OGC API - Features (parts 1 and 2) over a register: its layers, tables of results, and violations."""

import urllib.parse
from fractions import Fraction
from typing import Any

from flask import Response, g, request

from ..grid import scale as scales
from ..register import statements
from ..register.model import Refused
from ..register.past import moment
from ..register.registers import Register
from .map_scale import MapScale
from .ogc_pages import CRS, ITEM_WORDS, OgcPages, time_of
from .opened_registers import OpenedRegisters
from .pages import GEOJSON, POINT, Problem, Word, link, page, sent, whole
from .register_items import Collection, RowItem, box_of, collections_of, of_layer
from .register_places import place_of
from .systems import Placed, Systems

ROWS = "/collections/<collection:name>"
ROW = f"{ROWS}/items/<number:identity>"
LIMIT, HISTORY_MOST = ITEM_WORDS[1], 1000
AFTER = whole("after", "go on after the item of this number", 0, 0, 2**63 - 1, {"default": 0})


def end_of(given: str) -> str | None:
    """A time of RFC 3339, or the end of two, as the log has it; None of an open end, and of none."""
    last = time_of(given).rpartition("/")[2]
    try:
        return moment(last) if last not in ("", "..") else None
    except Refused as fault:
        raise ValueError(str(fault)) from None


AT = Word("datetime", "a layer as it was at a time, or at the end of two with / between", {"type": "string"}, end_of)
PAGE_WORDS = (ITEM_WORDS[0], LIMIT, AFTER, AT, *ITEM_WORDS[4:6])
DIGITS = 9
EDITING = tuple("http://www.opengis.net/spec/ogcapi-features-4/1.0/conf/" + name for name in (
    "create-replace-delete", "update", "optimistic-locking-etags", "features"))


def scale_of(registers: OpenedRegisters) -> MapScale:
    """The system of a register's layers, and numbers as they are."""
    with registers.reading() as register:
        names = {register.engine.system(layer) for layer in register.layers().values()}
    name = names.pop() if len(names) == 1 else None
    if name == "EPSG:4326":  # of a GeoPackage and of PostGIS: longitude comes first
        name = scales.CRS84
    return MapScale(scales.Scale(title=registers.name.rpartition("/")[2], crs=name, digits=DIGITS))


class RegisterApi(OgcPages):
    """writable: whether features may be changed. who: the header in which a server before this one says who asks."""

    about = "Layers of features, what they overlap, and what breaks their rules"
    map_page = "register.html"

    def __init__(self, registers: OpenedRegisters, systems: Systems, writable: bool, who: str | None = None) -> None:
        super().__init__(systems.scale, systems)
        self.registers, self.writable, self.who = registers, writable, who

    def classes(self) -> list[str]:
        return [*super().classes(), *(EDITING if self.writable else ())]

    @page("GET", "/status", "getStatus", "of which state results are, and what is pending", "registerStatus")
    def status(self) -> Response:
        with self.registers.reading() as register:
            state = register.need()
            last = register.engine.ask("SELECT coalesce(max(id), 0) FROM overlay_log")[0][0]
            return sent({"title": self.scale.title, "version": state.version, "at": state.at, "last": last,
                         "grid": float(1 / state.factor), "writable": self.writable,
                         "pending": {name: count for name, count in register.engine.ask(statements.PENDING_OF)},
                         "rules": [{"rule": str(one), "least": one.least} for one in register.rules()],
                         "crs": self.scale.crs, "storage": self.systems.storage})

    @page("GET", "/collections", "getCollections", "all collections", "collections", slow=True)
    def collections(self) -> Response:
        with self.registers.reading() as register:
            found = [self._described(register, one) for one in collections_of(register).values()]
        return sent({"links": [link(f"{g.root}/collections", "self")], "collections": found})

    @page("GET", ROWS, "describeCollection", "a collection", "collection", slow=True)
    def collection(self, name: str) -> Response:
        with self.registers.reading() as register:
            return sent(self._described(register, known(register, name)))

    def _described(self, register: Register, own: Collection) -> dict[str, object]:
        at = f"{g.root}/collections/{own.path()}"
        box = None if own.layer is None else box_of(register, own.layer)
        return {"id": own.name, "title": own.name, "description": own.text, "itemType": "feature",
                "links": [link(at, "self"), link(f"{at}/items", "items", GEOJSON)], **self._placed(box)}

    @page("GET", f"{ROWS}/items", "getFeatures", "items of a collection", "rowCollection", *PAGE_WORDS, kind=GEOJSON,
          slow=True)
    def items(self, name: str, after: int, limit: int, **words: Any) -> Response:
        """So many items after one by their numbers; no other is read, but where a box has few of those near it."""
        asked = self._asked(limit=limit, offset=0, **words)
        box = self._searched(words["bbox"], words["bbox_crs"])
        with self.registers.reading() as register:
            own, found = known(register, name, words["datetime"]), list[RowItem]()
            while len(found) <= limit:
                rows = own.page(after, limit + 1, box)
                found += [one for one in rows if asked.meets is None or (one.geometry and asked.meets(one))]
                if len(rows) <= limit:
                    break
                after = rows[-1].number
        at, given = f"{g.root}/collections/{own.path()}", request.args.to_dict()
        links = [link(f"{at}/items?{urllib.parse.urlencode(given, safe=',')}".rstrip("?"), "self", GEOJSON),
                 link(at, "collection")]
        chosen = found[:limit]
        if len(found) > limit:
            following = urllib.parse.urlencode({**given, "limit": limit, "after": chosen[-1].number}, safe=",")
            links.append(link(f"{at}/items?{following}", "next", GEOJSON))
        headers = {"Content-Crs": f"<{asked.system}>"} if asked.system else {}
        return sent({"type": "FeatureCollection", "numberReturned": len(chosen), "links": links,
                     "features": [self._written(one, asked.system) for one in chosen]}, GEOJSON, headers=headers)

    def _written(self, one: RowItem, system: str | None) -> dict[str, Any]:
        """An item in a system, with links to those that it is of."""
        made = one.geojson() if one.geometry is None else Placed(one, self.systems, system).geojson()
        links = [link(self.address(collection, number), rel, GEOJSON) for rel, collection, number in one.others]
        return {**made, "links": links} if links else made

    def address(self, name: str, number: int) -> str:
        """Where an item is."""
        return f"{g.root}/collections/{urllib.parse.quote(name, safe='')}/items/{number}"

    def _searched(self, bbox: list[Fraction] | None, system: str | None) -> tuple[float, ...] | None:
        """The box of the register that has all that lies in the box of a question; None where all is looked at."""
        if bbox is None:
            return None
        boxes = self._boxes(bbox, self._system("bbox-crs", system))
        if len(boxes) > 1:
            return None
        is_own = not self.systems.projection or self._system("bbox-crs", system) == self.systems.storage
        near = boxes[0] if is_own else self.systems.around(boxes[0])
        return None if near is None else tuple(map(float, near))

    @page("GET", ROW, "getFeature", "an item", "rowItem", CRS, AT, kind=GEOJSON, slow=True)
    def item(self, name: str, identity: str, crs: str | None, datetime: str | None) -> Response:
        with self.registers.reading() as register:
            own = known(register, name, datetime)
            found = [one for one in own.page(int(identity) - 1, 1, None) if one.number == int(identity)]
        if not found:
            raise Problem(404, f"{name} has no item {identity}")
        return self.sent_item(own, found[0], crs)

    def sent_item(self, own: Collection, one: RowItem, crs: str | None, status: int = 200, **headers: str) -> Response:
        """An item as an answer."""
        at, system = f"{g.root}/collections/{own.path()}", self._system("crs", crs)
        heads = {"ETag": f'"{one.etag}"'} if one.etag else {}
        heads |= {"Content-Crs": f"<{system}>"} if system else {}
        if status == 200 and one.etag and request.if_none_match.contains_weak(one.etag):
            return Response(status=304, headers=heads)
        made = self._written(one, system)
        links = [link(f"{at}/items/{one.number}", "self", GEOJSON), link(at, "collection"), *made.get("links", [])]
        if own.layer is not None:
            links.append(link(f"{at}/items/{one.number}/history", "version-history"))
        return sent({**made, "links": links}, GEOJSON, status, {**heads, **headers})

    @page("GET", f"{ROW}/history", "getHistory", "what was done to a feature, the latest first", "history")
    def history(self, name: str, identity: str) -> Response:
        with self.registers.reading() as register:
            layer(register, name)
            rows = register.engine.ask(statements.LOG_OF, name, int(identity), HISTORY_MOST)
        return sent({"changes": [logged(row) for row in rows]})

    @page("GET", "/changes", "getChanges", "what was done to all layers, in its order", "history", AFTER, LIMIT)
    def changes(self, after: int, limit: int) -> Response:
        with self.registers.reading() as register:
            rows = register.engine.ask(statements.LOG_AFTER, after, limit)
        return sent({"changes": [logged(row) for row in rows]})

    @page("GET", f"{ROWS}/locate", "locate", "the features that have a point", "registerLocated", *POINT, slow=True)
    def locate(self, name: str, x: Fraction, y: Fraction) -> Response:
        """x and y are those of the register's own system."""
        with self.registers.changing() as (register, program):
            found = place_of(register, layer(register, name), program, x, y)
        return sent({"point": [float(x), float(y)], "features": [
            {"id": row.fid, "place": place, "properties": dict(row.values)} for row, place in found]})


def known(register: Register, name: str, at: str | None = None) -> Collection:
    """A collection by its name; a layer also as it was."""
    found = collections_of(register).get(name)
    if found is None:
        raise Problem(404, f"there is no collection {name}")
    if at is None:
        return found
    if found.layer is None:
        raise Problem(400, f"datetime: {name} is as it is now; layers have a past")
    try:
        return of_layer(register, found.layer, at)
    except Refused as fault:
        raise Problem(400, f"datetime: {fault}") from None


def layer(register: Register, name: str) -> str:
    """A name of a layer, and of nothing else."""
    try:
        return register.layer(name).name
    except Refused as fault:
        raise Problem(404, str(fault)) from None


def logged(row: tuple[Any, ...]) -> dict[str, Any]:
    """A row of the log."""
    return dict(zip(("change", "at", "who", "collection", "id", "what", "row"), row))
