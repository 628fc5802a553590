"""Changes of a register through the front: one feature at a time (OGC API - Features, part 4), several as one, undo."""

import getpass
from collections.abc import Callable, Mapping
from typing import Any

from flask import Response, request

from ..register.answers import Program
from ..register.geojson import geometry_of, shape_of
from ..register.judging import Broken
from ..register.model import Refused
from ..register.registers import Register
from ..register.ruling import accept
from ..register.tables import Item, Unknown
from ..register.transacting import Breaks, Change, Done, Stale, Unfit, What, transact, undo
from ..register.violating import Violation
from .pages import Problem, body, page, sent
from .register_api import ROW, ROWS, RegisterApi, known, layer
from .register_items import of_row
from .systems import Unplaced

WHO_MOST = 200
PATCH = ("application/merge-patch+json",)


class RegisterChanges:
    """The pages that change a register, beside those that tell of it."""

    def __init__(self, pages: RegisterApi) -> None:
        self.pages, self.registers, self.systems = pages, pages.registers, pages.systems

    @page("POST", f"{ROWS}/items", "addFeature", "a new feature", "rowItem", body="rowFeature", status=201, slow=True)
    def create(self, name: str) -> Response:
        change = self._change(What.INSERT, name, None, body(*PATCH))
        done = self._made(lambda register, program: self._transacted(register, program, [change]))
        return self._answer(name, done, 201)

    @page("PUT", ROW, "replaceFeature", "another feature in the place of one", "rowItem", body="rowFeature", slow=True,
          if_match=True)
    def replace(self, name: str, identity: str) -> Response:
        """All columns that are not said are empty from then on."""
        given = body(*PATCH)

        def made(register: Register, program: Program) -> Done:
            columns = register.engine.columns(register.layer(layer(register, name)))
            whole: dict[str, Any] = {"geometry": None, **given}
            whole["properties"] = {**dict.fromkeys(columns), **(given.get("properties") or {})}
            return self._transacted(register, program, [
                self._change(What.UPDATE, name, int(identity), whole, if_match())])

        return self._answer(name, self._made(made))

    @page("PATCH", ROW, "updateFeature", "other values of some columns, or another shape", "rowItem", body="rowFeature",
          slow=True, if_match=True)
    def update(self, name: str, identity: str) -> Response:
        change = self._change(What.UPDATE, name, int(identity), body(*PATCH), if_match())
        return self._answer(name, self._made(lambda register, program: self._transacted(register, program, [change])))

    @page("DELETE", ROW, "removeFeature", "takes a feature out", "changedRows", slow=True, if_match=True)
    def remove(self, name: str, identity: str) -> Response:
        change = Change(What.DELETE, name, int(identity), etag=if_match())
        return self._told(self._made(lambda register, program: self._transacted(register, program, [change])))

    @page("POST", "/transaction", "transact", "changes of any features as one, or none", "changedRows",
          body="transaction", slow=True)
    def transaction(self) -> Response:
        """{"changes": [{"insert": layer, "feature": ..}, {"update": layer, "id": .., "etag": .., "feature": ..},
        {"delete": layer, "id": .., "etag": ..}]}."""
        given = body(*PATCH).get("changes")
        if not isinstance(given, list):
            raise Problem(400, "changes: a list is wanted")
        changes = [self._listed(one) for one in given]
        return self._told(self._made(lambda register, program: self._transacted(register, program, changes)))

    @page("POST", "/changes/<number:identity>/undo", "undo", "takes a whole change back", "changedRows", slow=True)
    def undo(self, identity: str) -> Response:
        return self._told(self._made(lambda register, program: undo(register, program, int(identity), self.who())))

    @page("POST", "/violations/<number:identity>/accept", "accept", "accepts a violation, and says why", "accepted",
          body="why", slow=True)
    def accept(self, identity: str) -> Response:
        why = body(*PATCH).get("why")

        def accepted(register: Register, _: Program) -> None:
            accept(register, int(identity), self.who(), why if isinstance(why, str) else "")

        self._made(accepted)
        return sent({"accepted": int(identity)})

    def who(self) -> str:
        """Who asks, as a server before this one says; else whose process this is."""
        if self.pages.who is None:
            return getpass.getuser()
        found = request.headers.get(self.pages.who, "").strip()
        if not found or len(found) > WHO_MOST:
            raise Problem(403, f"who asks is to be said: {self.pages.who}")
        return found

    def _listed(self, given: object) -> Change:
        """One change of a list."""
        words = [what for what in What if isinstance(given, dict) and what.value in given]
        if not isinstance(given, dict) or len(words) != 1 or not isinstance(given[words[0].value], str):
            raise Problem(400, "changes: each has insert, update or delete with the name of a layer")
        what, fid, etag = words[0], given.get("id"), given.get("etag")
        is_key = isinstance(fid, int) and not isinstance(fid, bool) and 0 <= fid < 2**63
        if not is_key and (what is not What.INSERT or fid is not None) or not isinstance(etag, str | None):
            raise Problem(400, "changes: id is the number of a feature, and etag a text")
        feature = given.get("feature", {} if what is What.DELETE else None)
        if not isinstance(feature, dict):
            raise Problem(400, "changes: insert and update have a feature")
        return self._change(what, given[what.value], fid, feature, etag)

    def _change(self, what: What, name: str, fid: int | None, given: Mapping[str, Any],
                etag: str | None = None) -> Change:
        """A change as a feature of GeoJSON says it."""
        values = given.get("properties") or {}
        if not isinstance(values, dict):
            raise Problem(400, "properties: an object is wanted")
        uri = self._system()
        shape, geometry = None, given.get("geometry")
        if geometry is not None:
            try:
                shape = shape_of(geometry)
                shape = shape_of(self.systems.back(geometry, uri))
            except Unplaced as fault:
                raise Problem(422, f"geometry: {fault}, as coordinates of {uri}") from fault
            except Unfit as fault:
                raise Problem(422, f"geometry: {fault}") from fault
        return Change(what, name, fid, shape, values, etag, has_no_shape="geometry" in given and shape is None)

    def _system(self) -> str | None:
        """The system of a question's coordinates."""
        uri = request.headers.get("Content-Crs", "").strip().strip("<>") or self.systems.usual()
        if uri is not None and uri not in self.systems.uris:
            raise Problem(400, f"Content-Crs: it is {' or '.join(self.systems.uris) or 'left out'}")
        return uri

    def _transacted(self, register: Register, program: Program, changes: list[Change]) -> Done:
        return transact(register, program, changes, self.who())

    def _made(self, work: Callable[[Register, Program], Any]) -> Any:
        """What a change makes, or why it is refused."""
        try:
            with self.registers.changing() as (register, program):
                return work(register, program)
        except Breaks as fault:
            told = Problem(409, f"refused by the rules: {fault}")
            told.more = {"broken": [self._broken(one) for one in fault.found]}
            raise told from None
        except Refused as fault:
            kinds = ((Unknown, 404), (Stale, 412 if request.headers.get("If-Match") else 409), (Unfit, 422))
            status = next((status for kind, status in kinds if isinstance(fault, kind)), 400)
            raise Problem(status, str(fault)) from None

    def _broken(self, one: Broken) -> dict[str, Any]:
        """A rule that would be broken: by which features, by which area, and where."""
        layers = (one.rule.a, one.rule.b or one.rule.a)
        found = one.violation
        features = [{"collection": name, "id": fid, "name": ident} for name, fid, ident in zip(
            layers, (found.a, found.b), (found.a_id, found.b_id)) if fid is not None]
        return {"rule": str(one.rule), "features": features, **self._measured(found), "new": self._measured(one.new)}

    def _measured(self, one: Violation) -> dict[str, Any]:
        geometry = geometry_of(one.outline)
        return {"area": one.area, "width": one.width,
                "geometry": geometry and self.systems.geometry(geometry, self._system())}

    def _answer(self, name: str, done: Done, status: int = 200) -> Response:
        """The feature that was changed, with its new digest and the number of the change."""
        _, fid, item = done.features[0]
        assert item is not None
        headers = {"Overlay-Change": str(done.number)}
        if status == 201:
            headers["Location"] = self.pages.address(name, fid)
        with self.registers.reading() as register:
            return self.pages.sent_item(known(register, name), of_row(item), None, status, **headers)

    def _told(self, done: Done) -> Response:
        """What a change has made of each feature."""
        def etag(item: Item | None) -> str | None:
            return None if item is None else item.etag()

        return sent({"change": done.number, "features": [
            {"collection": name, "id": fid, "etag": etag(item)} for name, fid, item in done.features]})


def if_match() -> str | None:
    """The digest that If-Match names, where it names one."""
    given = request.headers.get("If-Match", "").strip()
    return None if given in ("", "*") else given.removeprefix("W/").strip('"')
