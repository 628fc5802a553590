"""A layer as it was: what the log says to have changed since is put back, page by page. The log goes back to when the
layer was taken in, or to where it was purged."""

import datetime
import json
from collections.abc import Iterator

from . import statements
from .engines import Engine, Row, filled
from .model import Layer, Refused
from .registers import Register
from .tables import Box, Item, Table

AT_ONCE = 10_000  # features


def moment(text: str) -> str:
    """A time as the log has it: 2026-12-01T10:00:00+01:00 as people write it, or a day, which begins by UTC."""
    try:
        found = datetime.datetime.fromisoformat(text)
    except ValueError:
        raise Refused(f"{text}: no time, as 2026-12-01 or 2026-12-01T10:00:00+01:00") from None
    own = found.replace(tzinfo=found.tzinfo or datetime.timezone.utc).astimezone(datetime.timezone.utc)
    return own.isoformat(timespec="milliseconds").replace("+00:00", "Z")


class Past(Table):
    """A layer as of a time of the log."""

    def __init__(self, engine: Engine, layer: Layer, at: str) -> None:
        super().__init__(engine, layer)
        ((since,),) = engine.ask(statements.SINCE, layer.name)
        if at < since:
            raise Refused(f"{layer.name}: its history begins at {since}")
        self.first: int = engine.ask(statements.FIRST_AFTER, at)[0][0]
        moves = engine.ask(statements.MOVED, layer.name, self.first)
        self.moved = {int(what.rpartition(" ")[2]): row for row, what in moves}

    def page(self, after: int, limit: int, box: Box | None = None) -> list[Item]:
        """So many features after one, by their keys as they were; box says nothing."""
        found: list[Item] = []
        same = filled(self.engine, statements.UNCHANGED, layer=self.layer)
        while len(found) < limit:
            rows = self.engine.ask(statements.WAS, self.layer.name, self.first, after, limit)
            now = self.items(f"WHERE t.{self.key} > ? AND {same} ORDER BY t.{self.key} LIMIT ?",
                             after, self.layer.name, self.first, limit)
            lasts = [keys[-1] for keys in ([row[1] for row in rows], [one.fid for one in now]) if len(keys) == limit]
            both = [*(one for one in now if one.fid not in self.moved), *self._were(rows)]
            found += sorted((one for one in both if not lasts or one.fid <= min(lasts)), key=lambda one: one.fid)
            if not lasts:
                break
            after = min(lasts)
        return found[:limit]

    def _were(self, rows: list[Row]) -> Iterator[Item]:
        """The features that were before the first rows of the log of their keys."""
        for row, fid, what, geom, old in rows:
            if what != "insert" and self.moved.get(fid, row) >= row:
                yield Item(fid, self.engine.shape_read(geom), json.loads(old or "{}"))

    def all(self) -> Iterator[Item]:
        """All features."""
        after = -2**63
        while True:
            found = self.page(after, AT_ONCE)
            yield from found
            if len(found) < AT_ONCE:
                return
            after = found[-1].fid


def purge(register: Register, at: str) -> int:
    """Takes away what the log has from before a time; how many rows that are."""
    register.need()
    with register.engine.writing():
        ((count,),) = register.engine.ask(statements.LOG_BEFORE, at)
        register.engine.ask(statements.PURGE, at)
        register.engine.ask(statements.SET_SINCE, at, at)
    return int(count)
