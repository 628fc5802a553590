"""What there is at one version. The front's sessions are all that a process has, so nobody changes a layer but the
front itself: questions share a hold, a change has it alone, and all that is asked under one hold is of one version."""

import contextlib
import hashlib
import re
import threading
from collections import deque
from collections.abc import Callable, Iterable, Iterator, Mapping, Sequence
from typing import NamedTuple

from ..geometry.plane import Box
from ..grid import limits
from ..program import OVERSIZE, UNKNOWN_LAYER, Layer, Piece, Point, Refused, Session, edges_lines, is_pending
from .kept_values import Kept


class Busy(Exception):
    """The hold was not to be had in time: what is asked may be asked again."""


class Places:
    """So many may be here at once; who comes then is to ask again."""

    def __init__(self, count: int) -> None:
        self._free = threading.BoundedSemaphore(count)

    def __enter__(self) -> None:
        if not self._free.acquire(blocking=False):
            raise Busy("others wait for polygons that are worked out: ask again")

    def __exit__(self, *_: object) -> None:
        self._free.release()


class Hold:
    """Shared by those who ask and had alone by who changes, each in the order of coming."""

    def __init__(self) -> None:
        self._turn = threading.Condition()
        self._line: deque[object] = deque()
        self._sharing, self._alone = 0, False

    @contextlib.contextmanager
    def shared(self, timeout: float) -> Iterator[None]:
        with self._turn:
            self._wait(lambda: not self._alone, timeout)
            self._sharing += 1
        try:
            yield
        finally:
            with self._turn:
                self._sharing -= 1
                self._turn.notify_all()

    @contextlib.contextmanager
    def alone(self, timeout: float) -> Iterator[None]:
        with self._turn:
            self._wait(lambda: not self._alone and not self._sharing, timeout)
            self._alone = True
        try:
            yield
        finally:
            with self._turn:
                self._alone = False
                self._turn.notify_all()

    def _wait(self, is_free: Callable[[], bool], timeout: float) -> None:
        """Waits in the line until it is the first in it and what it waits for is free."""
        ticket = object()
        self._line.append(ticket)
        try:
            if not self._turn.wait_for(lambda: self._line[0] is ticket and is_free(), timeout):
                raise Busy("other questions or changes have taken too long: ask again")
        finally:
            self._line.remove(ticket)
            self._turn.notify_all()


class Listed(NamedTuple):
    """A layer with its revision, and the names of all layers that it reaches, its own among them."""

    layer: Layer
    revision: str
    reach: frozenset[str]


def listed(layers: Sequence[Layer], salt: str) -> dict[str, Listed]:
    """Layers with their revisions. A definition names only earlier layers."""
    found: dict[str, Listed] = {}
    for layer in layers:
        names = [] if layer.definition is None else re.findall(r"\w+", layer.definition)
        made_of = layer.text or re.sub(r"\w+", lambda name: found[name[0]].revision, layer.definition or "")
        digest = hashlib.blake2b(f"{salt}\n{made_of}".encode(), digest_size=8).hexdigest()
        reach = frozenset([layer.name]).union(*(found[name].reach for name in names))
        found[layer.name] = Listed(layer, digest, reach)
    return found


class View:
    """The layers of one version by name, in their order, and a session that is asked of them while a hold is shared.

    extents: the boxes that were worked out before, by revision; none where a layer is empty. version: its number."""

    def __init__(self, one: Session, layers: Mapping[str, Listed], extents: Kept[str, list[Box]], version: int) -> None:
        self.layers, self.version = layers, version
        self._one, self._extents = one, extents

    def layer(self, name: str) -> Listed:
        found = self.layers.get(name)
        if found is None:
            raise Refused(UNKNOWN_LAYER, "unknown layer")
        return found

    def reached(self, name: str) -> list[str]:
        """The names of all layers that a layer reaches, in their order, its own the last."""
        reach = self.layer(name).reach
        return [one for one in self.layers if one in reach]

    def locate(self, names: Iterable[str], question: Point) -> dict[str, str]:
        """Where a point lies in each of some layers."""
        return {name: self._one.locate(name, *question) for name in names}

    def columns(self, name: str, columns: Sequence[int]) -> list[list[Piece] | None]:
        """The pieces of some columns of a derived layer, None for one that is not built."""
        replies = list(self._one.answers(edges_lines(name, columns)))
        return [None if is_pending(reply) else reply.pieces() for reply in replies]

    def extent(self, name: str) -> Box | None:
        """The box of a layer, or None where it is empty. Of one that is not built it is the box of
        all that it reaches."""
        found = self.layer(name)
        held = self._extents.get(found.revision)
        if held is None:
            corners = self._corners(found.layer)
            if corners is None:
                bases = [other for other in found.reach if self.layer(other).layer.text is not None]
                return Box.round(box for box in map(self.extent, bases) if box)
            held = [Box.of(corners)] if corners else []
            self._extents.put(found.revision, held)
        return held[0] if held else None

    def _corners(self, layer: Layer) -> list[Point] | None:
        """All corners of a base layer's rings, or of a derived layer's boundary; None where that is not built."""
        if layer.text is not None:
            return [(int(x), int(y), 1) for x, y in re.findall(r"(-?\d+) (-?\d+)", layer.text)]
        try:
            columns = self.columns(layer.name, range(limits.COLUMNS))
        except Refused as fault:
            if fault.number != OVERSIZE:
                raise
            return None
        return None if None in columns else [corner for pieces in columns for piece in pieces or () for corner in piece]
