"""The layers of a running overlay_live as the web shows them: listed, joined into polygons, located, changed.

All that a process does not keep is kept here under a layer's revision, a digest of what the layer is made of: its own
text, or its definition with the revisions of the layers that this names. So a change to one layer leaves what was
worked out for others, and a revision that comes again finds its polygons again."""

import contextlib
import threading
import time
from collections.abc import Callable, Iterator, Mapping, Sequence
from typing import NamedTuple, cast

from ..ending import Unusable
from ..geometry.plane import Box
from ..kernel.layered import NoAnswer
from ..kernel.rows import BlockRefused
from ..kernel.running import Cancelled, ProgramEnded
from ..program import Ended, Refused, Server, Session, number_of
from ..store import outlines
from ..store.layers import Layers
from . import shapes
from .kept_values import Kept
from .map_scale import MapScale
from .rescue import NotWritten, Rescue
from .views import Busy, Hold, Listed, Places, View, listed

PIECES_MOST = 200_000
KEPT_MOST = 500_000
REVISIONS_MOST = 1000
WAITING_MOST = 12
"""How many questions make polygons, or wait for them, at once."""
PATIENCE = 120.0
"""How many seconds a question waits for polygons that are joined."""
JOINING = 60.0
"""How many seconds overlay_features may take for the polygons of one layer."""
JOINED_AT_ONCE, ENDING = 2, 2.0
"""How many layers are joined at once, and how many seconds these have to end with the front."""
TURN = 10.0
"""How many seconds a question or a change waits for its turn."""
LOST = 300.0
"""After how many seconds without a reply a session is lost, and not only late."""
FORGOTTEN = 600.0
"""How many seconds it is known that a layer was too large."""


class TooLarge(Exception):
    """A layer is more than is joined: it has more pieces, or takes more seconds, or its definition is too long."""


class Changed(Exception):
    """A layer has another revision than the one that was asked for."""


class NotDurable(Exception):
    """A change was accepted as a version, and the store could not keep it."""

    def __init__(self, version: int, fault: Exception) -> None:
        super().__init__(f"accepted as version {version}, but not durable: {fault}")
        self.version = version


class Joined(NamedTuple):
    """The polygons of a layer at a revision."""

    revision: str
    features: list[shapes.Feature]

    def weight(self) -> int:
        return 1 + sum(len(ring) for one in self.features for ring in one.rings)


class LayerStore:
    """The layers of a process. The process has no other sessions than those of `server`, so versions are counted here.

    features: the program that joins. version: the number that the process began with, and kept: whether it is the
    number of a file. rescue: what is begun where the file is not written any more. end: called with the reason where
    the front cannot go on."""

    def __init__(self, server: Server, features: str, scale: MapScale, *, version: int, kept: bool, writable: bool,
                 rescue: Rescue | None = None, end: Callable[[str], None] = lambda reason: None) -> None:
        self.scale, self.kept, self.writable = scale, kept, writable
        self.version = self.durable = version
        self._server, self._features = server, features
        self._rescue, self._end, self._gone = rescue, end, cast("str | None", None)
        self._salt = scale.scale.text()
        self._hold = Hold()
        self._listing: Mapping[str, Listed] | None = None
        self._joined: Kept[str, Joined] = Kept(KEPT_MOST, Joined.weight)
        self._extents: Kept[str, list[Box]] = Kept(REVISIONS_MOST, lambda _: 1)
        self._too_large: Kept[str, tuple[float, str]] = Kept(REVISIONS_MOST, lambda _: 1)
        self._joining, self._is_over = threading.BoundedSemaphore(JOINED_AT_ONCE), threading.Event()
        self._reminding, self._noting = threading.Lock(), threading.Lock()
        self.places = Places(WAITING_MOST)

    def close(self) -> None:
        """Ends what is joined."""
        self._is_over.set()
        for _ in range(JOINED_AT_ONCE):
            self._joining.acquire(timeout=ENDING)

    # ---- what there is

    @contextlib.contextmanager
    def view(self) -> Iterator[View]:
        """What there is at one version: until the end of the block nobody changes a layer."""
        if self._gone:
            raise Ended(self._gone)
        with self._server.session(timeout=TURN) as one, self._hold.shared(TURN):
            held = self._listing
            if held is None:
                held = self._listing = listed(one.layers(), self._salt)
            yield View(one, held, self._extents, self.version)

    def layers(self) -> Mapping[str, Listed]:
        """All layers in order, by name."""
        with self.view() as view:
            return view.layers

    def layer(self, name: str) -> Listed:
        with self.view() as view:
            return view.layer(name)

    # ---- polygons

    def joined(self, name: str, revision: str | None = None) -> Joined:
        """The polygons of a layer, at a revision that was reported before or the present one."""
        held = self._joined.get(revision) if revision else None
        if held:
            return held
        with self.view() as view:
            found, layers = view.layer(name), Layers.of(view.layer(one).layer for one in view.reached(name))
        if revision not in (None, found.revision):
            raise Changed(f"{name} has changed since revision {revision}")
        known = self._too_large.get(found.revision)
        if known and time.monotonic() - known[0] < FORGOTTEN:  # a machine that was busy is not so for ever
            raise TooLarge(known[1])
        try:
            return self._joined.made(found.revision, lambda: Joined(found.revision, self._joined_now(layers, name)),
                                     PATIENCE, self.places)
        except TooLarge as fault:
            self._too_large.put(found.revision, (time.monotonic(), str(fault)))
            raise

    def _joined_now(self, layers: Layers, name: str) -> list[shapes.Feature]:
        """The polygons of a layer, numbered from 1 in the order of their least corners."""
        if not self._joining.acquire(timeout=JOINING):
            raise Busy("other layers are being joined: ask again")
        most = f"up to {PIECES_MOST} pieces are joined, within {JOINING:g} seconds: ask for its tiles"
        end = time.monotonic() + JOINING
        try:
            row = outlines.row_of(layers, name, self._features,
                                  lambda _: time.monotonic() < end and not self._is_over.is_set())
            if (pieces := int(row.rows["pieces"][0])) > PIECES_MOST:
                raise TooLarge(f"{name} has {pieces} pieces, and {most}")
            return [shapes.Feature(number, [ring.corners for ring in rings], self.scale)
                    for number, rings in enumerate(outlines.polygons_of(row), 1)]
        except Cancelled:
            raise TooLarge(f"{name} takes longer, and {most}") from None
        except (Unusable, BlockRefused, NoAnswer) as fault:
            raise TooLarge(f"{fault}: ask for its tiles") from fault
        except ProgramEnded as fault:
            raise Busy("the process that joined it has been killed, as for its memory: ask again") from fault
        finally:
            self._joining.release()

    def remind(self, name: str) -> None:
        """Has tiles tried again that were given back for want of memory: WAIT does so, and is answered at once.

        Of others it is answered when they are built. So it is asked by a thread of its own, and one at a time."""
        if not self._server.slow.lost() and self._reminding.acquire(blocking=False):
            threading.Thread(target=self._wait, args=(name,), daemon=True).start()

    def _wait(self, name: str) -> None:
        try:  # an OSError or a ValueError where its files are closed meanwhile
            with contextlib.suppress(Refused, Ended, OSError, ValueError):
                with self._server.session(slow=True, timeout=0) as one:
                    one.wait(name)
        finally:
            self._reminding.release()

    # ---- changes

    def change(self, lines: Sequence[str]) -> int:
        """Accepts commands as one version, whose number it gives. With a file, it is durable before this returns."""
        if self._rescue and self._rescue.reason:
            raise NotWritten(f"nothing is changed: {self._rescue.reason}")
        with self._server.session(slow=True, timeout=TURN) as one:
            with self._hold.alone(TURN):
                version = self.version = self._accepted(one, lines)
            if self.kept:
                self._sync(one, version)
            return version

    def _accepted(self, one: Session, lines: Sequence[str]) -> int:
        """The number of the version that commands have made. Where no reply comes, nobody knows whether they have."""
        self._listing = None
        try:
            return one.batch(lines) if len(lines) > 1 else number_of(one.ask(lines[0]))
        finally:
            if one.lost_since is not None:
                self._gone = "a change has had no reply: nobody knows which version is the last"
                self._end(self._gone)

    def _sync(self, one: Session, version: int) -> None:
        try:
            durable = one.sync()
        except (Refused, TimeoutError) as fault:
            if self._rescue and isinstance(fault, Refused):
                self._rescue.begin(fault)
            raise NotDurable(version, fault) from fault
        with self._noting:  # replies come in any order
            self.durable = max(self.durable, durable)
        if durable < version:
            raise NotDurable(version, Busy(f"version {durable} is"))

    # ---- what is lost

    def lost(self) -> list[str]:
        """What the front has lost, in words: sessions whose replies are late, and the store where it is not written."""
        found = [text for text in (self._gone, self._rescue and self._rescue.reason) if text]
        for kind, pool in (("questions", self._server.quick), ("changes", self._server.slow)):
            since = pool.lost()
            if since:
                found.append(f"{len(since)} of {len(pool)} sessions for {kind}: no reply for {max(since):.0f} seconds")
        return found

    def has_lost_all(self) -> bool:
        """Whether all sessions of a kind are lost, and not only for a while."""
        pools = [(len(pool), pool.lost()) for pool in (self._server.quick, self._server.slow)]
        return any(len(since) == count and min(since) > LOST for count, since in pools)


def number_in_file(store: str, program: str) -> int:
    """The number of the version that a file has, which no question gives where it is opened for reading alone.

    What is put there lives in memory: so the number of one more version, made by a process that ends at once, gives it.
    """
    with Server(store, read_only=True, program=program) as probe, probe.session() as one:
        layers = one.layers()
        name, text = (layers[0].name, layers[0].text) if layers else ("a", None)
        return one.put(name, text or "MULTIPOLYGON EMPTY") - 1
