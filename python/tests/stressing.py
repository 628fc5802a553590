"""A module of tests: ten clients of a front at once, two of which change layers, and a judge of each answer.

Each change puts A and B as one version, both the same square, at a place of its own. So an answer shows by its squares
which version it is of: all in it are of one, it began before the answer came, and none after it ended before the
question was asked."""

import bisect
import collections
import http.client
import itertools
import json
import random
import threading
import time
import urllib.parse
from collections.abc import Callable, Iterable
from typing import Any, NamedTuple

Ask = Callable[[str, str, object], tuple[int, Any]]
"""Asks by a method, a path and a body, and gives the status and the value of the answer."""

PLACES, STEP, SIDE, LEFT = 100_000, 20, 10, -1_000_000


def asked(address: str, method: str, path: str, body: bytes | None = None) -> tuple[int, Any]:
    """Asks a front over HTTP, by a connection of its own, as the standard library's server ends it each time."""
    host = urllib.parse.urlsplit(address).netloc
    link = http.client.HTTPConnection(host, timeout=120)
    try:
        link.request(method, path, body, {"Content-Type": "application/json"} if body else {})
        answer = link.getresponse()
        return answer.status, json.loads(answer.read())
    finally:
        link.close()


class Put(NamedTuple):
    """A change that put the squares of a place: when it began and was answered, and the version that it made."""

    place: int
    began: float
    ended: float
    version: int


class Seen(NamedTuple):
    """An answer: its kind, when it was asked and came, the revisions that it gave, and the places that it showed."""

    kind: str
    began: float
    ended: float
    revisions: dict[str, int]
    places: set[int]


def square(place: int) -> dict[str, object]:
    left, right = LEFT + place * STEP, LEFT + place * STEP + SIDE
    return {"type": "Polygon", "coordinates": [[[left, 0], [right, 0], [right, SIDE], [left, SIDE], [left, 0]]]}


def place_of(x: float) -> int:
    """The place of the square that a corner is of."""
    return int(x - LEFT) // STEP


class Stress:
    """new_ask: makes what asks the front for one client. seconds: how long all ask."""

    def __init__(self, new_ask: Callable[[], Ask], seconds: float) -> None:
        self.new_ask, self.end = new_ask, time.monotonic() + seconds
        self.counted: collections.Counter[str] = collections.Counter()
        self.puts: list[Put] = []
        self.seen: list[Seen] = []
        self.faults: list[str] = []
        self._places, self._last = itertools.count(), 0

    def run(self) -> None:
        """Asks for so long; then faults has what was wrong, and counted how many answers were judged, by kind."""
        ask = self.new_ask()
        self._put(ask)
        ask("PUT", "/collections/I", {"definition": "A & B"})
        clients = [self._write] * 2 + [self._locate] * 3 + [self._items, self._tiles] * 2 + [self._collections]
        threads = [threading.Thread(target=self._client, args=one) for one in enumerate(clients)]
        for thread in threads:
            thread.start()
        for thread in threads:
            thread.join()
        self._judge()

    def _client(self, number: int, action: Callable[[Ask, random.Random], None]) -> None:
        ask, source = self.new_ask(), random.Random(number)
        try:
            while time.monotonic() < self.end:
                action(ask, source)
        except Exception as fault:  # a thread's fault is reported nowhere else
            self.faults.append(f"{action.__name__}: {fault!r}")

    # ---- clients

    def _put(self, ask: Ask) -> None:
        place = next(self._places) % PLACES
        geometry, began = square(place), time.monotonic()
        commands = [{"put": name, "geometry": geometry} for name in ("A", "B")]
        status, value = ask("POST", "/batch", {"commands": commands})
        if self._is_answer("change", status, value):
            self.puts.append(Put(place, began, time.monotonic(), value["version"]))
            self._last = place

    def _write(self, ask: Ask, source: random.Random) -> None:
        self._put(ask)
        time.sleep(0.01 * source.random())

    def _asked(self, ask: Ask, kind: str, path: str, read: Callable[[Any], tuple[dict[str, int], set[int]]]) -> None:
        began = time.monotonic()
        status, value = ask("GET", path, None)
        ended = time.monotonic()
        if self._is_answer(kind, status, value):
            self.seen.append(Seen(kind, began, ended, *read(value)))

    def _is_answer(self, kind: str, status: int, value: Any) -> bool:
        """Whether it was answered. To be asked again (503) is no fault; what else is refused is one."""
        self.counted[kind if status == 200 else f"{kind} {status}"] += 1
        if status not in (200, 503):
            self.faults.append(f"{kind}: {status} {value}")
        return status == 200

    def _locate(self, ask: Ask, _: random.Random) -> None:
        place = self._last
        x = LEFT + place * STEP + SIDE // 2

        def read(value: Any) -> tuple[dict[str, int], set[int]]:
            told = {value["places"][name] for name in ("A", "B", "I")}
            return {}, {place} if told == {"in"} else set() if told == {"out"} else {place, -1}

        self._asked(ask, "locate", f"/locate?x={x}&y={SIDE // 2}", read)

    def _items(self, ask: Ask, _: random.Random) -> None:
        def read(value: Any) -> tuple[dict[str, int], set[int]]:
            rings = [ring for one in value["features"] for ring in one["geometry"]["coordinates"]]
            return read_corners(value["revision"], (x for ring in rings for x, _ in ring))

        self._asked(ask, "items", "/collections/I/items", read)

    def _tiles(self, ask: Ask, _: random.Random) -> None:
        def read(value: Any) -> tuple[dict[str, int], set[int]]:
            lines = [line for tile in value["tiles"] for line in tile["lines"] or ()]
            return read_corners(value["revision"], (x for line in lines for x, _ in line))

        self._asked(ask, "tiles", "/collections/I/tiles", read)

    def _collections(self, ask: Ask, _: random.Random) -> None:
        def read(value: Any) -> tuple[dict[str, int], set[int]]:
            boxes = [(one["revision"], one["extent"]["spatial"]["bbox"][0]) for one in value["collections"]]
            return {told: place_of(box[0]) for told, box in boxes}, {place_of(box[0]) for _, box in boxes}

        self._asked(ask, "collections", "/collections", read)

    # ---- the judge

    def _judge(self) -> None:
        made, revisions = {put.place: put for put in self.puts}, dict[str, int]()
        ended = sorted(put.ended for put in self.puts)
        versions = [put.version for put in sorted(self.puts, key=lambda put: put.ended)]
        newest = [0, *itertools.accumulate(versions, lambda most, one: max(most, one))]
        for one in self.seen:
            if len(one.places) > 1:
                self.faults.append(f"{one.kind}: of several versions: {sorted(one.places)}")
            for revision, place in one.revisions.items():
                if revisions.setdefault(revision, place) != place:
                    self.faults.append(f"{one.kind}: one revision has place {place} and {revisions[revision]}")
            put = made.get(min(one.places, default=-1))
            if put and (put.began > one.ended or put.version < newest[bisect.bisect_left(ended, one.began)]):
                self.faults.append(f"{one.kind}: version {put.version} was not the newest while it was asked")


def read_corners(revision: str, xs: Iterable[float]) -> tuple[dict[str, int], set[int]]:
    places = {place_of(x) for x in xs}
    return {revision: min(places)} if places else {}, places
