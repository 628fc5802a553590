"""Are the tables of a register those that are worked out anew, and is nothing lost that was acknowledged?

    /usr/bin/python3 -m overlayd_lab.trials.register_edits FEATURES [--edits N] [--stops N] [--kills N] [--parcels N]
        [--database PG:WORDS] [--seed N]

Random edits by SQL, OGR, ogr2ogr, the front, and where they are installed fiona and QGIS, some of several features,
beside `watch`, the front's own watch, and `refresh`; of these one after the other is killed (-9) after some edits, the
front amid a change, and of a database a process of the server, which ends all connections. Each edit that is
acknowledged is kept as the digest that its features have then; of a change amid which the front was killed all is there
or nothing. At each stop all layers are compared with these, and `audit` works all tables and violations out anew.
FEATURES is the built overlay_features. --database: a database of PostGIS on this machine, whose layers parcels and
zones are made anew, by GDAL. It ends with status 1 where something is lost or wrong.
"""

from __future__ import annotations

import contextlib
import functools
import http.client
import importlib
import importlib.util
import json
import multiprocessing
import multiprocessing.process
import os
import pathlib
import random
import signal
import struct
import subprocess
import sys
import tempfile
import threading
import time
import urllib.error
import urllib.request
from collections.abc import Callable, Iterable
from concurrent.futures import Executor, ProcessPoolExecutor
from typing import Any

from osgeo import gdal, ogr
from overlayd.kernel import Ask
from overlayd.register.answers import Program
from overlayd.register.auditing import audit
from overlayd.register.beginning import engine_of, opened
from overlayd.register.geojson import geometry_of
from overlayd.register.lasting import lasting
from overlayd.register.model import Refused
from overlayd.register.refreshing import refresh
from overlayd.register.tables import Item, Table
from overlayd.register.watching import Watching
from overlayd_lab import LAB, TOP
from overlayd_lab.counting import Tries, Words

gdal.UseExceptions()
OVERLAY, LAYERS = ["/usr/bin/python3", str(TOP / "overlay")], ("parcels", "zones")
KEPT = (("pairs", "pz", "parcels", "zones"), ("check", "shared", "parcels"), ("derive", "gaps", "zones - parcels"))
RULES = (("parcels", "must not overlap"), ("parcels", "must not have gaps"))
UTM = "<http://www.opengis.net/def/crs/EPSG/0/25832>"
SECONDS = 600.0
FORKED = multiprocessing.get_context("forkserver")
FORKED.set_forkserver_preload(["osgeo.ogr", "overlayd.commands.register", "overlayd_lab.counting"])
AMID = 0.2  # seconds in which the front is killed after it was asked
RUNNING: list[Any] = []  # what QGIS wants to be kept
Writer = Callable[[str, str, int, bytes], None]
Written = list[tuple[str, int, str | None]]
"""Features that an edit has written: layer, key, and digest where they are not gone."""


def moved(draw: random.Random, shape: bytes, by: tuple[int, tuple[float, ...]] = (3000, (0.0, 0.0, 0.0004))) -> bytes:
    """A polygon with one corner moved by up to so many millimetres, on the grid of a millimetre or off it."""
    (ring,) = (geometry_of(shape) or {"coordinates": [[]]})["coordinates"][:1]
    ring = ring[0] if isinstance(ring[0][0], list) else ring
    place, off = draw.randrange(len(ring) - 1), draw.choice(by[1])
    dx, dy = (draw.randint(-by[0], by[0]) / 1000 + off for _ in "xy")
    points = [(x + dx, y + dy) if at % (len(ring) - 1) == place else (x, y) for at, (x, y) in enumerate(ring)]
    return struct.pack("<BIII", 1, 3, 1, len(points)) + b"".join(struct.pack("<2d", *one) for one in points)


def by_gdal(words: str, name: str, fid: int, shape: bytes) -> None:
    """Another shape of a feature, by OGR."""
    store = gdal.OpenEx(words, gdal.OF_VECTOR | gdal.OF_UPDATE)
    layer = store.GetLayerByName(name)
    feature = layer.GetFeature(fid)
    feature.SetGeometry(ogr.CreateGeometryFromWkb(shape))
    layer.SetFeature(feature)


def by_qgis(words: str, name: str, fid: int, shape: bytes) -> None:
    """Another shape of a feature, by QGIS without a screen."""
    core = importlib.import_module("qgis.core")
    if core.QgsApplication.instance() is None:
        os.environ["QT_QPA_PLATFORM"] = "offscreen"
        RUNNING.append(core.QgsApplication([], False))
        RUNNING[0].initQgis()
    place = f"{words[3:]} key='fid' table=\"public\".\"{name}\" (geom)" if words.startswith("PG:") else \
        f"{words}|layername={name}"
    layer = core.QgsVectorLayer(place, name, "postgres" if words.startswith("PG:") else "ogr")
    geometry = core.QgsGeometry()
    geometry.fromWkb(shape)
    if not (layer.startEditing() and layer.changeGeometry(fid, geometry) and layer.commitChanges()):
        raise RuntimeError(f"QGIS: {layer.error().summary()} {layer.commitErrors()}")


def appended(words: str, name: str, geometry: object, values: dict[str, Any]) -> None:
    """A new feature, by fiona."""
    with importlib.import_module("fiona").open(words, "a", layer=name) as sink:
        sink.write({"type": "Feature", "properties": values, "geometry": geometry})


def worked(words: str, features: str, what: str) -> None:
    """A watch, or one refresh."""
    program = lasting(Program(Ask(features), opened(words).state().factor))
    if what == "watch":
        Watching(functools.partial(engine_of, words), program).run(lambda: True)
    refresh(opened(words), program)


class Trial:
    """A register, what is known of its features, and those that edit it or work beside it."""

    def __init__(self, words: str, features: str, seed: int, tries: Tries) -> None:
        self.words, self.features, self.draw, self.tries = words, features, random.Random(seed), tries
        self.open()
        self.known = {(name, fid): etag for name in LAYERS for fid, etag in self.etags(name).items()}
        self.beside: dict[str, subprocess.Popen[str] | multiprocessing.process.BaseProcess] = {}
        # Of a file that GDAL closes the process loses all of SQLite's locks: so GDAL and QGIS work in others.
        self.pools: dict[Writer, Executor] = {writer: self.pool() for writer in (by_gdal, by_qgis)}
        self.ways = {"sql": 6, "ogr": 2, "ogr2ogr": 1, "front": 4}
        self.ways |= {"fiona": 1} if importlib.util.find_spec("fiona") and not self.is_database() else {}
        self.ways |= {"qgis": 1} if importlib.util.find_spec("qgis") else {}
        self.kills = {"front": 1, "kept": 1, "watch": 4, "refresh": 4}
        self.kills |= {"backend": 1} if self.is_database() else {}
        self.address, self.counts = "", dict.fromkeys(
            [*self.ways, "refused", "failed", *(f"{one} killed" for one in self.kills)], 0)

    def pool(self) -> Executor:
        return ProcessPoolExecutor(1, multiprocessing.get_context("spawn"))

    def is_database(self) -> bool:
        return self.words.startswith("PG:")

    def open(self) -> None:
        """Opens the register, anew where a server that has lost a process is there again."""
        end = time.monotonic() + SECONDS
        while True:
            try:
                self.engine, self.register = engine_of(self.words, writes_layers=True), opened(self.words)
                break
            except Refused:
                if time.monotonic() > end:
                    raise
                time.sleep(0.2)
        self.tables = {name: Table(self.engine, self.register.layer(name)) for name in LAYERS}

    def etags(self, name: str) -> dict[int, str]:
        return {one.fid: one.etag() for one in self.tables[name].page(-1, 10**9)}

    def begin(self, what: str) -> None:
        """A process beside: the front, a watch, or one refresh. The latter two begin as copies of one that has read all
        modules, since a kill is to cost little."""
        if what != "front":
            copy = FORKED.Process(target=worked, args=(self.words, self.features, what))
            copy.start()
            self.beside[what] = copy
            return
        front = subprocess.Popen([*OVERLAY, "serve", self.words, "--writable", "--port", "0", "--program",
                                  self.features], text=True, stdout=subprocess.PIPE, stderr=subprocess.DEVNULL)
        self.beside[what], line = front, front.stdout
        assert line is not None
        self.address = line.readline().strip()

    def kill(self) -> None:
        """Ends a process at any moment, and begins it anew where nobody else does."""
        (what,) = self.draw.choices([*self.kills], [*self.kills.values()])
        self.counts[f"{what} killed"] += 1
        if what == "backend":
            found = self.engine.ask("SELECT pid FROM pg_stat_activity WHERE datname = current_database() ORDER BY 1")
            os.kill(self.draw.choice(found)[0], signal.SIGKILL)
            time.sleep(self.draw.random())
            return self.open()
        if what == "kept":  # the watch of the front, which begins it anew
            tasks = pathlib.Path(f"/proc/{self.beside['front'].pid}/task").glob("*/children")
            for process in {int(one) for path in tasks for one in path.read_text().split()}:
                if b"watch" in pathlib.Path(f"/proc/{process}/cmdline").read_bytes().split(b"\0"):
                    os.kill(process, signal.SIGKILL)
            return None
        if what == "front":
            return self.note(self.by_front(dies=True))
        if what == "refresh":
            self.begin(what)
            time.sleep(self.draw.random())
        self.end(what)
        return self.begin(what) if what != "refresh" else None

    def end(self, what: str) -> None:
        one = self.beside[what]
        one.kill()
        one.wait() if isinstance(one, subprocess.Popen) else one.join()

    def feature(self, names: tuple[str, ...] = ("parcels", "parcels", "zones")) -> tuple[str, Item | None]:
        name = self.draw.choice(names)
        ((low, high),) = self.engine.ask(f"SELECT min(fid), max(fid) FROM {name}")
        found = self.tables[name].page(self.draw.randint(low - 1, high - 1), 1)
        return name, found[0] if found and found[0].shape else None

    def by_sql(self) -> Written:
        name, one = self.feature()
        table, what = self.tables[name], self.draw.random()
        if one is None or one.shape is None:
            return []
        if what < 0.1:
            table.delete(one.fid)
            return [(name, one.fid, None)]
        shape = moved(self.draw, one.shape)
        if what < 0.2:
            return [(name, fid, table.item(fid).etag()) for fid in (table.insert(None, shape, one.values),)]
        table.update(one.fid, shape, {})
        return [(name, one.fid, table.item(one.fid).etag())]

    def shaped(self, writer: Writer) -> Written:
        """Another shape of a feature, by a writer in a process of its own; what one that fails has left."""
        name, one = self.feature()
        if one is None or one.shape is None:
            return []
        try:
            self.pools[writer].submit(writer, self.words, name, one.fid, moved(self.draw, one.shape)).result(SECONDS)
        except RuntimeError as fault:  # of GDAL, as where a file is locked for long, or its process has ended
            print(f"{writer.__name__}: {fault}", flush=True)
            self.counts["failed"] += 1
            self.pools[writer] = self.pool()
        return [(name, one.fid, self.tables[name].item(one.fid).etag())]

    def by_ogr(self) -> Written:
        return self.shaped(by_gdal)

    def by_qgis(self) -> Written:
        return self.shaped(by_qgis)

    def by_fiona(self) -> Written:
        return self.added(lambda name, geometry, values: self.pools[by_gdal].submit(
            appended, self.words, name, geometry, values).result(SECONDS))

    def by_ogr2ogr(self) -> Written:
        def run(name: str, geometry: object, values: dict[str, Any]) -> None:
            with tempfile.NamedTemporaryFile("w", suffix=".geojson") as file:
                json.dump({"type": "Feature", "properties": values, "geometry": geometry}, file)
                file.flush()
                done = subprocess.run(["ogr2ogr", "-append", "-update", self.words, file.name, "-nln", name, "-a_srs",
                                       "EPSG:25832"], text=True, capture_output=True, timeout=SECONDS, check=False)
                if done.returncode:  # as a file that is locked for longer than GDAL waits
                    print(f"ogr2ogr: {done.stderr}", flush=True)
                    self.counts["failed"] += 1

        return self.added(run)

    def added(self, writer: Callable[[str, object, dict[str, Any]], object]) -> Written:
        """A new feature."""
        name, one = self.feature()
        if one is None or one.shape is None:
            return []
        ((last,),) = self.engine.ask(f"SELECT max(fid) FROM {name}")
        writer(name, geometry_of(moved(self.draw, one.shape)), dict(one.values))
        new = self.engine.ask(f"SELECT fid FROM {name} WHERE fid > {last}")
        return [(name, fid, self.tables[name].item(fid).etag()) for fid, in new]

    def by_front(self, dies: bool = False) -> Written:
        """A transaction of one to three changes of different features; none where a rule refuses it."""
        found, names = dict[tuple[str, int], Item](), self.draw.choice((("parcels",), ("zones",)))
        for _ in range(self.draw.choice((1, 1, 3))):
            name, one = self.feature(names)
            if one is not None:
                found[name, one.fid] = one
        changes = [{"update": name, "id": fid, "etag": one.etag(), "feature": {
            "type": "Feature", "geometry": geometry_of(moved(self.draw, one.shape or b""))}}
            for (name, fid), one in found.items()]
        asked = urllib.request.Request(f"{self.address}transaction", json.dumps({"changes": changes}).encode(),
                                       {"Content-Type": "application/json", "Content-Crs": UTM})
        timer = threading.Timer(self.draw.random() * AMID, self.end, ("front",))
        if dies:
            timer.start()
        try:
            with urllib.request.urlopen(asked, timeout=SECONDS) as answer:
                told = json.load(answer)["features"]
                written = [(one["collection"], one["id"], one["etag"]) for one in told]
        except urllib.error.HTTPError as fault:
            if fault.code not in (409, 422, 503):
                self.tries.that(False, f"status {fault.code}: {fault.read()!r}")
            self.counts["refused"] += 1
            written = []
        except (OSError, http.client.HTTPException, ValueError) as fault:  # killed before it has answered
            if not dies:
                raise
            now = [(name, fid, self.tables[name].item(fid).etag()) for name, fid in found]
            written = [one for one in now if one[2] != found[one[:2]].etag()]
            if len(written) not in (0, len(now)):
                self.tries.that(False, f"{fault}: of {len(now)} changes of a transaction {len(written)} are there")
        if dies:
            timer.join()
            self.begin("front")
        return written

    def edit(self) -> None:
        """One edit by one of those that write."""
        (way,) = self.draw.choices([*self.ways], [*self.ways.values()])
        written = getattr(self, f"by_{way}")()
        self.counts[way] += bool(written)
        self.note(written)

    def note(self, written: Written) -> None:
        """Keeps what an edit that is acknowledged has made."""
        for name, fid, etag in written:
            if etag is None:
                self.known.pop((name, fid), None)
            else:
                self.known[name, fid] = etag

    def stop(self, done: int) -> None:
        """Waits until nothing is pending, and compares."""
        end = time.monotonic() + SECONDS
        while self.engine.ask("SELECT 1 FROM overlay_pending LIMIT 1") and time.monotonic() < end:
            time.sleep(0.2)
        now = {(name, fid): etag for name in LAYERS for fid, etag in self.etags(name).items()}
        self.tries.that(now == self.known, f"{done} edits: {len(now)} features as acknowledged")
        program = Program(Ask(self.features), self.register.state().factor)
        found = audit(opened(self.words), program)
        self.tries.that(all(one.is_right() for one in found), f"{done} edits: " + "; ".join(map(str, found)))
        print(", ".join(f"{count} {name}" for name, count in self.counts.items()), flush=True)

    def close(self) -> None:
        for pool in self.pools.values():
            pool.shutdown()
        for what in self.beside:
            self.end(what)


def made(folder: pathlib.Path, database: str | None, parcels: int, features: str) -> str:
    """A register of maps of land; its name."""
    subprocess.run(["/usr/bin/python3", str(LAB / "map_making.py"), str(parcels), str(parcels // 15), str(folder)],
                   check=True, stdout=subprocess.DEVNULL)
    words, files = database or str(folder / "land.gpkg"), {name: folder / f"{name}.gpkg" for name in LAYERS}

    def run(*more: object) -> None:
        subprocess.run([*OVERLAY, "register", *map(str, more)], check=True, stdout=subprocess.DEVNULL)

    for name, file in files.items():
        options: dict[str, Any] = {"layerCreationOptions": ["FID=fid", "GEOMETRY_NAME=geom"], "layerName": name}
        gdal.VectorTranslate(words, str(file), accessMode="overwrite" if database else "append" if pathlib.Path(
            words).exists() else None, format="PostgreSQL" if database else "GPKG", **options)
    run("adopt", words, *LAYERS, "--grid", "0.001")
    for kind, name, *of in KEPT:
        run("keep", kind, words, name, *of, "--program", features)
    for layer, must in RULES:
        run("rule", words, layer, must, "--program", features)
    return words


def main(given: Iterable[str] | None = None) -> int:
    words = Words(__doc__)
    words.add_argument("features")
    for name, usual in (("edits", 10_000), ("stops", 20), ("kills", 500), ("parcels", 3000), ("seed", 1)):
        words.add_argument(f"--{name}", type=int, default=usual)
    words.add_argument("--database")
    asked, tries = words.parse_args(None if given is None else [*given]), Tries()
    with tempfile.TemporaryDirectory() as folder, contextlib.ExitStack() as ending:
        one = Trial(made(pathlib.Path(folder), asked.database, asked.parcels, asked.features), asked.features,
                    asked.seed, tries)
        ending.callback(one.close)
        for what in ("front", "watch"):
            one.begin(what)
        for done in range(1, asked.edits + 1):
            one.edit()
            if asked.kills and done % max(1, asked.edits // asked.kills) == 0:
                one.kill()
            if done % max(1, asked.edits // asked.stops) == 0:
                one.stop(done)
    return tries.end()


if __name__ == "__main__":
    sys.exit(main())
