"""What does a register of many parcels take: to begin, to fill, to follow an edit? PostGIS by triggers beside it.

    /usr/bin/python3 -m overlayd_lab.measures.register_size FEATURES PARCELS ZONES [--peer] [--maps FOLDER]

Maps are made by ../map_making.py, or stand in --maps. For each step it prints seconds of processors of all processes,
and the most memory that one of them had; of one that fills tables also those of its longest transaction that writes,
for which whoever edits has to wait. An edit moves one corner of each of some parcels in one transaction; told are
the least and the mean of several, and the 95th of a hundred, in milliseconds of processors from the change to the rows:
of the refresh, and of the program that it asks. --peer: the pairs by ST_Intersection in row triggers of PostGIS, in a
server of its own, the processor time of its backend. FEATURES is the built overlay_features.
"""

from __future__ import annotations

import contextlib
import functools
import importlib
import os
import pathlib
import random
import resource
import subprocess
import sys
import tempfile
import time
from collections.abc import Callable, Iterator

from osgeo import gdal
from overlayd.kernel import Ask
from overlayd.register.answers import Program
from overlayd.register.beginning import engine_of, opened
from overlayd.register.filling import keep
from overlayd.register.lasting import lasting
from overlayd.register.model import Kept, Kind
from overlayd.register.package import GeoPackage
from overlayd.register.refreshing import refresh
from overlayd.register.registers import Register
from overlayd.register.tables import Table
from overlayd_lab import LAB, TOP
from overlayd_lab.counting import Words
from overlayd_lab.measures.map_peers import postgres
from overlayd_lab.trials.register_edits import moved

OVERLAY, PYTHON = str(TOP / "overlay"), "/usr/bin/python3"
REACH = (900, (0.0,))  # millimetres that a corner is moved by at most, and off the grid
ROUNDS = ((1, 100), (10, 20), (100, 5), (1000, 3))  # parcels of a transaction, and how often
PEER = """CREATE INDEX ON parcels USING gist (geom); CREATE INDEX ON zones USING gist (geom); ANALYZE parcels, zones;
CREATE TABLE peer AS SELECT p.fid AS a, z.fid AS b, ST_Area(ST_Intersection(p.geom, z.geom)) AS area
 FROM parcels p JOIN zones z ON ST_Intersects(p.geom, z.geom);
ALTER TABLE peer ADD PRIMARY KEY (a, b); CREATE INDEX ON peer (b);
CREATE FUNCTION peer() RETURNS trigger LANGUAGE plpgsql AS $$ BEGIN
 IF TG_OP <> 'INSERT' THEN DELETE FROM peer WHERE a = OLD.fid; END IF;
 IF TG_OP <> 'DELETE' THEN INSERT INTO peer SELECT NEW.fid, z.fid, ST_Area(ST_Intersection(NEW.geom, z.geom))
  FROM zones z WHERE ST_Intersects(NEW.geom, z.geom); END IF; RETURN NULL; END $$;
CREATE TRIGGER peer AFTER INSERT OR UPDATE OR DELETE ON parcels FOR EACH ROW EXECUTE FUNCTION peer();"""


def measured(what: str, *words: object) -> None:
    """Runs a program, and tells what it took."""
    before = resource.getrusage(resource.RUSAGE_CHILDREN)
    began = time.monotonic()
    done = subprocess.run([*map(str, words)], check=True, capture_output=True, text=True)
    used = resource.getrusage(resource.RUSAGE_CHILDREN)
    seconds = used.ru_utime + used.ru_stime - before.ru_utime - before.ru_stime
    print(f"{what}: {seconds:.1f} s, {time.monotonic() - began:.0f} s by the clock, most memory so far"
          f" {used.ru_maxrss / 1024:.0f} MB; {done.stdout.strip()}", flush=True)


class Timed(GeoPackage):
    """A register in a file, and what its longest transaction that writes has taken."""

    longest = 0.0

    @contextlib.contextmanager
    def writing(self) -> Iterator[None]:
        with super().writing():
            began = time.process_time()
            yield
            Timed.longest = max(Timed.longest, time.process_time() - began)


def filled(what: str, file: str, work: Callable[[Register], object]) -> None:
    """Fills tables of a register, and tells what it took."""
    both = (resource.RUSAGE_SELF, resource.RUSAGE_CHILDREN)
    Timed.longest, before = 0.0, [resource.getrusage(one) for one in both]
    register = Register(Timed(file))
    done = work(register)
    register.engine.close()
    after = [resource.getrusage(one) for one in both]
    seconds = [own.ru_utime + own.ru_stime - was.ru_utime - was.ru_stime for own, was in zip(after, before)]
    print(f"{what}: {seconds[0]:.1f} s and {seconds[1]:.1f} of the program, {Timed.longest:.2f} in a transaction; "
          f"{done} rows; most memory so far {after[0].ru_maxrss / 1024:.0f} MB; the file: "
          f"{os.stat(file).st_size / 1e6:.1f} MB", flush=True)


def nanoseconds(process: int) -> int:
    """The processor time of a process of one thread."""
    return int(pathlib.Path(f"/proc/{process}/schedstat").read_text(encoding="ascii").split()[0])


def children() -> list[int]:
    """The processes that this one has begun."""
    return [int(one) for path in pathlib.Path("/proc/self/task").glob("*/children") for one in path.read_text().split()]


def edits(table: Table, count: int, draw: random.Random) -> None:
    """Moves a corner of so many parcels, in one transaction."""
    total = table.count()
    with table.engine.writing():
        for fid in draw.sample(range(1, total), count):
            item = table.item(fid)
            table.update(fid, moved(draw, item.shape or b"", REACH), {})


def told(what: str, took: Callable[[int], float]) -> None:
    """Tells what edits of several sizes took."""
    for count, times in ROUNDS:
        found = sorted(took(count) for _ in range(times))
        print(f"{what}, {count} parcels in a transaction: least {found[0]:.1f} ms, mean {sum(found) / times:.1f}, "
              f"95th of a hundred {found[int(times * 0.95)]:.1f}", flush=True)


def register(folder: pathlib.Path, features: str) -> None:
    """A register in a GeoPackage: begun, filled, edited."""
    file, draw = str(folder / "land.gpkg"), random.Random(3)
    for name in ("parcels", "zones"):
        gdal.VectorTranslate(file, str(folder / f"{name}.gpkg"), format="GPKG", layerName=name,
                             accessMode="append" if pathlib.Path(file).exists() else None)
    print(f"layers: {os.stat(file).st_size / 1e6:.1f} MB", flush=True)
    measured("adopt", PYTHON, OVERLAY, "register", "adopt", file, "parcels", "zones", "--grid", "0.001")
    asked = Program(Ask(features), opened(file).state().factor)
    filled("refresh", file, functools.partial(refresh, program=asked))
    for kept in (Kept("pz", Kind.PAIRS, "parcels", "zones"), Kept("shared", Kind.CHECK, "parcels", "parcels"),
                 Kept("gaps", Kind.DERIVE, expression="zones - parcels")):
        filled(f"keep {kept.kind.value}", file, functools.partial(keep, kept=kept, program=asked))
        one, line, writer = opened(file), lasting(asked), engine_of(file, writes_layers=True)
        one.engine.hold()
        table = Table(writer, one.layer("parcels"))
        before: dict[int, int] = {}

        def took(count: int) -> float:
            edits(table, count, draw)
            began = time.process_time_ns()
            assert refresh(one, line) == count
            mine = time.process_time_ns() - began
            now = {process: nanoseconds(process) for process in children()}
            theirs = sum(spent - before.get(process, 0) for process, spent in now.items())
            before.update(now)
            return (mine + theirs) / 1e6

        took(1)
        told(f"with tables up to {kept.kind.value}", took)
        one.engine.close()
    size = os.stat(file).st_size + sum(path.stat().st_size for path in folder.glob("land.gpkg-wal"))
    print(f"after the edits: {size / 1e6:.1f} MB; this process: "
          f"{resource.getrusage(resource.RUSAGE_SELF).ru_maxrss / 1024:.0f} MB", flush=True)


def peer(folder: pathlib.Path) -> None:
    """The pairs by triggers of PostGIS."""
    connect = importlib.import_module("psycopg2").connect
    with (postgres("shared_buffers=512MB", "max_parallel_workers_per_gather=0") as place,
          contextlib.closing(connect(words := f"host={place} user=postgres")) as store):
        store.autocommit = True
        cursor = store.cursor()
        cursor.execute("CREATE EXTENSION postgis")
        for name in ("parcels", "zones"):
            gdal.VectorTranslate(f"PG:{words}", str(folder / f"{name}.gpkg"), format="PostgreSQL", layerName=name,
                                 layerCreationOptions=["FID=fid", "GEOMETRY_NAME=geom", "SPATIAL_INDEX=NONE"])
        backend, began = store.get_backend_pid(), nanoseconds(store.get_backend_pid())
        cursor.execute(PEER)
        cursor.execute("SELECT count(*), pg_total_relation_size('peer') FROM peer")
        print(f"PostGIS, pairs filled: {(nanoseconds(backend) - began) / 1e9:.1f} s; rows, bytes: {cursor.fetchone()}")
        draw = random.Random(3)
        cursor.execute("SELECT max(fid) FROM parcels")
        ((top,),) = cursor.fetchall()

        def took(count: int) -> float:
            rows = []
            for fid in draw.sample(range(1, top), count):
                cursor.execute("SELECT ST_AsBinary(geom) FROM parcels WHERE fid = %s", (fid,))
                rows.append((moved(draw, bytes(cursor.fetchone()[0]), REACH), fid))
            began = nanoseconds(backend)
            cursor.execute("BEGIN")
            for row in rows:
                cursor.execute("UPDATE parcels SET geom = ST_GeomFromWKB(%s, 25832) WHERE fid = %s", row)
            cursor.execute("COMMIT")
            return (nanoseconds(backend) - began) / 1e6

        told("PostGIS by triggers, the edit among it", took)


def main() -> int:
    words = Words(__doc__)
    words.add_argument("features")
    words.add_argument("parcels", type=int)
    words.add_argument("zones", type=int)
    words.add_argument("--peer", action="store_true")
    words.add_argument("--maps", type=pathlib.Path)
    asked = words.parse_args()
    gdal.UseExceptions()
    with tempfile.TemporaryDirectory() as made:
        folder = asked.maps or pathlib.Path(made)
        if not (folder / "parcels.gpkg").exists():
            measured("maps", PYTHON, LAB / "map_making.py", asked.parcels, asked.zones, folder)
        register(folder, asked.features)
        if asked.peer:
            peer(folder)
    return 0


if __name__ == "__main__":
    sys.exit(main())
