"""How long do the overlaps of two maps take, and what are they: `overlay pairs`, `overlayd.overlay`, `overlayd.pairs`
and the plugin in QGIS, beside shapely, geopandas, PostGIS and QGIS?

/usr/bin/python3 -m overlayd_lab.measures.map_peers PROGRAM [--parcels N] [--zones N] [--lattice] [--folder
FOLDER] [--only PEER]..

PROGRAM is the built overlay_features. The maps are those of ../map_making.py. Each peer reads both files and writes a
table of the pairs whose common part has an area; of each are reported processor seconds and memory of the whole run,
how many pairs it has, and how these differ from ours. Needs python3-gdal, -numpy, -shapely, -geopandas, -rtree and,
for PostGIS, postgresql-15-postgis-3, for QGIS qgis and python3-qgis; a peer that is not there is left out, and
reported. All is done once, on one processor at a time.
"""

import argparse
import contextlib
import csv
import os
import pathlib
import pwd
import subprocess
import sys
import tempfile
import time
from collections.abc import Callable, Iterator
from typing import Any, NamedTuple

from overlayd_lab import LAB, TOP
from overlayd_lab.counting import Words
from overlayd_lab.measures.qgis_peers import Process
from overlayd_lab.processor_time import processor

PYTHON = "/usr/bin/python3"
POSTGRES = pathlib.Path("/usr/lib/postgresql/15/bin")
Table = dict[tuple[str, str], float]


def by_shapely(parcels: Any, zones: Any, factor: float = 1.0) -> Iterator[tuple[str, str, float]]:
    """A tree of parcels, and each zone prepared."""
    from shapely.prepared import prep
    from shapely.strtree import STRtree

    names = {id(shape): name for shape, name in zip(parcels.geometry, parcels.parcel)}
    tree = STRtree(list(parcels.geometry))
    for zone, name in zip(zones.geometry, zones.zone):
        ready = prep(zone)
        for parcel in tree.query(zone):
            if ready.intersects(parcel) and (area := parcel.intersection(zone).area):
                yield names[id(parcel)], name, area / factor**2


def by_whole_shapely(parcels: Any, zones: Any) -> Iterator[tuple[str, str, float]]:
    """The same over whole millimetres."""
    import numpy
    from shapely.ops import transform

    def whole(x: Any, y: Any) -> Any:
        return numpy.rint(numpy.asarray(x) * 1000), numpy.rint(numpy.asarray(y) * 1000)

    for layer in (parcels, zones):
        layer.geometry = [transform(whole, shape) for shape in layer.geometry]
    yield from by_shapely(parcels, zones, 1000.0)


def by_geopandas(parcels: Any, zones: Any) -> Iterator[tuple[str, str, float]]:
    import geopandas

    made = geopandas.overlay(parcels, zones, how="intersection", keep_geom_type=True)
    yield from zip(made.parcel, made.zone, made.area)


def by_overlay(parcels: Any, zones: Any) -> Iterator[tuple[str, str, float]]:
    import overlayd

    made = overlayd.overlay(parcels, zones)
    yield from zip(made.parcel, made.zone, made.area)


def by_pairs(parcels: Any, zones: Any) -> Iterator[tuple[str, str, float]]:
    import overlayd

    made = overlayd.pairs(parcels, zones, predicate="shares_area")
    yield from zip(made.parcel, made.zone, made.shared_area)


READERS: dict[str, Callable[[Any, Any], Iterator[Any]]] = {
    "shapely": by_shapely, "shapely, whole": by_whole_shapely, "geopandas": by_geopandas,
    "overlayd.overlay": by_overlay, "overlayd.pairs": by_pairs}

IN_QGIS = {"QGIS": "native:intersection", "the plugin": "exactoverlay:pieces"}
PEERS = [*READERS, "PostGIS", *IN_QGIS]


def by_qgis(program: str, folder: pathlib.Path, algorithm: str) -> Iterator[tuple[str, str, float]]:
    """An intersection by qgis_process, and the areas of what it wrote."""
    from osgeo import ogr

    with tempfile.TemporaryDirectory() as place:
        made = pathlib.Path(place, "made.gpkg")
        Process(pathlib.Path(place, "qgis"), program).run(
            algorithm, INPUT=folder / "parcels.gpkg", OVERLAY=folder / "zones.gpkg", HOW=0, OUTPUT=made)
        store = ogr.Open(str(made))
        for one in store.GetLayer():
            yield one["parcel"], one["zone"], one.geometry().Area()


def peer(name: str, program: str, folder: pathlib.Path, table: pathlib.Path) -> None:
    """Runs one of the peers of Python or QGIS, in a process of its own."""
    if name in IN_QGIS:
        rows = by_qgis(program, folder, IN_QGIS[name])
    else:
        import geopandas

        os.environ["OVERLAY_FEATURES"] = program
        rows = READERS[name](*(geopandas.read_file(folder / f"{kind}.gpkg") for kind in ("parcels", "zones")))
    with table.open("w", newline="") as file:
        csv.writer(file).writerows(row for row in rows if row[2] > 0)


class Run(NamedTuple):
    """What a run took, and its table."""

    processor: float
    clock: float
    memory: int
    pairs: Table


def timed(words: list[str], table: pathlib.Path | None) -> Run:
    before, begin = processor(), time.monotonic()
    kept = {name: value for name, value in os.environ.items() if name != "PYTHONDONTWRITEBYTECODE"}
    done = subprocess.run(["/usr/bin/time", "-f", "%M", *words], capture_output=True, text=True, check=False, env=kept)
    seconds, clock = processor() - before, time.monotonic() - begin
    if done.returncode:
        raise RuntimeError(done.stderr.strip().splitlines()[-3])
    return Run(seconds, clock, int(done.stderr.split()[-1]) // 1024, {} if table is None else read_table(table))


def read_table(path: pathlib.Path) -> Table:
    with path.open(newline="") as file:
        rows = [row for row in csv.reader(file)]
    place = rows[0].index("area") if rows and "area" in rows[0] else 2
    return {(row[0], row[1]): float(row[place]) for row in rows[place != 2 :] if float(row[place])}


def ours(program: str, folder: pathlib.Path, table: pathlib.Path) -> Run:
    words = [PYTHON, str(TOP / "overlay"), "pairs", str(folder / "parcels.gpkg"),
             str(folder / "zones.gpkg"), "--factor", "1000", "--a-id", "parcel", "--b-id", "zone", "--jobs", "1",
             "--out", str(table), "--program", program]
    timed([PYTHON, str(TOP / "overlay"), "pairs", "--help"], None)  # compiles its modules, as an installation does
    return timed(words, table)


SCRIPT = r"""
SET max_parallel_workers_per_gather = 0;
SET jit = off;
SELECT pg_backend_pid() AS pid \gset
\setenv PID :pid
\! cat /proc/$PID/stat
CREATE TEMP VIEW o AS
SELECT parcel, zone, ST_Area(ST_Intersection(p.geom, z.geom)) FROM p JOIN z ON ST_Intersects(p.geom, z.geom);
\copy (SELECT * FROM o) TO 'TABLE' CSV
\! cat /proc/$PID/stat
\! grep VmHWM /proc/$PID/status
"""


@contextlib.contextmanager
def postgres(*settings: str) -> Iterator[str]:
    """The folder of a server of its own. It does not run as root, so that it is the system's user for it then."""
    user = "postgres" if os.geteuid() == 0 else None
    with tempfile.TemporaryDirectory(prefix="peers") as place:
        if user:
            os.chown(place, pwd.getpwnam(user).pw_uid, -1)
        quiet: dict[str, Any] = {"stdout": subprocess.DEVNULL, "stderr": subprocess.DEVNULL, "user": user, "cwd": place}
        subprocess.run([POSTGRES / "initdb", "-U", "postgres", "-D", f"{place}/data"], check=True, **quiet)
        words: list[str | pathlib.Path] = [POSTGRES / "postgres", "-D", f"{place}/data", "-k", place]
        words += [word for one in ("listen_addresses=", *settings) for word in ("-c", one)]
        with subprocess.Popen(words, **quiet) as server:
            try:
                while not pathlib.Path(f"{place}/.s.PGSQL.5432").exists() and server.poll() is None:
                    time.sleep(0.1)
                time.sleep(1)
                yield place
            finally:
                server.terminate()


def postgis(folder: pathlib.Path, table: pathlib.Path) -> Run:
    """One backend of PostGIS; loading and its indexes are not counted."""
    with postgres() as place:
        asking = ["psql", "-X", "-At", "-q", "-h", place, "-U", "postgres"]
        subprocess.run([*asking, "-c", "CREATE EXTENSION postgis"], check=True, capture_output=True)
        for kind in ("parcels", "zones"):
            subprocess.run(["ogr2ogr", "-f", "PostgreSQL", f"PG:host={place} user=postgres", folder / f"{kind}.gpkg",
                            "-nln", kind[0], "-lco", "GEOMETRY_NAME=geom", "--config", "PG_USE_COPY", "YES"],
                           check=True)
        subprocess.run([*asking, "-c", "ANALYZE"], check=True)
        begin = time.monotonic()
        done = subprocess.run(asking, input=SCRIPT.replace("TABLE", str(table)), capture_output=True, text=True,
                              check=True)
        clock = time.monotonic() - begin
    before, after, memory = done.stdout.strip().splitlines()
    ticks = [sum(map(int, line.rsplit(")", 1)[1].split()[11:13])) for line in (before, after)]
    return Run((ticks[1] - ticks[0]) / 100, clock, int(memory.split()[1]) // 1024, read_table(table))


def line(name: str, run: Run, base: Run, boxes: int) -> str:
    """A row of the table in Markdown."""
    more, less = run.pairs.keys() - base.pairs.keys(), base.pairs.keys() - run.pairs.keys()
    apart = max((abs(run.pairs[pair] - area) for pair, area in base.pairs.items() if pair in run.pairs), default=0.0)
    return (f"| {name} | {run.processor:.1f} | {1e6 * run.processor / boxes:.0f} | {run.memory} | {len(run.pairs):,} "
            f"| {len(more):,} | {len(less):,} | {apart:.1e} |")


def boxes_that_meet(folder: pathlib.Path) -> int:
    """Pairs of boxes with a common part that has an area."""
    from fractions import Fraction

    from overlayd.files import map_columns
    from overlayd.kernel import Grid, box_pairs, laying

    maps = [map_columns.read(str(folder / f"{kind}.gpkg"), None).column for kind in ("parcels", "zones")]
    parcels, zones = (one.boxes() for one in laying.lay(maps, Grid(Fraction(1000))).maps)
    return len(box_pairs.pairs(parcels, zones))


def main() -> int:
    parser = Words(__doc__)
    parser.add_argument("program", metavar="PROGRAM")
    parser.add_argument("--parcels", type=int, default=15_000)
    parser.add_argument("--zones", type=int, default=700)
    parser.add_argument("--lattice", action="store_true", help="parcels whose corners lie on the borders of zones")
    parser.add_argument("--folder", type=pathlib.Path, help="keeps maps and tables there")
    parser.add_argument("--only", action="append", choices=PEERS)
    parser.add_argument("--peer", nargs=2, help=argparse.SUPPRESS)
    words = parser.parse_args()
    if words.peer:
        peer(words.peer[0], words.program, words.folder, pathlib.Path(words.peer[1]))
        return 0
    with tempfile.TemporaryDirectory() as made:
        folder = words.folder or pathlib.Path(made)
        making = [PYTHON, str(LAB / "map_making.py"), str(words.parcels), str(words.zones), str(folder)]
        subprocess.run(making + ["--lattice"] * words.lattice, check=True)
        boxes, base = boxes_that_meet(folder), ours(words.program, folder, folder / "ours.csv")
        heads = ["what", "processor s", "us a pair of boxes", "MB", "overlaps", "more than ours", "fewer",
                 "areas apart, m2"]
        print(f"{boxes:,} pairs of boxes\n\n| {' | '.join(heads)} |\n|{'---|' * len(heads)}")
        print(line("overlay pairs", base, base, boxes), flush=True)
        for name in words.only or PEERS:
            table = folder / "peer.csv"
            table.unlink(missing_ok=True)
            try:
                run = postgis(folder, table) if name == "PostGIS" else timed(
                    [PYTHON, "-m", "overlayd_lab.measures.map_peers", words.program, "--folder", str(folder), "--peer",
                     name, str(table)], table)
                print(line(name, run, base, boxes), flush=True)
            except Exception as fault:
                print(f"{name} is left out: {fault}", file=sys.stderr)
    return 0


if __name__ == "__main__":
    sys.exit(main())
