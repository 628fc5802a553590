"""How long do the plugin's algorithms take in QGIS, and how many rows have they, beside QGIS's own?

    /usr/bin/python3 -m overlayd_lab.measures.qgis_peers PROGRAM [--maps NAME=FILE,FILE].. [--parcels N] [--zones N]
        [--alone] [--only NAME]..

Each is run once by qgis_process, in a process of its own without a screen, from files to a GeoPackage: over
examples/maps, the counties of North Carolina and the same moved, a map that ../map_making.py makes, and what --maps
names. A figure is of user and system, with QGIS's own start, which the first line has. --alone leaves QGIS's own
algorithms out, --only all maps but these. Needs qgis and python3-qgis.
"""

from __future__ import annotations

import os
import pathlib
import re
import subprocess
import sys
import tempfile

from overlayd_lab import LAB, TOP
from overlayd_lab.counting import Words, absolute
from overlayd_lab.processor_time import processor

QGIS = "/usr/bin/qgis_process.bin"  # Debian's qgis_process hands on words that it refuses
SHIFT = {"DELTA_X": 0.1, "DELTA_Y": 0.05}
Maps = tuple[str, str]
Given = dict[str, object]  # an algorithm's words


class Process:
    """qgis_process with the plugin in it, which writes into a folder."""

    def __init__(self, folder: pathlib.Path, program: str) -> None:
        plugins = folder / "profiles/default/python/plugins"
        plugins.mkdir(parents=True)
        subprocess.run([sys.executable, TOP / "qgis/make_zip.py", plugins], check=True)
        self.folder = folder
        self.environment = {**os.environ, "QGIS_CUSTOM_CONFIG_PATH": str(folder), "QT_QPA_PLATFORM": "offscreen",
                            "OVERLAY_FEATURES": program, "HOME": str(folder), "QGIS_PLUGINPATH": str(plugins)}
        self.asked("plugins", "enable", "exactoverlay")

    def asked(self, *words: str) -> tuple[float, str]:
        """The seconds of a run, and what it says."""
        before = processor()
        done = subprocess.run([QGIS, *words], env=self.environment, capture_output=True, text=True, check=False)
        if done.returncode:
            raise RuntimeError(done.stderr)
        return processor() - before, done.stdout

    def run(self, name: str, **words: object) -> tuple[float, str]:
        """The seconds of an algorithm, and how many it says that there are, else how many features it wrote."""
        given: Given = {"OUTPUT": self.folder / f"{name.replace(':', '_')}.gpkg", **words}
        out = pathlib.Path(str(given["OUTPUT"]))
        out.unlink(missing_ok=True)
        parts = [f"{key}={value}" for key, values in given.items()
                 for value in (values if isinstance(values, tuple) else [values])]
        seconds, said = self.asked("run", name, "--", *parts)
        told = re.findall(r"^(NUMBER_OF_\w+|OVERLAPPING|COUNT|ROWS|CHANGES|AREA|STATUS):\t(.+)", said, re.M)
        return seconds, ", ".join(f"{key.lower()} {value}" for key, value in told) or f"{features(out)} features"


def features(path: pathlib.Path) -> int:
    """How many a GeoPackage has."""
    from osgeo import ogr

    store = ogr.Open(str(path))
    return int(store.GetLayer().GetFeatureCount())


def questions(maps: Maps, register: pathlib.Path, packed: pathlib.Path) -> list[tuple[str, Given, str | None, Given]]:
    """What is run: the plugin's algorithm with its words, and QGIS's own beside it."""
    both: Given = {"INPUT": maps[0], "OVERLAY": maps[1]}
    names = [pathlib.Path(one).stem for one in maps]
    kept = {"FILE": register, "TABLE": "pairs", "KIND": 0, "LAYER": names[0], "OTHER": names[1]}
    return [
        ("pieces", both | {"HOW": 0}, "native:intersection", both),
        ("pieces", both | {"HOW": 1}, "native:union", both),
        ("pairs", both, "native:joinattributesbylocation", {"INPUT": maps[0], "JOIN": maps[1], "METHOD": 0}),
        ("check", {"INPUT": maps[0], "OVERLAPS": register.with_name("o.gpkg"), "GAPS": register.with_name("g.gpkg")},
         None, {}),
        ("derive", {"LAYERS": maps, "EXPRESSION": "A ^ B"}, None, {}),
        ("registerinit", {"LAYERS": maps, "FILE": register}, None, {}),
        ("registerkeep", kept, None, {}),
        ("registerrefresh", {"FILE": register}, None, {}),
        ("registerstatus", {"FILE": register}, None, {}),
        ("registeradopt", {"FILE": packed, "LAYERS": ",".join(names), "SNAP": True}, None, {}),
    ]


def measure(process: Process, name: str, maps: Maps, alone: bool) -> None:
    """Prints the lines of two maps."""
    register, packed = (process.folder / f"{name}.gpkg" for name in ("register", "packed"))
    for old in process.folder.glob("*.gpkg"):
        old.unlink()
    process.run("native:package", LAYERS=maps, OUTPUT=packed)
    for own, words, theirs, other_words in questions(maps, register, packed):
        seconds, told = process.run(f"exactoverlay:{own}", **words)
        line = f"| {name} | `{own}` {'intersection' if words.get('HOW') == 0 else 'union' if 'HOW' in words else ''}"
        line += f" | {seconds:.1f} | {told} |"
        if theirs is not None and not alone:
            seconds, told = process.run(theirs, **other_words)
            line += f" `{theirs}` {seconds:.1f}, {told}"
        print(line + " |", flush=True)


def main() -> int:
    parser = Words(__doc__)
    parser.add_argument("program", metavar="PROGRAM", type=absolute)
    parser.add_argument("--maps", action="append", default=[], metavar="NAME=FILE,FILE", help="others, with no spaces")
    parser.add_argument("--parcels", type=int, default=300_000)
    parser.add_argument("--zones", type=int, default=20_000)
    parser.add_argument("--alone", action="store_true", help="without QGIS's own algorithms")
    parser.add_argument("--only", action="append", metavar="NAME", help="these maps alone, of those above")
    words = parser.parse_args()
    with tempfile.TemporaryDirectory() as made:
        folder = pathlib.Path(made)
        process = Process(folder / "qgis", words.program)
        counties = TOP / "tools/data/north_carolina.geojson"
        moved = folder / "moved.geojson"
        process.asked("run", "native:translategeometry", "--", f"INPUT={counties}", f"OUTPUT={moved}",
                      *(f"{key}={value}" for key, value in SHIFT.items()))
        making = [sys.executable, str(LAB / "map_making.py"), str(words.parcels),
                  str(words.zones), str(folder / "made")]
        subprocess.run(making, check=True, stdout=subprocess.DEVNULL)
        given = {"examples/maps": f"{TOP}/examples/maps/parcels.geojson,{TOP}/examples/maps/zones.geojson",
                 "North Carolina": f"{counties},{moved}",
                 "made": f"{folder}/made/parcels.gpkg,{folder}/made/zones.gpkg",
                 **dict(text.split("=") for text in words.maps)}
        print(f"QGIS's start {process.asked('--version')[0]:.1f} s\n\n| Maps | Algorithm | seconds | gives | beside |\n"
              "|---|---|---|---|---|")
        for name, files in given.items() if words.only is None else ((name, given[name]) for name in words.only):
            one, other = files.split(",")
            measure(process, name, (one, other), words.alone)
    return 0


if __name__ == "__main__":
    sys.exit(main())
