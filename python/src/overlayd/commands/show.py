"""Makes a register of maps, works out what their features overlap, and shows it in a browser by a front of its own.

    overlay show city.geojson
    overlay show parcels.geojson --with zones.geojson
    overlay show city.gpkg --output land.gpkg --writable

Of each map the pairs of features that overlap are in a table, with their areas, and the gaps between the first map's
features are in the table of violations; of each map of --with there is a table of its pairs with the first, and `both`
is what all maps have in common. Standard error says how many there are, and which features have an outline that none
can be worked out of. --name-by names the property that tables call features by.

The register is a GeoPackage in a temporary folder, which goes at the end. With --output it stays, and where the file is
there already it is shown as it is: `overlay register` keeps and changes it, `overlay serve` serves it. A browser is
opened where there is a screen, but for --no-browser. Ctrl-C ends the front.

Status 0: ended by Ctrl-C or SIGTERM, or all of it made by --only-make; 1: a program is not there, a file cannot be
written, or the front ended by a fault; 2: wrong words, or a map that cannot be read."""

import contextlib
import json
import os
import signal
import sqlite3
import subprocess
import tempfile
import webbrowser
from pathlib import Path
from typing import Any

import click

from .. import ending
from ..ending import Unusable
from ..files import gdal_files, map_reading
from ..geometry import wkt
from ..program_files import FEATURES, OVERLAY
from ..register import sources
from ..register.beginning import begun, standing
from ..register.filling import keep
from ..register.model import Kept, Kind, Must, Refused
from ..register.ruling import add_rule
from ..words import CRS, FILE, Words, argument, flag, option, program, subcommand
from .register import ready, say

ENDING = 60.0  # seconds that a front has to end


def source_of(path: Path, words: Words, folder: Path) -> str:
    """A map as GDAL reads it: the file itself, but Well-Known Text, and one whose system is named here, as GeoJSON."""
    try:
        form = gdal_files.form_of(path, gdal_files.begin_of(path))
        if form and not words.crs:
            return str(path)
        text = map_reading.content(str(path), words.source_layer).decode("utf-8-sig")
        value: dict[str, Any] = map_reading.object_of(text) if map_reading.is_geojson(text) else collection_of(text)
    except (OSError, ValueError, RecursionError, wkt.WktFault) as fault:
        raise Refused(ending.fault_text(f"{path}: not read", fault)) from fault
    if words.crs:
        value["crs"] = {"type": "name", "properties": {"name": words.crs}}
    elif map_reading.is_geojson(text):
        return str(path)
    made = folder / f"{path.stem}.geojson"
    made.write_text(json.dumps(value, default=float), encoding="utf-8")
    return str(made)


def collection_of(text: str) -> dict[str, Any]:
    """Well-Known Text as a collection of GeoJSON."""
    shapes, systems = wkt.read_with_systems(text)
    outlines = [wkt.polygons_of(kind, coordinates) or [] for kind, coordinates in shapes]
    found = [{"type": "Feature", "properties": {}, "geometry": {"type": "MultiPolygon", "coordinates": outline}}
             for outline in outlines]
    crs = {"crs": {"type": "name", "properties": {"name": f"EPSG:{systems[0]}"}}} if len(systems) == 1 else {}
    return {"type": "FeatureCollection", **crs, "features": found}


def made(words: Words, file: str, folder: Path) -> None:
    """Makes the register of the maps, with all that is shown of them."""
    layers, idents = list[str](), dict[str, str]()
    for path in (words.map, *words.others):
        layers += sources.copy(source_of(path, words, folder), file, words.source_layer and [words.source_layer])
    if words.name_by:
        idents = dict.fromkeys(layers, words.name_by)
    begun(file, layers, words.grid, idents, True, say)
    register, own = ready(file, words.program)
    first, *others = layers
    kept = [Kept(f"overlaps_{place}", Kind.CHECK, name, name) for place, name in enumerate(layers, 1)]
    kept += [Kept(f"pairs_{place}", Kind.PAIRS, first, name) for place, name in enumerate(others, 2)]
    if others:
        kept.append(Kept("both", Kind.DERIVE, expression=" & ".join(f'"{name}"' for name in layers)))
    for one in kept:
        keep(register, one, own, say)
    add_rule(register, Must.NOT_HAVE_GAPS, first, None, own, say=say)
    say("\n".join(standing(register)))


def show(words: Words, file: str) -> int:
    """Runs a front over the register until it ends, or this is interrupted."""
    given = [*OVERLAY, "serve", file, "--port", str(words.port), *["--writable"] * words.writable]
    given += ["--program", words.program] if words.program else []
    with subprocess.Popen(given, stdout=subprocess.PIPE, text=True, start_new_session=True) as front:
        for number in (signal.SIGINT, signal.SIGTERM):
            signal.signal(number, lambda *_: front.terminate())
        assert front.stdout is not None
        address = front.stdout.readline().strip()
        if address:
            print(address, flush=True)
            if not words.no_browser and (os.environ.get("DISPLAY") or os.environ.get("WAYLAND_DISPLAY")):
                webbrowser.open(address)
        return min(1, abs(front.wait()))


@subcommand(__doc__, argument("map", FILE, metavar="MAP"),
            option("--with others", "a further map; may be given several times", FILE, metavar="MAP", multiple=True),
            option("--name-by", "what the features are called by", metavar="PROPERTY"),
            option("--crs", "the name of the coordinates, where the files do not say it", CRS),
            option("--source-layer", "the layer of files that have several, as GeoPackages", metavar="NAME"),
            option("--grid", "the grid, as 0.001 (default: by the maps' own digits)", metavar="UNIT"),
            option("--output", "where the register stays", FILE, metavar="FILE.gpkg"),
            flag("--writable", "let HTTP change the map"),
            option("--port", "of the front; 0 for one that is free (default 8080)", int, default=8080),
            flag("--no-browser", "open no browser"),
            flag("--only-make", "make the register of --output, and start no front"), program(FEATURES))
def command(words: Words) -> int:
    if words.only_make and not words.output:
        raise click.UsageError("--only-make needs --output FILE.gpkg")
    try:
        with tempfile.TemporaryDirectory() as folder:
            file = words.output or Path(folder, f"{words.map.stem}.gpkg")
            if file.exists():
                say(f"{file}: made before, and shown as it is")
            else:
                with whole(file):
                    made(words, str(file), Path(folder))
            return 0 if words.only_make else show(words, str(file))
    except Refused as fault:
        say(str(fault))
        return 2
    except (Unusable, sqlite3.Error) as fault:
        say(str(fault))
    except OSError as fault:
        say(ending.fault_text(fault.filename or "overlay", fault))
    return 1


@contextlib.contextmanager
def whole(file: Path) -> Any:
    """Takes a file away that is not made to its end."""
    try:
        yield
    except BaseException:
        file.unlink(missing_ok=True)
        raise
