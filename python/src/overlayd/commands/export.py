"""Writes layers as GeoJSON, in coordinates of the world where a scale is there.

    overlay export --store map.db > map.geojson
    overlay export --store map.db --layer taken --parts > taken.geojson
    overlay export --store map.db --output map.gpkg

Each layer is a feature with a MultiPolygon, or with --parts each of its polygons one with a Polygon: outer rings
counter-clockwise, holes clockwise. Its properties are `layer`, `expression` (null for a base layer), `version`, and its
area in the world's unit, rounded in `area` and, as a fraction, in `area_exact`: where it has at most 60 digits, or with
--exact. Coordinates are rounded to the scale's digits, or to --digits; a place that is a whole number in the store
comes back from them through overlay import with the same scale. Where no coordinate system is known, what is written
says that it is of a plane of its own: GeoJSON that says nothing is of degrees.

--output writes the file whole or not at all: GeoJSON by the names .geojson and .json, or without an end, a GeoPackage
(.gpkg) or a FlatGeobuf (.fgb); a name with another end is refused. What is read, and NAME.scale.json of a store, are
not written over.

Status 0: all layers are written; 1: the store cannot be read, a layer has no rings to give, or the output
cannot be written; 2: a word is refused."""

import json
import pathlib
import sys
from collections.abc import Iterator

import click

from .. import ending, progress
from ..ending import Unusable
from ..files import coordinate_systems, gdal_files, writing
from ..geometry import areas
from ..geometry.areas import Ring
from ..grid import scale as scales
from ..store import keeping
from ..store.opening import is_store
from ..words import FILE, Words, flag, option, subcommand
from . import store_layers
from .store_layers import Map


def ring_text(ring: Ring, scale: scales.Scale) -> str:
    """The positions of a ring, the first once more at its end."""
    texts = []
    for corner in ring.corners + ring.corners[:1]:
        x, y = scale.world(corner)
        texts.append(f"[{scales.decimals(x, scale.digits)}, {scales.decimals(y, scale.digits)}]")
    return "[" + ", ".join(texts) + "]"


def polygon_text(polygon: list[Ring], scale: scales.Scale) -> str:
    return "[" + ", ".join(ring_text(ring, scale) for ring in polygon) + "]"


def feature(found: Map, layer: str, kind: str, coordinates: str, rings: list[Ring], exact: bool) -> str:
    """One feature, on one line."""
    area, fraction = areas.in_world(rings, found.scale, exact)
    given = {"layer": layer, "expression": found.layers.definitions.get(layer), "version": found.layers.version}
    properties = "".join(f"{json.dumps(name)}: {json.dumps(value)}, " for name, value in given.items())
    properties += f'"area": {scales.decimals(area, 12)}' + (f', "area_exact": "{fraction}"' if fraction else "")
    return (f'{{"type": "Feature", "properties": {{{properties}}}, '
            f'"geometry": {{"type": "{kind}", "coordinates": {coordinates}}}}}')


def features(found: Map, words: Words) -> Iterator[str]:
    """A feature for each layer, or for each of its polygons; with its pieces as rings."""
    for layer in progress.bar("joining layers", len(found.names), found.names):
        polygons = found.polygons(layer)
        texts = [polygon_text(polygon, found.scale) for polygon in polygons]
        if words.parts:
            for polygon, text in zip(polygons, texts, strict=True):
                yield feature(found, layer, "Polygon", text, polygon, words.exact)
        else:
            rings = [ring for polygon in polygons for ring in polygon]
            yield feature(found, layer, "MultiPolygon", "[" + ", ".join(texts) + "]", rings, words.exact)


def text_of(found: Map, words: Words) -> str:
    """The whole collection."""
    body, name = ",\n".join(features(found, words)), words.store.stem
    return (f'{{"type": "FeatureCollection", "name": {json.dumps(found.scale.title or name)},\n'
            f'{coordinate_systems.member(found.scale.crs)}"features": [\n{body}\n]}}\n')


def write(found: Map, words: Words) -> int:
    if words.top:
        found.names = [name for name in found.layers.unnamed() if name in found.names]
    put(text_of(found, words), found.scale, words)
    return 0


def put(text: str, scale: scales.Scale, words: Words) -> None:
    """Writes the collection to where it goes."""
    try:
        if words.output is None:
            sys.stdout.write(text)
        elif is_gdals(words.output):
            gdal_files.write(words.output, text, scale.crs)
        else:
            writing.write_all({words.output: text.encode()})
    except gdal_files.GdalFault as fault:
        raise Unusable(f"{words.output}: {fault}") from fault
    except OSError as fault:
        if words.output is None:
            raise
        raise Unusable(ending.fault_text(words.output, fault)) from fault


def is_gdals(path: pathlib.Path) -> bool:
    """Whether GDAL is to write a file: one whose name does not say GeoJSON, nor nothing."""
    return path.suffix.lower() not in ("", *gdal_files.UNAIDED)


def check_output(words: Words) -> None:
    """Refuses an output that cannot be written, before anything is asked."""
    if words.output is None:
        return
    if not words.output.name or words.output.is_dir():
        raise click.UsageError(f"--output: {words.output} is a folder, and no file")
    if is_store(words.output):
        raise click.UsageError(f"--output: {words.output} is a store, which is not written over")
    given = [words.store] if words.store.name else []
    for path in [*given, *([words.scale] if words.scale else [])]:
        if keeping.is_same(words.output, path):
            raise click.UsageError(f"--output: {words.output} is read here, and is not written over")
    try:
        keeping.check_apart(words.output, given)
    except keeping.StoreStands as fault:
        raise click.UsageError(f"--output: {fault}")
    if is_gdals(words.output):
        try:
            gdal_files.check_target(words.output)
        except gdal_files.GdalFault as fault:
            raise click.UsageError(f"--output: {fault}")


@subcommand(__doc__, *store_layers.words(many=True), flag("--top", "only layers that no definition names"),
            flag("--parts", "a feature for each polygon"),
            flag("--exact", "area_exact in each feature, however many digits it has"),
            option("--output", "in the place of standard output: .geojson, .gpkg or .fgb", FILE, metavar="FILE"),
            *store_layers.scale_words())
def command(words: Words) -> int:
    check_output(words)
    return store_layers.run(words, write, many=True)
