#!/usr/bin/python3
"""Draws the pictures of docs/guide by QGIS: answers of the plugin, and what the lines of a page make.

    OVERLAY_FEATURES=PROGRAM PYTHONPATH=python/src qgis/make_pictures.py [NAME].."""

from __future__ import annotations

import doctest
import os
import pathlib
import subprocess
import sys
import tempfile
from collections.abc import Callable
from typing import Any

os.environ.setdefault("QT_QPA_PLATFORM", "offscreen")
from make_styles import GREEN, RED, plain  # noqa: E402
from make_zip import fill  # noqa: E402
from qgis.core import (QgsApplication, QgsFeature, QgsGeometry, QgsMapRendererParallelJob, QgsMapSettings,  # noqa: E402
                       QgsVectorLayer)
from qgis.PyQt.QtCore import QSize  # noqa: E402

TOP = pathlib.Path(__file__).resolve().parents[1]
GUIDE, PARCELS = TOP / "docs/guide", TOP / "examples/maps/parcels.geojson"
SIZE, EDGE = QSize(520, 300), 1.03
LINE = {"outline_color": "120,120,120", "outline_width": "0.3"}
GREY = {"color": "244,241,230", **LINE}
BORDERS = {"style": "no", "outline_color": "60,60,60", "outline_width": "0.6"}
COLOURS = "198,219,180", "246,215,160", "190,205,232", "232,190,190", "220,210,235"
WATER = "244,241,230", "222,235,247", "158,202,225", "66,146,198"
MAKING, MADE = TOP / "python/lab/overlayd_lab/map_making.py", ("600", "40")  # parcels, zones
Layers = list[Any]


def layer(of: Any, colours: dict[str, str] | None = None) -> Any:
    """A layer of a file, or of the shapes of a frame."""
    if isinstance(of, pathlib.Path):
        found = QgsVectorLayer(str(of), of.stem, "ogr")
    else:
        found = QgsVectorLayer("MultiPolygon", "frame", "memory")
        for shape in of.geometry:
            geometry, feature = QgsGeometry(), QgsFeature()
            geometry.fromWkb(shape.wkb)
            feature.setGeometry(geometry)
            found.dataProvider().addFeature(feature)
        found.updateExtents()
    if colours is not None:
        found.setRenderer(plain(colours))
    return found


def asked(algorithm: str, outputs: dict[str, str], **words: Any) -> Layers:
    """Outputs of an algorithm of the plugin, each in the style that it names."""
    import processing

    found = processing.run(f"exactoverlay:{algorithm}", words | {name: "memory:" for name in outputs})
    for name, style in outputs.items():
        found[name].loadNamedStyle(str(TOP / "qgis/exactoverlay/styles" / f"{style}.qml"))
    return [found[name] for name in outputs]


def over_parcels(*layers: Any) -> Layers:
    return [*layers, layer(PARCELS, GREY)]


def examples(page: str) -> dict[str, Any]:
    """What the lines of Python of a page make, by name."""
    made: dict[str, Any] = {}
    for one in doctest.DocTestParser().get_examples((GUIDE / f"{page}.md").read_text()):
        exec(one.source, made)
    return made


def commands(page: str, folder: pathlib.Path) -> None:
    """Runs the commands of a page in a folder."""
    for name in ("overlay", "examples", "docs"):
        (folder / name).symlink_to(TOP / name)
    for line in (GUIDE / f"{page}.md").read_text().splitlines():
        if line.startswith("$ "):
            subprocess.run(["bash", "-c", line[2:]], cwd=folder, check=True, stdout=subprocess.DEVNULL)


def cut(map_name: str) -> Layers:
    """What of the parcels lies in a map of the guide."""
    return over_parcels(*asked("pieces", {"OUTPUT": "pieces"}, INPUT=layer(PARCELS), HOW=0,
                               OVERLAY=layer(GUIDE / f"{map_name}.geojson")))


def flooded_and_built() -> Layers:
    maps = [layer(GUIDE / f"{name}.geojson") for name in ("flood", "buildings", "parks")]
    return over_parcels(*asked("derive", {"OUTPUT": "region"}, LAYERS=maps, EXPRESSION="(A & B) - C"))


def gaps() -> Layers:
    return over_parcels(asked("check", {"OVERLAPS": "overlaps", "GAPS": "gaps"}, INPUT=layer(PARCELS))[1])


def dissolved() -> Layers:
    """Estates, and in red what two of them claim."""
    made = examples("dissolve-by-owner")
    estates = [layer(made["estates"].iloc[[at]], {"color": colour, **BORDERS, "style": "solid"})
               for at, colour in zip(range(3), COLOURS)]
    return [layer(made["claims"], RED), layer(PARCELS, {**LINE, "style": "no"}), *estates]


def current() -> Layers:
    """Parcels by how much of each is flooded, after the edit of the page, and the flood's outline."""
    import geopandas
    import pandas

    with tempfile.TemporaryDirectory() as place:
        commands("keep-it-current", pathlib.Path(place))
        own, table = (geopandas.read_file(f"{place}/land.gpkg", layer=name)
                      for name in ("parcels", "overlay_result_flooded"))
    part = own.nr.map(table.groupby("a_id").area.sum()).fillna(0) / own.area
    steps = pandas.cut(part, [-1, 0, 0.2, 0.4, 1], labels=WATER)
    parcels = [layer(own[steps == colour], {"color": colour, **LINE}) for colour in WATER if (steps == colour).any()]
    return [layer(GUIDE / "flood.geojson", {**BORDERS, "outline_color": "30,80,140"}), *parcels]


def many() -> Layers:
    """A part of a map like that which is measured, with its overlaps and gaps: of millimetres, they are lines."""
    import geopandas

    with tempfile.TemporaryDirectory() as place:
        subprocess.run([sys.executable, MAKING, *MADE, place], check=True, stdout=subprocess.DEVNULL)
        own = geopandas.read_file(f"{place}/parcels.gpkg")
    west, south = own.total_bounds[:2]
    parcels = layer(own.cx[west + 50:west + 390, south + 50:south + 230], GREY)
    return [*asked("check", {"OVERLAPS": "overlaps", "GAPS": "gaps"}, INPUT=parcels), parcels]


def denied() -> Layers:
    """Lots that GEOS finds within their blocks, and in red those that it does not."""
    made = examples("why-geos-says-no")
    found = made["geopandas"].sjoin(made["lots"], made["blocks"], predicate="within").index
    within = made["lots"].index.isin(found)
    return [layer(made["blocks"], BORDERS), layer(made["lots"][within], GREEN), layer(made["lots"][~within], RED)]


def moved() -> Layers:
    """The pieces of the county that is moved, over those that it lies on."""
    made = examples("in-a-notebook")
    pieces = made["pieces"]
    wake = pieces[(pieces.name_2 == "Wake") & pieces.name_1.notna()]
    own = [layer(wake.iloc[[at]], {"color": colour, **BORDERS, "style": "solid"}) for at, colour in enumerate(COLOURS)]
    counties = made["counties"]
    return [*own, layer(counties[counties.name.isin(wake.name_1)], GREY)]


PICTURES: dict[str, Callable[[], Layers]] = {
    "whose-land-is-flooded": lambda: cut("flood"), "clip-to-a-municipality": lambda: cut("town"),
    "flooded-and-built": flooded_and_built, "gaps-in-a-coverage": gaps, "dissolve-by-owner": dissolved,
    "keep-it-current": current, "a-million-parcels": many, "why-geos-says-no": denied, "in-a-notebook": moved,
}


def drawn(name: str) -> None:
    """Draws one: its first layer is on top, and its last one gives the extent."""
    layers = PICTURES[name]()
    settings = QgsMapSettings()
    settings.setLayers(layers)
    settings.setOutputSize(SIZE)
    box = layers[-1].extent()
    for one in layers:
        box.combineExtentWith(one.extent())
    box.scale(EDGE)
    settings.setExtent(box)
    job = QgsMapRendererParallelJob(settings)
    job.start()
    job.waitForFinished()
    job.renderedImage().save(str(GUIDE / f"{name}.png"))


def main() -> None:
    os.chdir(TOP)
    with tempfile.TemporaryDirectory() as plugins:
        fill(pathlib.Path(plugins, "exactoverlay"), None)
        sys.path[:0] = [plugins, "/usr/share/qgis/python/plugins"]
        application = QgsApplication([], False)
        application.initQgis()
        from exactoverlay.provider import Provider
        from processing.core.Processing import Processing

        Processing.initialize()
        provider = Provider()
        QgsApplication.processingRegistry().addProvider(provider)
        for name in sys.argv[1:] or PICTURES:
            drawn(name)
        application.exitQgis()


if __name__ == "__main__":
    main()
