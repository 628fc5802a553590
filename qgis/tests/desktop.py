"""What the desktop of QGIS does by --code: it checks the parcels of examples/maps with the plugin of its profile, shows
the result, writes a picture of its window, and ends."""

from __future__ import annotations

import os
import pathlib

from qgis.core import QgsApplication, QgsProject, QgsVectorLayer
from qgis.PyQt.QtCore import QTimer
from qgis.utils import iface

TOP = pathlib.Path(os.environ["OVERLAY_TOP"])
PICTURE = os.environ["OVERLAY_PICTURE"]
SIZE, PATIENCE = (1180, 700), 3000  # milliseconds until the map is drawn
PARCELS = "#f4f1e6"


def shown() -> None:
    """Runs the algorithm as its dialog does, and puts its layers over the parcels."""
    import processing

    parcels = QgsVectorLayer(str(TOP / "examples/maps/parcels.geojson"), "parcels", "ogr")
    parcels.renderer().symbol().setColor(iface.mainWindow().palette().midlight().color())
    QgsProject.instance().addMapLayer(parcels)
    words = {"INPUT": parcels, "ID": "nr", "OVERLAPS": "TEMPORARY_OUTPUT", "GAPS": "TEMPORARY_OUTPUT"}
    processing.runAndLoadResults("exactoverlay:check", words)
    for name in ("Overlaps", "Gaps"):
        (layer,) = QgsProject.instance().mapLayersByName(name)
        layer.loadNamedStyle(str(TOP / f"qgis/exactoverlay/styles/{name.lower()}.qml"))
    iface.mapCanvas().setExtent(parcels.extent())
    iface.mapCanvas().refresh()
    QTimer.singleShot(PATIENCE, taken)


def taken() -> None:
    """Writes the picture."""
    iface.mainWindow().grab().save(PICTURE)
    os._exit(0)  # no question whether to keep the project


iface.mainWindow().resize(*SIZE)
assert QgsApplication.processingRegistry().providerById("exactoverlay")
QTimer.singleShot(PATIENCE, shown)
