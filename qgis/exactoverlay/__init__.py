"""Exact overlays of polygons as Processing algorithms of QGIS."""

from typing import Any


def classFactory(iface: Any) -> Any:  # the name is QGIS's
    from .plugin import Plugin

    return Plugin(iface)
