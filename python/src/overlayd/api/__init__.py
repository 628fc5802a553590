"""Exact overlays of GeoDataFrames, as geopandas.overlay, sjoin, dissolve and clip have them, and more.

    import overlayd

    pieces = overlayd.overlay(parcels, zones, how="union")
    rows = overlayd.pairs(parcels, zones, predicate="shares_area")
    region = overlayd.derive("(flood | slide) - parks", {"flood": flood, "slide": slide, "parks": parks})

Every result says in .attrs["overlayd"] on which grid it was made, and what that moved. Polygons alone: lines and points
are refused, or left to geopandas where that is asked for. Names are loaded when they are used: cells.py and asking.py
stand without geopandas, as for QGIS.
"""

import importlib

NAMES = {"overlay": "overlaying", "pairs": "pairing", "check": "checking", "derive": "deriving",
         "dissolve": "dissolving", "clip": "clipping", "partitioned": "partitions"}


def named(name: str) -> object:
    """A function of the package by its name."""
    if name not in NAMES:
        raise AttributeError(f"module 'overlayd' has no attribute {name!r}")
    return getattr(importlib.import_module(f".{NAMES[name]}", __name__), name)
