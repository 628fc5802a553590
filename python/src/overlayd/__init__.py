"""Exact overlays of polygon layers: a client of overlay_live, maps in and out of its stores, and a front; and functions
for GeoDataFrames: overlay, pairs, check, derive, dissolve, clip, and partitioned for what Dask has in parts (api/).
"""

from typing import Any

__version__ = "1.0"


def __getattr__(name: str) -> Any:
    """A function for GeoDataFrames, which is loaded when it is used."""
    from .api import named

    return named(name)
