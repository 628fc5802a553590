"""A plugin of pytest that puts overlayd's functions in the place of geopandas's, for geopandas's own tests of them.

    OVERLAY_FEATURES=.. python3 -m pytest -p tests.in_geopandas --pyargs geopandas.tests.test_overlay

Points and lines are left to geopandas, as its tests have them too. Columns that only overlayd has are taken away."""

from typing import Any

import geopandas
import geopandas.tools

import overlayd
from overlayd.api.pairing import AREA, BOUND, RELATION

ITS_OWN = geopandas.overlay, geopandas.sjoin


def left_to_geopandas(function: Any, *words: Any, **named: Any) -> Any:
    """Calls overlayd's function; while geopandas does what is left to it, that has its own functions."""
    geopandas.overlay, geopandas.sjoin = ITS_OWN
    try:
        return function(*words, **named, others="geopandas")
    finally:
        geopandas.overlay, geopandas.sjoin = overlay, sjoin


def overlay(*words: Any, **named: Any) -> Any:
    return left_to_geopandas(overlayd.overlay, *words, **named)


def sjoin(*words: Any, **named: Any) -> Any:
    found = left_to_geopandas(overlayd.pairs, *words, **named)
    return found.drop(columns=[AREA, BOUND, RELATION], errors="ignore")


geopandas.overlay, geopandas.sjoin = overlay, sjoin
