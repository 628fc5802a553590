"""Overlays of features without files: columns of Well-Known Binary in, rows out.

    from overlayd.kernel import Ask, Wants, columns, overlay

    rows = overlay(columns.of_bytes(parcels), columns.of_bytes(zones), Ask("overlay_features"))
    rows.pairs, rows.relations(), rows.areas().doubles(), rows.areas().bounds(), rows.areas().exact(0)"""

from .asking import Ask
from .blocks import Wants
from .checking import check
from .deriving import derive
from .laying import Grid, MapFault
from .overlaying import overlay
from .running import Cancelled

__all__ = ["Ask", "Cancelled", "Grid", "MapFault", "Wants", "check", "derive", "overlay"]
