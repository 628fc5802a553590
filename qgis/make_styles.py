#!/usr/bin/python3
"""Writes the styles of the plugin by QGIS itself: overlaps are red, gaps orange, and narrow pieces red."""

from __future__ import annotations

import os
import pathlib
from typing import Any

os.environ.setdefault("QT_QPA_PLATFORM", "offscreen")
from qgis.core import (QgsApplication, QgsFillSymbol, QgsMapLayer, QgsRuleBasedRenderer,  # noqa: E402
                       QgsSingleSymbolRenderer, QgsVectorLayer)

STYLES = pathlib.Path(__file__).resolve().parent / "exactoverlay" / "styles"
FIELDS = "field=shared_area:double&field=exact_area:double&field=width:double&field=piece:string"
THIN = {"outline_color": "64,64,64", "outline_width": "0.2"}
RED = {"color": "208,48,32,200", "outline_color": "208,48,32", "outline_width": "0.6"}
ORANGE = {"color": "240,160,32,220", "outline_color": "200,110,0", "outline_width": "0.6"}
GREEN, GREY = {"color": "127,176,138,160", **THIN}, {"color": "232,228,218", **THIN}
BLUE = {"color": "169,211,238,200", "outline_color": "30,80,140", "outline_width": "0.4"}
NARROW = '{area} > 100 * "width" * "width"'  # 25 times as long as wide, or more


def written(name: str, renderer: Any) -> None:
    """Writes one."""
    layer = QgsVectorLayer(f"MultiPolygon?{FIELDS}", name, "memory")
    layer.setRenderer(renderer)
    layer.saveNamedStyle(str(STYLES / f"{name}.qml"), QgsMapLayer.Symbology)


def plain(colours: dict[str, str]) -> Any:
    """One colour for all."""
    return QgsSingleSymbolRenderer(QgsFillSymbol.createSimple(colours))


def ruled(*rules: tuple[str, str, dict[str, str]]) -> Any:
    """Colours by rules."""
    root = QgsRuleBasedRenderer.Rule(None)
    for expression, label, colours in rules:
        rule = QgsRuleBasedRenderer.Rule(QgsFillSymbol.createSimple(colours))
        rule.setFilterExpression(expression)
        rule.setLabel(label)
        root.appendChild(rule)
    return QgsRuleBasedRenderer(root)


def main() -> None:
    application = QgsApplication([], False)
    application.initQgis()
    STYLES.mkdir(exist_ok=True)
    narrow = NARROW.format(area='"exact_area"')
    written("pieces", ruled((f"\"piece\" = 'both' AND NOT ({narrow})", "of both", GREEN),
                            (f"\"piece\" <> 'both' AND NOT ({narrow})", "of one alone", GREY), (narrow, "narrow", RED)))
    narrow = NARROW.format(area='"shared_area"')
    written("pairs", ruled((f"NOT ({narrow})", "shared", GREEN), (narrow, "narrow", RED)))
    for name, colours in (("overlaps", RED), ("gaps", ORANGE), ("region", BLUE)):
        written(name, plain(colours))
    application.exitQgis()


if __name__ == "__main__":
    main()
