"""A region by an expression over layers."""

from __future__ import annotations

import re
import string
from typing import Any

from qgis.core import (QgsFields, QgsMapLayer, QgsProcessing, QgsProcessingException, QgsProcessingOutputNumber,
                       QgsProcessingParameterMultipleLayers, QgsProcessingParameterString)

from . import reading
from .exact import DOUBLE, GRID_HELP, TEXT, Exact, with_fields, write
from .ext.overlayd.kernel import Ask, derive
from .ext.overlayd.kernel.deriving import NAME, Derived

LAYERS, EXPRESSION, OUTPUT, AREA = "LAYERS", "EXPRESSION", "OUTPUT", "AREA"
QUOTED = re.compile(r'"([^"]+)"')


class Derive(Exact):
    """exactoverlay:derive."""

    NAME, TITLE = "derive", "Derive a region by an expression"
    HELP = ("An expression over layers by their names, as (flood | slide) - parks, or by A, B, C.. in the order "
            "given: & is what both have (it binds tightest), | what either has, - what the left one has alone, ^ "
            "what one of both has. Other names than letters, digits and _ stand in double quotes." + GRID_HELP)

    def initAlgorithm(self, config: Any = None) -> None:
        self.addParameter(QgsProcessingParameterMultipleLayers(LAYERS, "Layers", QgsProcessing.TypeVectorPolygon))
        self.addParameter(QgsProcessingParameterString(EXPRESSION, "Expression", "A & B"))
        self.add_grid()
        self.add_metres()
        self.add_sink(OUTPUT, "Region")
        self.addOutput(QgsProcessingOutputNumber(AREA, "Area"))

    def answer(self, parameters: Any, context: Any, feedback: Any) -> dict[str, Any]:
        given = [layer for layer in self.parameterAsLayerList(parameters, LAYERS, context)
                 if layer.type() == QgsMapLayer.VectorLayer]
        text = self.parameterAsString(parameters, EXPRESSION, context)
        plain, layers = spelled(text, given)
        if not layers:
            raise QgsProcessingException(f"Expression: {text!r} names no layer")
        crs = layers[min(layers)].crs()
        read = {name: reading.of_layer(layers[name], crs, context, feedback, layers[name].name())
                for name in sorted(layers)}

        def question(ask: Ask) -> Derived:
            return derive({name: own.shapes for name, own in read.items()}, plain, ask)

        found = self.asked(parameters, context, feedback, crs, [*read.values()], question)
        feedback.pushInfo(found.laid.line)
        fields = with_fields(QgsFields(), ("expression", TEXT), ("polygon_area", DOUBLE))
        sink, where = self.sink(parameters, OUTPUT, context, fields, crs, "region")
        assert found.polygons is not None
        rows = zip(found.polygons.areas.tolist(), found.polygons.outlines.to_list())
        write(sink, fields, (([text, area], shape) for area, shape in rows), feedback)
        area = float(found.area.doubles()[0])
        feedback.pushInfo(f"{len(found.polygons.areas)} polygons, of {area!r} square units")
        return {OUTPUT: where, AREA: area}


def spelled(text: str, given: list[Any]) -> tuple[str, dict[str, Any]]:
    """An expression over A, B, C.. for the layers that it names, by these letters or by their own names, and these."""
    letters = dict(zip(string.ascii_uppercase, given))
    called = {layer.name(): letter for letter, layer in letters.items()} | {letter: letter for letter in letters}
    used: dict[str, Any] = {}

    def letter(name: str) -> str:
        if name not in called:
            raise QgsProcessingException(f"Expression: no layer {name}; there are: {', '.join(sorted(called))}")
        used[called[name]] = letters[called[name]]
        return called[name]

    parts = QUOTED.split(text)  # names in quotes stand at odd places
    plain = [letter(part) if place % 2 else NAME.sub(lambda found: letter(found[0]), part)
             for place, part in enumerate(parts)]
    return "".join(plain), used
