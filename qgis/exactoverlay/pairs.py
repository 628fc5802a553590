"""Which features of two layers overlap or touch, and by how much."""

from __future__ import annotations

from typing import Any

import numpy as np
from qgis.core import QgsProcessingOutputNumber, QgsProcessingParameterBoolean

from .exact import DOUBLE, GRID_HELP, TEXT, width_of, with_fields, write
from .ext.overlayd.api.pieces import answered
from .ext.overlayd.kernel import Ask, overlay
from .ext.overlayd.kernel.overlaying import Overlay
from .ext.overlayd.kernel.rows import Relation
from .two_layers import OUTPUT, TwoLayers

TOUCHES, OVERLAPPING, TOUCHING, AREA = "TOUCHES", "OVERLAPPING", "TOUCHING", "AREA"
FIELDS = ("shared_area", DOUBLE), ("area_bound", DOUBLE), ("width", DOUBLE), ("relation", TEXT)


class Pairs(TwoLayers):
    """exactoverlay:pairs."""

    NAME, TITLE = "pairs", "Pairs that overlap or touch"
    HELP = ("A row for each pair of features that overlap, and where asked for each that only touches: the fields "
            "of both, the area that they share and by how much it may be off, its width (area by perimeter: slivers "
            "are told from mistakes by it), and the relation of the input's feature to the overlay's: touches, "
            "overlaps, within, contains, equals." + GRID_HELP)

    def initAlgorithm(self, config: Any = None) -> None:
        self.add_layers()
        self.add_grid()
        self.add_metres()
        self.addParameter(QgsProcessingParameterBoolean(TOUCHES, "Rows for pairs that only touch", defaultValue=False))
        self.add_sink(OUTPUT, "Pairs")
        for name, told in ((OVERLAPPING, "Pairs that overlap"), (TOUCHING, "Pairs that touch"), (AREA, "Shared area")):
            self.addOutput(QgsProcessingOutputNumber(name, told))

    def answer(self, parameters: Any, context: Any, feedback: Any) -> dict[str, Any]:
        given = self.both(parameters, context, feedback)

        def question(ask: Ask) -> Overlay:
            return answered(overlay(*(layer.shapes for layer in given.layers), ask),
                            *([one.id() for one in layer.features] for layer in given.layers))

        rows = self.asked(parameters, context, feedback, given.crs, given.layers, question)
        feedback.pushInfo(rows.laid.line)
        fields = with_fields(given.fields, *FIELDS)
        sink, where = self.sink(parameters, OUTPUT, context, fields, given.crs, "pairs")
        touches = rows.relations() == Relation.TOUCHES
        areas, wanted = rows.areas().doubles(), np.arange(len(rows))
        if not self.parameterAsBool(parameters, TOUCHES, context):
            wanted = np.flatnonzero(~touches)
        own = rows.part(wanted[np.argsort(-areas[wanted], kind="stable")])
        assert own.outlines is not None

        def row(pair: list[int], relation: int, area: float, bound: float, shape: bytes) -> tuple[list[Any], bytes]:
            measures = [area, bound, width_of(shape), Relation(relation).name.lower()]
            return given.attributes(*pair) + measures, shape

        columns = own.pairs, own.relations(), own.areas().doubles(), own.areas().bounds()
        write(sink, fields, map(row, *(one.tolist() for one in columns), own.outlines.to_list()), feedback)
        found = {OVERLAPPING: int((~touches).sum()), TOUCHING: int(touches.sum()), AREA: float(areas.sum())}
        feedback.pushInfo(f"{found[OVERLAPPING]} pairs overlap, {found[TOUCHING]} touch; areas sum to {found[AREA]!r}")
        return {OUTPUT: where, **found}
