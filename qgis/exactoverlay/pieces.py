"""The pieces of two layers: what features of both share, and what each has alone."""

from __future__ import annotations

from typing import Any

from qgis.core import QgsFields, QgsProcessingOutputNumber, QgsProcessingParameterEnum

from .exact import DOUBLE, GRID_HELP, TEXT, width_of, with_fields, write
from .ext.overlayd.api.pieces import HOWS, Piece, pieces
from .ext.overlayd.api.pieces import Pieces as Found
from .ext.overlayd.kernel import Ask
from .two_layers import OUTPUT, TwoLayers

HOW, COUNT, AREA = "HOW", "COUNT", "AREA"
FIELDS = ("exact_area", DOUBLE), ("area_bound", DOUBLE), ("width", DOUBLE), ("piece", TEXT)


class Pieces(TwoLayers):
    """exactoverlay:pieces."""

    NAME, TITLE = "pieces", "Pieces (intersection, union, difference)"
    HELP = ("The pieces of two layers with the fields of both, the area of each and by how much it may be off, how "
            "wide it is, and whose it is: of both, of the input alone, or of the overlay alone. Insides are "
            "even-odd over the rings of a feature, so outlines that cross themselves need no repair." + GRID_HELP)

    def initAlgorithm(self, config: Any = None) -> None:
        self.add_layers()
        self.addParameter(QgsProcessingParameterEnum(HOW, "Pieces", HOWS, defaultValue=0))
        self.add_grid()
        self.add_metres()
        self.add_sink(OUTPUT, "Pieces")
        for name, told in ((COUNT, "Number of pieces"), (AREA, "Area of all")):
            self.addOutput(QgsProcessingOutputNumber(name, told))

    def answer(self, parameters: Any, context: Any, feedback: Any) -> dict[str, Any]:
        how = HOWS[self.parameterAsEnum(parameters, HOW, context)]
        given = self.both(parameters, context, feedback)

        def question(ask: Ask) -> Found:
            names = [[one.id() for one in layer.features] for layer in given.layers]
            return pieces(*(layer.shapes for layer in given.layers), how, ask, *names)

        found = self.asked(parameters, context, feedback, given.crs, given.layers, question)
        feedback.pushInfo(found.both.laid.line)
        own = len(given.kept[0]) if how == "difference" else given.fields.count()
        fields = QgsFields()
        for at in range(own):
            fields.append(given.fields.at(at))
        fields = with_fields(fields, *FIELDS)
        sink, where = self.sink(parameters, OUTPUT, context, fields, given.crs, "pieces")

        def values(one: Piece) -> list[Any]:
            whose = "input" if one.second is None else "overlay" if one.first is None else "both"
            measures = [one.area, one.bound, width_of(one.outline), whose]
            return given.attributes(one.first, one.second)[:own] + measures

        rows = [*found.rows()]
        write(sink, fields, ((values(one), one.outline) for one in rows), feedback)
        total = sum(one.area for one in rows)
        feedback.pushInfo(f"{len(rows)} pieces, areas sum to {total!r}")
        return {OUTPUT: where, COUNT: len(rows), AREA: total}
