"""Where features of one layer overlap, and the gaps between them."""

from __future__ import annotations

from typing import Any

from qgis.core import QgsFields, QgsProcessingOutputNumber, QgsProcessingParameterField

from . import reading
from .exact import DOUBLE, GRID_HELP, TEXT, Exact, width_of, with_fields, write
from .ext.overlayd.api.pieces import Checked, checked
from .ext.overlayd.kernel import Ask

INPUT, ID, OVERLAPS, GAPS = "INPUT", "ID", "OVERLAPS", "GAPS"
COUNTS = {OVERLAPS: "NUMBER_OF_OVERLAPS", GAPS: "NUMBER_OF_GAPS"}
FIELDS = ("shared_area", DOUBLE), ("area_bound", DOUBLE), ("width", DOUBLE)


class Check(Exact):
    """exactoverlay:check."""

    NAME, TITLE = "check", "Check for overlaps and gaps"
    HELP = ("Where features of one layer lie on each other, and the places that features enclose and none covers, "
            "each with its area and its width (area by perimeter). Slivers of a grid unit are in the data; none is "
            "added." + GRID_HELP)

    def initAlgorithm(self, config: Any = None) -> None:
        self.add_layer(INPUT, "Layer")
        self.addParameter(QgsProcessingParameterField(ID, "Field that names features", parentLayerParameterName=INPUT,
                                                      optional=True))
        self.add_grid()
        self.add_metres()
        for name, told in ((OVERLAPS, "Overlaps"), (GAPS, "Gaps")):
            self.add_sink(name, told, optional=True)
            self.addOutput(QgsProcessingOutputNumber(COUNTS[name], f"Number of {told.lower()}"))

    def answer(self, parameters: Any, context: Any, feedback: Any) -> dict[str, Any]:
        source = self.source(parameters, INPUT, context)
        crs = source.sourceCrs()
        layer = reading.of_source(source, crs, context, feedback, "layer")
        named = self.parameterAsString(parameters, ID, context)
        names = [str(one[named]) if named else str(one.id()) for one in layer.features]

        def question(ask: Ask) -> Checked:
            return checked(layer.shapes, ask, names)

        found = self.asked(parameters, context, feedback, crs, [layer], question)
        feedback.pushInfo(found.overlaps.laid.line)
        overlaps = self.overlaps(found, names)
        gaps = [*zip(found.gaps.areas[:, None].tolist(), found.gaps.outlines.to_list())]
        results: dict[str, Any] = {COUNTS[OVERLAPS]: len(overlaps), COUNTS[GAPS]: len(gaps)}
        heads = ("a", TEXT), ("b", TEXT), *FIELDS
        for name, rows, columns in ((OVERLAPS, overlaps, heads), (GAPS, gaps, (("gap_area", DOUBLE), FIELDS[-1]))):
            fields = with_fields(QgsFields(), *columns)
            sink, where = self.sink(parameters, name, context, fields, crs, name.lower())
            if sink is None:
                continue
            write(sink, fields, (([*values, width_of(shape)], shape) for values, shape in rows), feedback)
            results[name] = where
        feedback.pushInfo(f"{len(overlaps)} overlaps, {len(gaps)} gaps")
        if not found.closes:
            feedback.reportError("the sums of areas do not agree with that: please report this")
        return results

    @staticmethod
    def overlaps(found: Checked, names: list[str]) -> list[tuple[list[Any], bytes]]:
        """Values and shapes of the overlaps."""
        rows = found.overlaps
        assert rows.outlines is not None
        columns = rows.pairs.tolist(), rows.areas().doubles().tolist(), rows.areas().bounds().tolist()
        return [([names[a], names[b], area, bound], shape)
                for (a, b), area, bound, shape in zip(*columns, rows.outlines.to_list())]
