"""What the algorithms have in common: the grid, asking, and writing."""

from __future__ import annotations

import pathlib
from collections.abc import Callable, Iterable, Sequence
from typing import Any

from qgis.core import (QgsFeature, QgsFeatureSink, QgsField, QgsGeometry, QgsProcessing,
                       QgsProcessingAlgorithm, QgsProcessingException, QgsProcessingLayerPostProcessorInterface,
                       QgsProcessingParameterBoolean, QgsProcessingParameterDefinition,
                       QgsProcessingParameterFeatureSink, QgsProcessingParameterFeatureSource,
                       QgsProcessingParameterField, QgsProcessingParameterString, QgsUnitTypes, QgsWkbTypes)
from qgis.PyQt.QtCore import QVariant

from . import finding, reading
from .ext.overlayd.api.asking import NoAnswer, grid_of, need_metres, refusals_told
from .ext.overlayd.grid_pass.default_grid import Unit
from .ext.overlayd.kernel import Ask, Cancelled, MapFault, Wants
from .ext.overlayd.kernel.running import ProgramEnded
from .running import Answer, GoesOn, answered

STYLES = pathlib.Path(__file__).with_name("styles")
GRID_HELP = (" The grid is in units of the layers, as 0.001. Empty: the digits that all coordinates have already, else "
             "a thousandth of a metre or foot, or 0.00000001 degrees.")
REPROJECT = "Reproject layer, to EPSG:6933"
TEXT, DOUBLE = QVariant.String, QVariant.Double


class Styled(QgsProcessingLayerPostProcessorInterface):
    """Gives a layer that was loaded the style of its kind. QGIS keeps no reference to it, so this class does."""

    kept: list[Styled] = []

    def __init__(self, name: str) -> None:
        super().__init__()
        self.path = str(STYLES / f"{name}.qml")
        self.kept.append(self)

    def postProcessLayer(self, layer: Any, context: Any, feedback: Any) -> None:
        layer.loadNamedStyle(self.path)
        layer.triggerRepaint()


class Exact(QgsProcessingAlgorithm):
    """An algorithm of this provider: what it is called, and what it does."""

    NAME = TITLE = HELP = ""
    GRID, METRES = "GRID", "SQUARE_METRES"
    FAULTS: tuple[type[Exception], ...] = (ValueError,)
    CANCELLED = "cancelled; a result that was begun is not whole"

    def createInstance(self) -> Any:
        return type(self)()

    def name(self) -> str:
        return self.NAME

    def displayName(self) -> str:
        return self.TITLE

    def shortHelpString(self) -> str:
        return self.HELP

    def canExecute(self) -> tuple[bool, str]:
        try:
            finding.program()
        except finding.NoProgram as fault:
            return False, str(fault)
        return True, ""

    # Parameters: names are short, since the dialog does not wrap them; what they mean is in the help.

    def add_layer(self, name: str, told: str) -> None:
        self.addParameter(QgsProcessingParameterFeatureSource(name, told, [QgsProcessing.TypeVectorPolygon]))

    def add_grid(self) -> None:
        """A text, so that 0.001 is a thousandth and not the double beside it."""
        self.addParameter(QgsProcessingParameterString(self.GRID, "Grid size (empty: automatic)", optional=True))

    def add_metres(self) -> None:
        told = "Refuse a layer whose areas are not in square metres"
        self.add_advanced(QgsProcessingParameterBoolean(self.METRES, told, defaultValue=False))

    def add_fields(self, name: str, layer: str, told: str) -> None:
        self.addParameter(QgsProcessingParameterField(name, told, parentLayerParameterName=layer, optional=True,
                                                      allowMultiple=True))

    def add_sink(self, name: str, told: str, optional: bool = False) -> None:
        kind = QgsProcessing.TypeVectorPolygon
        self.addParameter(QgsProcessingParameterFeatureSink(name, told, kind, None, optional))

    def add_advanced(self, parameter: Any) -> None:
        parameter.setFlags(parameter.flags() | QgsProcessingParameterDefinition.FlagAdvanced)
        self.addParameter(parameter)

    # Asking

    def source(self, parameters: Any, name: str, context: Any) -> Any:
        found = self.parameterAsSource(parameters, name, context)
        if found is None:
            raise QgsProcessingException(self.invalidSourceError(parameters, name))
        return found

    def asked(self, parameters: Any, context: Any, feedback: Any, crs: Any, layers: Sequence[reading.Layer],
              question: Callable[[Ask], Answer]) -> Answer:
        """The answer to a question of layers; what cannot be answered is said in words of these."""
        size = self.parameterAsString(parameters, self.GRID, context).strip() or None
        if reading.unit_of(crs) is Unit.DEGREE:
            feedback.pushWarning("areas are in square degrees: for square metres reproject the layer first")
        in_metres = self.parameterAsBool(parameters, self.METRES, context)

        def asked(path: str, goes_on: GoesOn) -> Answer:
            if in_metres:
                need_metres(QgsUnitTypes.encodeUnit(crs.mapUnits()) if crs.isValid() else None, REPROJECT)
            return question(Ask(path, Wants.OUTLINES, grid_of(size, reading.unit_of(crs)), goes_on))

        try:
            return self.done(feedback, asked)
        except MapFault as fault:
            would_do = "" if fault.grid is None else f"; a grid of {float(fault.grid):g} would do"
            told = f"{reading.named(layers, fault.map, fault.feature)}: {fault.why}{would_do}"
            raise QgsProcessingException(told) from fault

    def done(self, feedback: Any, work: Callable[[str, GoesOn], Answer]) -> Answer:
        """What work gives that asks the program; why it cannot be done is said as QGIS says it."""
        try:
            path, place = finding.program()  # qgis_process does not ask canExecute
            feedback.pushInfo(f"the program is {path}, by {place}")
            with refusals_told(self.displayName()):
                return answered(lambda goes_on: work(path, goes_on), feedback)
        except (*self.FAULTS, finding.NoProgram, NoAnswer, ProgramEnded) as fault:
            raise QgsProcessingException(str(fault)) from fault

    def processAlgorithm(self, parameters: Any, context: Any, feedback: Any) -> dict[str, Any]:
        try:
            return self.answer(parameters, context, feedback)
        except Cancelled:
            feedback.pushInfo(self.CANCELLED)
            return {}

    def answer(self, parameters: Any, context: Any, feedback: Any) -> dict[str, Any]:
        """Does it."""
        raise NotImplementedError

    # Writing

    def sink(self, parameters: Any, name: str, context: Any, fields: Any, crs: Any, style: str) -> tuple[Any, str]:
        """A place for features, and its name."""
        sink, where = self.parameterAsSink(parameters, name, context, fields, QgsWkbTypes.MultiPolygon, crs)
        if sink is not None and context.willLoadLayerOnCompletion(where):
            context.layerToLoadOnCompletionDetails(where).setPostProcessor(Styled(style))
        return sink, where


def with_fields(fields: Any, *more: tuple[str, Any]) -> Any:
    """Fields with others after them, which are called otherwise where a layer has such names."""
    for name, kind in more:
        taken = {field.name().casefold() for field in fields}
        while name.casefold() in taken:
            name += "_"
        fields.append(QgsField(name, kind))
    return fields


def write(sink: Any, fields: Any, rows: Iterable[tuple[list[Any], bytes]], feedback: Any) -> None:
    """Writes a feature for each row of attributes and a shape, until the user cancels."""
    for values, shape in rows:
        if feedback.isCanceled():
            raise Cancelled
        feature, geometry = QgsFeature(fields), QgsGeometry()
        geometry.fromWkb(shape)
        geometry.convertToMultiType()
        feature.setAttributes(values)
        feature.setGeometry(geometry)
        if not sink.addFeature(feature, QgsFeatureSink.FastInsert):
            raise QgsProcessingException(sink.lastError())


def width_of(shape: bytes) -> float:
    """Area by perimeter: about half the width of a long strip. Slivers are told from mistakes by it."""
    geometry = QgsGeometry()
    geometry.fromWkb(shape)
    outline = geometry.length()
    return geometry.area() / outline if outline else 0.0
