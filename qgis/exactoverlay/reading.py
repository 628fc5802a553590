"""Features of layers as Well-Known Binary, invalid ones too, in one system of coordinates."""

from __future__ import annotations

from collections.abc import Iterable, Sequence
from dataclasses import dataclass
from typing import Any

from qgis.core import QgsFeatureRequest, QgsProcessingFeatureSource, QgsUnitTypes, QgsWkbTypes

from .ext.overlayd.grid_pass.default_grid import Unit
from .ext.overlayd.kernel.columns import Column, of_bytes


@dataclass(frozen=True)
class Layer:
    """A layer's name in messages, its features, and their shapes."""

    name: str
    features: list[Any]
    shapes: Column


def of_source(source: Any, crs: Any, context: Any, feedback: Any, name: str) -> Layer:
    """The features of a source of Processing: a selection, filters and any driver count as QGIS has them."""
    request = requested(source.sourceCrs(), crs, context, feedback, name)
    flag = QgsProcessingFeatureSource.FlagSkipGeometryValidityChecks  # else QGIS stops at an invalid one
    return read(source.getFeatures(request, flag), feedback, name)


def of_layer(layer: Any, crs: Any, context: Any, feedback: Any, name: str) -> Layer:
    """The features of a layer of a list, of which Processing makes no sources."""
    return read(layer.getFeatures(requested(layer.crs(), crs, context, feedback, name)), feedback, name)


def requested(own: Any, crs: Any, context: Any, feedback: Any, name: str) -> Any:
    """What is asked of a layer, so that its features come in a system of coordinates."""
    request = QgsFeatureRequest()
    if not own.isValid():
        feedback.pushWarning(f"{name} names no system of coordinates; its numbers are taken as they are")
    elif crs.isValid() and own != crs:
        feedback.pushWarning(f"{name} is brought from {own.authid()} to {crs.authid()}: coordinates move by what that "
                             "computes, and borders that were common need not be so any more")
        request.setDestinationCrs(crs, context.transformContext())
    return request


def read(features: Iterable[Any], feedback: Any, name: str) -> Layer:
    """Features and their shapes; curves as many short edges."""
    found, shapes, curved, missing = [], [], 0, 0
    for feature in features:
        if feedback.isCanceled():
            break
        found.append(feature)
        geometry = feature.geometry()
        if geometry.isNull() or geometry.isEmpty():
            shapes.append(None)
            missing += 1
            continue
        shape = geometry.constGet()
        if QgsWkbTypes.isCurvedType(shape.wkbType()):
            shape, curved = shape.segmentize(), curved + 1
        shapes.append(bytes(shape.asWkb()))
    for count, told in ((curved, "have curves, taken as many short edges"), (missing, "have no geometry")):
        if count:
            feedback.pushWarning(f"{name}: {count} features {told}")
    return Layer(name, found, of_bytes(shapes))


def unit_of(crs: Any) -> Unit:
    """What coordinates count."""
    if not crs.isValid():
        return Unit.UNKNOWN
    return Unit.DEGREE if crs.mapUnits() == QgsUnitTypes.DistanceDegrees else Unit.LENGTH


def named(layers: Sequence[Layer], number: int, feature: int) -> str:
    """A feature in words."""
    return f"{layers[number].name}, feature {layers[number].features[feature].id()}"
