"""What algorithms of two layers have in common: INPUT and OVERLAY, as QGIS's own call them, and fields to keep."""

from __future__ import annotations

from dataclasses import dataclass
from typing import Any

from qgis.core import QgsFields, QgsProcessingParameterString, QgsProcessingUtils

from . import reading
from .exact import Exact

INPUT, OVERLAY, OUTPUT = "INPUT", "OVERLAY", "OUTPUT"
LAYERS = {INPUT: "INPUT_FIELDS", OVERLAY: "OVERLAY_FIELDS"}
PREFIX = "OVERLAY_FIELDS_PREFIX"
NUMBER = "fid"  # a GeoPackage's own: pieces repeat it, and a GeoPackage then refuses them


@dataclass(frozen=True)
class Both:
    """Two layers in one system of coordinates, the places of the fields that are kept of each, and these fields."""

    layers: list[reading.Layer]
    kept: list[list[int]]
    fields: Any
    crs: Any

    def attributes(self, *places: int | None) -> list[Any]:
        """The kept attributes of a feature of each layer; none of a layer that has none there."""
        found = []
        for layer, kept, place in zip(self.layers, self.kept, places):
            own = None if place is None else layer.features[place].attributes()
            found += [None if own is None else own[at] for at in kept]
        return found


class TwoLayers(Exact):
    """An algorithm of two layers."""

    def add_layers(self) -> None:
        self.add_layer(INPUT, "Input layer")
        self.add_layer(OVERLAY, "Overlay layer")
        for layer, name in LAYERS.items():
            self.add_fields(name, layer, f"{layer.capitalize()} fields to keep (empty: all)")
        self.add_advanced(QgsProcessingParameterString(PREFIX, "Overlay fields prefix", optional=True))

    def both(self, parameters: Any, context: Any, feedback: Any) -> Both:
        """What was given."""
        sources = [self.source(parameters, name, context) for name in LAYERS]
        crs = sources[0].sourceCrs()
        layers = [reading.of_source(own, crs, context, feedback, name.lower()) for own, name in zip(sources, LAYERS)]
        kept, fields = [], []
        for source, name in zip(sources, LAYERS.values()):
            wanted = self.parameterAsFields(parameters, name, context) or [
                one for one in source.fields().names() if one.casefold() != NUMBER]
            kept.append([source.fields().lookupField(one) for one in wanted])
            fields.append(QgsFields())
            for at in kept[-1]:
                fields[-1].append(source.fields().at(at))
        prefix = self.parameterAsString(parameters, PREFIX, context)
        return Both(layers, kept, QgsProcessingUtils.combineFields(*fields, prefix), crs)
