"""Layers for the tests, and how algorithms are run."""

from __future__ import annotations

import threading
import time
from collections.abc import Sequence
from typing import Any

SYSTEM = "EPSG:25832"
SQUARE = "POLYGON ((0 0, 10 0, 10 10, 0 10, 0 0))"
BOW = "POLYGON ((1 1, 9 9, 9 1, 1 9, 1 1))"


def run(name: str, **parameters: Any) -> Any:
    import processing

    return processing.run(f"exactoverlay:{name}", parameters)


def layer(texts: Sequence[str], crs: str = SYSTEM, fields: str = "field=nr:integer", name: str = "made") -> Any:
    """A layer in memory of Well-Known Text, numbered."""
    from qgis.core import QgsFeature, QgsGeometry, QgsVectorLayer

    found = QgsVectorLayer(f"MultiPolygon?crs={crs}&{fields}", name, "memory")
    for number, text in enumerate(texts):
        feature = QgsFeature(found.fields())
        feature.setAttributes([number])
        feature.setGeometry(QgsGeometry.fromWkt(text))
        assert found.dataProvider().addFeature(feature)
    return found


def wave(corners: int, shift: int) -> str:
    """A polygon with a jagged top."""
    top = [f"{place} {100 + (place % 7) * 11 + shift}" for place in range(corners)]
    return f"POLYGON (({', '.join(top)}, {corners} 0, 0 0, {top[0]}))"


def cancelled_after(seconds: float, name: str, words: dict[str, Any]) -> float:
    """How many seconds a run goes on once it is cancelled; it is long enough to be."""
    import processing
    from qgis.core import QgsProcessingFeedback

    feedback, at = QgsProcessingFeedback(), list[float]()
    timer = threading.Timer(seconds, lambda: [at.append(time.monotonic()), feedback.cancel()])
    timer.start()
    processing.run(f"exactoverlay:{name}", words, feedback=feedback)
    ended = time.monotonic()
    timer.cancel()
    assert at, "it had ended before"
    return ended - at[0]
