"""The algorithms beside the tables of examples/maps.md and QGIS's own, and what goes wrong."""

from __future__ import annotations

import pathlib
from typing import Any

import pytest

from made import BOW, SQUARE, cancelled_after, layer, run, wave


def test_pairs_are_those_of_the_page(qgis: Any, maps: pathlib.Path) -> None:
    words = {"INPUT": str(maps / "parcels.geojson"), "OVERLAY": str(maps / "zones.geojson"), "OUTPUT": "memory:"}
    found = run("pairs", **words, GRID="0.001")
    assert (found["OVERLAPPING"], found["TOUCHING"]) == (12, 0)
    assert found["AREA"] == pytest.approx(5666.19475, abs=1e-5)
    first = next(found["OUTPUT"].getFeatures())
    assert (str(first["nr"]), first["kind"], round(first["shared_area"], 9)) == ("301", "meadow", 883.878975162)
    assert first["area_bound"] < 1e-9 and first["relation"] == "overlaps"


def test_pairs_that_touch_are_counted_and_where_asked_listed(qgis: Any) -> None:
    first, second = layer([SQUARE]), layer(["POLYGON ((10 0, 20 0, 20 10, 10 10, 10 0))"])
    found = run("pairs", INPUT=first, OVERLAY=second, OUTPUT="memory:")
    assert (found["OVERLAPPING"], found["TOUCHING"], found["OUTPUT"].featureCount()) == (0, 1, 0)
    (row,) = run("pairs", INPUT=first, OVERLAY=second, TOUCHES=True, OUTPUT="memory:")["OUTPUT"].getFeatures()
    assert (row["relation"], row["shared_area"]) == ("touches", 0)


def test_pieces_are_those_of_qgis_on_a_map_without_trouble(qgis: Any, maps: pathlib.Path) -> None:
    import processing

    words = {"INPUT": str(maps / "parcels.geojson"), "OVERLAY": str(maps / "zones.geojson"), "OUTPUT": "memory:"}
    own, theirs = run("pieces", **words, HOW=0)["OUTPUT"], processing.run("native:intersection", words)["OUTPUT"]
    areas = [sorted(feature.geometry().area() for feature in one.getFeatures()) for one in (own, theirs)]
    assert areas[0] == pytest.approx(areas[1], abs=1e-6)
    fields = [name for name in own.fields().names() if name not in ("exact_area", "area_bound", "width", "piece")]
    assert fields == theirs.fields().names()


@pytest.mark.parametrize("how, count", [(0, 12), (1, 14), (2, 12), (3, 2), (4, 0)])
def test_each_kind_of_overlay_has_its_pieces(qgis: Any, maps: pathlib.Path, how: int, count: int) -> None:
    words = {"INPUT": str(maps / "parcels.geojson"), "OVERLAY": str(maps / "zones.geojson"), "OUTPUT": "memory:"}
    found = run("pieces", **words, HOW=how)
    assert found["COUNT"] == found["OUTPUT"].featureCount() == count
    for feature in found["OUTPUT"].getFeatures():
        assert feature.geometry().isGeosValid()
        assert feature["exact_area"] == pytest.approx(feature.geometry().area(), rel=1e-9)


def test_a_check_is_that_of_the_page(qgis: Any, maps: pathlib.Path) -> None:
    found = run("check", INPUT=str(maps / "parcels.geojson"), ID="nr", OVERLAPS="memory:", GAPS="memory:")
    assert (found["NUMBER_OF_OVERLAPS"], found["NUMBER_OF_GAPS"]) == (3, 2)
    rows = [*found["OVERLAPS"].getFeatures()]
    assert {(one["a"], one["b"]) for one in rows} == {("202", "203"), ("102", "301"), ("101", "301")}
    assert rows[0]["shared_area"] == pytest.approx(5.565268694, abs=1e-9) and rows[0]["width"] > 100 * rows[1]["width"]
    assert sum(one["gap_area"] for one in found["GAPS"].getFeatures()) == pytest.approx(24.92545, abs=1e-5)


def test_an_expression_is_the_region_that_pieces_sum_to(qgis: Any, maps: pathlib.Path) -> None:
    from qgis.core import QgsVectorLayer

    layers = [QgsVectorLayer(str(maps / f"{name}.geojson"), name, "ogr") for name in ("parcels", "zones")]
    alone = [one["exact_area"] for one in run("pieces", INPUT=layers[1], OVERLAY=layers[0], HOW=4,
                                              OUTPUT="memory:")["OUTPUT"].getFeatures()]
    for text in ("zones - parcels", "B - A", '"zones" - A'):
        found = run("derive", LAYERS=layers, EXPRESSION=text, OUTPUT="memory:")
        assert found["AREA"] == pytest.approx(sum(alone), abs=1e-9)


def test_a_ring_that_crosses_itself_needs_no_repair(qgis: Any) -> None:
    found = run("pieces", INPUT=layer([SQUARE]), OVERLAY=layer([BOW]), HOW=0, OUTPUT="memory:")
    assert [piece["exact_area"] for piece in found["OUTPUT"].getFeatures()] == [32]


def test_a_selection_counts(qgis: Any) -> None:
    from qgis.core import QgsProcessingFeatureSourceDefinition

    own = layer([SQUARE, SQUARE])
    own.selectByIds([1])
    from qgis.core import QgsProject

    QgsProject.instance().addMapLayer(own)
    source = QgsProcessingFeatureSourceDefinition(own.id(), selectedFeaturesOnly=True)
    assert run("pairs", INPUT=source, OVERLAY=layer([BOW]), OUTPUT="memory:")["OVERLAPPING"] == 1
    QgsProject.instance().removeMapLayer(own.id())


def test_another_system_of_coordinates_is_brought_to_that_of_the_input(qgis: Any, maps: pathlib.Path) -> None:
    degrees = layer(["POLYGON ((8.7 48.7, 8.8 48.7, 8.8 48.8, 8.7 48.8, 8.7 48.7))"], "EPSG:4326")
    found = run("pairs", INPUT=str(maps / "parcels.geojson"), OVERLAY=degrees, OUTPUT="memory:")
    assert found["OUTPUT"].crs().authid() == "EPSG:25832" and found["OVERLAPPING"] == 8


def test_heights_are_left_out_and_curves_are_edges(qgis: Any) -> None:
    high = layer(["POLYGON Z ((0 0 1, 10 0 2, 10 10 3, 0 10 4, 0 0 1))"])
    round_one = layer(["CURVEPOLYGON (CIRCULARSTRING (0 0, 5 5, 10 0, 5 -5, 0 0))"])
    found = run("pairs", INPUT=high, OVERLAY=round_one, OUTPUT="memory:")
    assert found["AREA"] == pytest.approx(3.14159 * 12.5, rel=1e-3)


def test_what_cannot_be_done_is_said(qgis: Any, maps: pathlib.Path) -> None:
    from qgis.core import QgsProcessingException

    own = layer([SQUARE])
    with pytest.raises(QgsProcessingException, match="no number above 0"):
        run("check", INPUT=own, GRID="a", OVERLAPS="memory:", GAPS="memory:")
    far = layer(["POLYGON ((0 0, 1e12 0, 1e12 1, 0 0))"])
    with pytest.raises(QgsProcessingException, match="layer, feature 1: .* would do"):
        run("check", INPUT=far, GRID="0.001", OVERLAPS="memory:", GAPS="memory:")
    with pytest.raises(QgsProcessingException, match="no layer C; there are: A, made"):
        run("derive", LAYERS=[own], EXPRESSION="A - C", OUTPUT="memory:")
    with pytest.raises(QgsProcessingException, match="the expression cannot be read"):
        run("derive", LAYERS=[own], EXPRESSION="A - (A", OUTPUT="memory:")


def test_square_metres_of_degrees_are_refused(qgis: Any) -> None:
    from qgis.core import QgsProcessingException

    for system, unit in (("EPSG:4326", "degrees"), ("EPSG:2263", "US survey feet"), ("", "not known")):
        with pytest.raises(QgsProcessingException, match="no areas in square metres: .* Reproject layer, to EPSG:6933"):
            run("check", INPUT=layer([SQUARE], system), SQUARE_METRES=True, OVERLAPS="memory:", GAPS="memory:")
    assert run("check", INPUT=layer([SQUARE, SQUARE]), SQUARE_METRES=True, OVERLAPS="memory:",
               GAPS="memory:")["NUMBER_OF_OVERLAPS"] == 1


def test_a_run_ends_soon_after_it_is_cancelled(qgis: Any) -> None:
    first, second = (layer([wave(2000, place + shift) for place in range(25)]) for shift in (0, 3))
    words = {"INPUT": first, "OVERLAY": second, "HOW": 1, "OUTPUT": "memory:"}
    assert cancelled_after(1, "pieces", words) < 2


def test_writing_ends_when_it_is_cancelled(qgis: Any) -> None:
    import processing
    from qgis.core import QgsProcessingFeedback

    class Cancels(QgsProcessingFeedback):
        """Once the answer is there, and nothing of it is written."""

        def pushInfo(self, text: str) -> None:
            if "rounded" in text:
                self.cancel()

    own, output = layer([SQUARE, SQUARE]), {"OUTPUT": "memory:"}
    both = {"INPUT": own, "OVERLAY": layer([BOW])} | output
    cases = {"pairs": both, "pieces": both | {"HOW": 1}, "derive": {"LAYERS": [own], "EXPRESSION": "A"} | output,
             "check": {"INPUT": own, "OVERLAPS": "memory:", "GAPS": "memory:"}}
    for name, words in cases.items():
        assert processing.run(f"exactoverlay:{name}", words, feedback=Cancels()) == {}, name
