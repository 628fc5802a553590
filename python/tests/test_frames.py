"""overlayd.overlay, check, derive, dissolve and clip beside geopandas and shapely."""

import subprocess
import sys
import warnings
from collections.abc import Callable
from fractions import Fraction
from typing import Any

import geopandas
import numpy as np
import pandas as pd
import pyproj
import pytest
from shapely.geometry import LineString, MultiPolygon, Point, Polygon, box

import overlayd
from overlayd.api.asking import NoAnswer, NotInMetres
from overlayd.api.overlaying import HOWS

from . import frames_made as made
from .common import SOURCES, TOP

MAPS = TOP / "examples" / "maps"
pytestmark = pytest.mark.features


def same(own: Any, theirs: Any) -> None:
    """The same rows, columns, types and index, and shapes that are equal but for where rings begin."""
    name = theirs.geometry.name
    pd.testing.assert_frame_equal(pd.DataFrame(own.drop(columns=name)), pd.DataFrame(theirs.drop(columns=name)))
    assert own.crs == theirs.crs and [*own.columns] == [*theirs.columns]
    assert all(one.equals(other) for one, other in zip(own.geometry, theirs.geometry))


@pytest.mark.parametrize("how", HOWS)
@pytest.mark.parametrize("seed", range(4))
def test_an_overlay_has_the_rows_of_geopandas(how: str, seed: int) -> None:
    df1, df2 = made.boxes(seed, 9, "first"), made.boxes(seed + 50, 9, "second")
    with warnings.catch_warnings():
        warnings.simplefilter("ignore")
        same(overlayd.overlay(df1, df2, how), geopandas.overlay(df1, df2, how))


@pytest.mark.parametrize("how", HOWS)
@pytest.mark.parametrize("index", [range(5, 14), [*"abcdefghi"], pd.MultiIndex.from_product([[1, 2, 3], [*"xyz"]])])
def test_any_index_and_name_of_shapes_is_as_geopandas_has_it(how: str, index: Any) -> None:
    df1, df2 = made.boxes(1, 9, "first"), made.boxes(2, 9, "second").rename_geometry("shape")
    df1.index = index
    df1.iloc[3, 2] = None
    df1 = df1.assign(shape=3) if how == "union" else df1
    with warnings.catch_warnings():
        warnings.simplefilter("ignore")
        same(overlayd.overlay(df1, df2, how), geopandas.overlay(df1, df2, how))


def test_pieces_along_borders_are_no_dust() -> None:
    parcels, zones = made.turned(12, 5, 4)
    found = overlayd.overlay(parcels, zones)
    assert len(found) == len(parcels) < len(geopandas.overlay(parcels, zones))
    assert found.area.min() == pytest.approx(600, abs=0.1)
    assert not len(overlayd.overlay(parcels, zones, "difference"))


def test_pieces_of_a_feature_sum_to_it() -> None:
    df1, df2 = made.stars(3, 12), made.stars(4, 12)
    found = overlayd.overlay(df1, made.tiles(1), "identity", exact="fraction", grid_size="0.001")
    assert found["fraction"].map(type).eq(Fraction).all()
    whole = overlayd.pairs(df1, df1, grid_size="0.001", exact="all", predicate="equals").set_index("star_left")["all"]
    for star, pieces in found.groupby("star"):
        # Each area is off by at most some parts of 2^-40 of a unit square of the grid.
        assert abs(sum(pieces["fraction"], Fraction(0)) - whole[star]) < Fraction(1, 10**6 * 2**20)
    both = overlayd.overlay(df1, df2, "union", exact="fraction")
    assert both.geometry.is_valid.all()
    assert float(sum(both["fraction"])) == pytest.approx(both.area.sum(), rel=1e-9)
    assert [*both.columns][-2:] == ["fraction", "geometry"]


def test_a_ring_that_crosses_itself_keeps_both_halves() -> None:
    bow = Polygon([(1, 1), (9, 9), (9, 1), (1, 9), (1, 1)])
    df1, df2 = (geopandas.GeoDataFrame(geometry=[shape]) for shape in (box(0, 0, 10, 10), bow))
    assert overlayd.overlay(df1, df2).area.tolist() == [32]
    with pytest.raises(ValueError, match="1 invalid input geometries"):
        overlayd.overlay(df1, df2, make_valid=False)


def test_what_only_touches_is_told_or_kept() -> None:
    df1 = geopandas.GeoDataFrame({"a": [1]}, geometry=[box(0, 0, 2, 2)])
    df2 = geopandas.GeoDataFrame({"b": [1, 2, 3]}, geometry=[box(2, 0, 4, 2), box(2, 2, 3, 3), box(1, 1, 4, 4)])
    with pytest.warns(UserWarning, match="resulted in 2 dropped geometries"):
        assert len(overlayd.overlay(df1, df2)) == 1
    with warnings.catch_warnings():
        warnings.simplefilter("error")
        overlayd.overlay(df1, df2, keep_geom_type=True)
        kept = overlayd.overlay(df1, df2, keep_geom_type=False)
    same(kept, geopandas.overlay(df1, df2, keep_geom_type=False))
    assert [*kept.geom_type] == ["LineString", "Point", "Polygon"]


def test_points_and_lines_are_refused_or_left_to_geopandas() -> None:
    df1 = geopandas.GeoDataFrame({"a": [1, 2]}, geometry=[Point(1, 1), Point(9, 9)])
    df2 = geopandas.GeoDataFrame({"b": [1]}, geometry=[box(0, 0, 2, 2)])
    for function in (overlayd.overlay, overlayd.pairs):
        with pytest.raises(NotImplementedError, match="Point"):
            function(df1, df2)
    same(overlayd.overlay(df1, df2, others="geopandas"), geopandas.overlay(df1, df2))
    lines = geopandas.GeoDataFrame(geometry=[LineString([(0, 0), (1, 1)])])
    asked: list[Callable[[], object]] = [lambda: overlayd.check(lines), lambda: overlayd.derive("a", {"a": lines}),
                                         lambda: overlayd.dissolve(lines), lambda: overlayd.clip(lines, df2)]
    for question in asked:
        with pytest.raises(NotImplementedError, match="LineString"):
            question()


def test_words_are_refused_as_geopandas_refuses_them() -> None:
    df1, df2 = made.boxes(1, 3), made.boxes(2, 3)
    with pytest.raises(ValueError, match="`how` was 'other'"):
        overlayd.overlay(df1, df2, "other")
    with pytest.raises(NotImplementedError, match="GeoDataFrames"):
        overlayd.overlay(df1, df2.geometry)
    with pytest.warns(UserWarning, match="CRS mismatch"):
        overlayd.overlay(df1, df2.set_crs("EPSG:4326", allow_override=True))
    for size in (0, "x", "-1", float("nan")):
        with pytest.raises(ValueError, match="no number above 0"):
            overlayd.overlay(df1, df2, grid_size=size)
    far = geopandas.GeoDataFrame(geometry=[box(0, 0, 1, 1), box(0, 0, 1e12, 1)], index=["near", "far"])
    with pytest.raises(ValueError, match=r"df2, row far: .*grid_size=\S+ would do"):
        overlayd.overlay(far.iloc[:1], far, grid_size="0.001")


def test_the_grid_is_told() -> None:
    shapes = [box(0, 0, 1 / 3, 1), box(5, 5, 5.00001, 6)]
    df1 = geopandas.GeoDataFrame(geometry=shapes, index=["wide", "thin"], crs=made.SYSTEM)
    told = overlayd.overlay(df1, made.tiles(1)).attrs["overlayd"]
    assert told["grid"] == "0.001" and "rounded to 0.001 metre" in told["told"]
    assert told["collapsed"] == {"df1": ["thin"], "df2": []}
    assert 0 < told["moved"] <= 0.0005 and told["bends"] == told["bent"] == 0
    own = overlayd.overlay(made.tiles(2), made.tiles(1), grid_size=0.1).attrs["overlayd"]
    assert own["grid"] == "0.1" and "nothing is rounded" in own["told"]


@pytest.mark.parametrize("ask", [
    lambda frame, **more: overlayd.pairs(frame, frame, **more).shared_area.sum(),
    lambda frame, **more: overlayd.overlay(frame, frame, exact="exact", **more).exact.sum(),
    lambda frame, **more: overlayd.derive("a", {"a": frame}, **more).attrs["overlayd"]["area"],
    lambda frame, **more: overlayd.check(pd.concat([frame, frame]), **more).overlaps.shared_area.sum()])
def test_square_metres_are_given_of_metres_alone(ask: Callable[..., Any]) -> None:
    """The area of a box on the globe is pyproj's, by many corners along its parallels."""
    degrees = geopandas.GeoDataFrame(geometry=[box(-78.7, 35.7, -78.6, 35.8)], crs="EPSG:4326")
    for system, unit in (("EPSG:4326", "degree"), ("EPSG:2263", "US survey foot"), (None, "not known")):
        with pytest.raises(NotInMetres, match=f"^no areas in square metres: the unit of the coordinates is {unit}; .*"
                                              r"to_crs\(6933\), whose areas are true$"):
            ask(geopandas.GeoDataFrame(geometry=degrees.geometry.to_list(), crs=system), square_metres=True)
    globe, _ = pyproj.Geod(ellps="WGS84").geometry_area_perimeter(Polygon(
        [(x, 35.7) for x in np.linspace(-78.7, -78.6, 101)] + [(x, 35.8) for x in np.linspace(-78.6, -78.7, 101)]))
    assert float(ask(degrees.to_crs(6933), square_metres=True, grid_size="0.001")) == pytest.approx(globe, rel=1e-7)


def test_empty_frames_make_empty_results() -> None:
    df = made.boxes(1, 5)
    nothing = df.iloc[:0]
    for how in HOWS[1:]:
        for first, second in ((df, nothing), (nothing, df)):
            if how in ("union", "identity", "symmetric_difference") and first is nothing:
                continue  # geopandas fails there, as it wants the kind of the first shape
            with warnings.catch_warnings():
                warnings.simplefilter("ignore")
                same(overlayd.overlay(first, second, how), geopandas.overlay(first, second, how, keep_geom_type=False))
    assert len(overlayd.pairs(df, nothing)) == 0 and len(overlayd.dissolve(nothing)) == 0
    assert overlayd.check(nothing).closes and not len(overlayd.derive("a", {"a": nothing}))


@pytest.mark.parametrize("expression", ["(a | b) - c", "a & b ^ c", "c - (a & c)", "a"])
@pytest.mark.parametrize("seed", range(3))
def test_an_expression_is_the_region_that_shapely_has(expression: str, seed: int) -> None:
    layers = {name: made.boxes(seed * 3 + place, 6) for place, name in enumerate("abc")}
    found = overlayd.derive(expression, layers)
    a, b, c = (layers[name].unary_union for name in "abc")
    wanted = {"(a | b) - c": (a | b) - c, "a & b ^ c": (a & b) ^ c, "c - (a & c)": c - (a & c), "a": a}[expression]
    assert found.unary_union.symmetric_difference(wanted.buffer(0)).area == 0
    assert found.geom_type.eq("Polygon").all() and found.is_valid.all()
    told = found.attrs["overlayd"]
    assert abs(told["area"] - Fraction(wanted.area)) <= told["area_bound"] < 1e-9
    assert found.crs == layers["a"].crs


def test_expressions_are_refused_in_words() -> None:
    layers = {"a": made.boxes(1, 3), "b": made.boxes(2, 3).to_crs("EPSG:4326")}
    with pytest.raises(ValueError, match="a - c: no layer c; there are: a, b"):
        overlayd.derive("a - c", layers)
    with pytest.raises(ValueError, match="a, b have different systems"):
        overlayd.derive("a - b", layers)
    with pytest.raises(NoAnswer, match=r"a - \(a: the expression cannot be read"):
        overlayd.derive("a - (a", layers)
    with pytest.raises(ValueError, match="names no layer"):
        overlayd.derive("", layers)


@pytest.mark.parametrize("words", [{"by": "word"}, {"by": "word", "as_index": False, "aggfunc": "count"}, {},
                                   {"level": 0}, {"by": ["word", "odd"], "sort": False}])
def test_a_dissolve_is_that_of_geopandas(words: dict[str, Any]) -> None:
    df = made.boxes(5, 14).assign(odd=lambda frame: frame["own"] % 2)
    df.index = [3, 1, 3, 2, 1, 1, 2] * 2
    same(overlayd.dissolve(df, **words), df.dissolve(**words))


@pytest.mark.parametrize("seed", range(4))
def test_a_clip_is_what_lies_in_the_mask(seed: int) -> None:
    df, mask = made.boxes(seed, 9, "first"), made.boxes(seed + 7, 3, "second")
    df.index = [*"abcdefghi"]
    square = box(3, 3, 20, 20)
    several = MultiPolygon([square, box(22, 3, 25, 25)])
    for own, union in ((mask, mask.unary_union), (mask.geometry, mask.unary_union), (square, square),
                       (square.bounds, square), (several, several)):
        shapes = df.geometry.intersection(union)
        wanted = df.assign(geometry=shapes.buffer(0))[shapes.area > 0]
        same(overlayd.clip(df, own), wanted)
        assert {*wanted.index} <= {*geopandas.clip(df, own).index}
    series = overlayd.clip(df.geometry, square.bounds)
    assert isinstance(series, geopandas.GeoSeries) and series.name == "geometry"
    assert len(overlayd.clip(df, box(100, 100, 101, 101))) == 0
    for frame, wrong in ((df["word"], mask), (df, (1, 2, 3))):
        with pytest.raises(TypeError):
            overlayd.clip(frame, wrong)
    with pytest.raises(NotImplementedError):
        overlayd.clip(df, mask, keep_geom_type=False)


def test_the_package_is_imported_without_geopandas() -> None:
    text = "import sys, overlayd, overlayd.api.cells as _; sys.exit('pandas' in sys.modules or hasattr(overlayd, 'x'))"
    assert subprocess.run([sys.executable, "-c", text], env=SOURCES, check=False).returncode == 0
