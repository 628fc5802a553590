"""Tables of the kernel's rows, read back."""

import csv
from fractions import Fraction
from pathlib import Path

import numpy as np
import pytest
from osgeo import gdal

from overlayd.files.row_tables import HEADS, Named, write_array, write_package, write_text
from overlayd.geometry.flat_arrays import Numbers
from overlayd.geometry.shortest import PAD, spelled
from overlayd.kernel.columns import Column
from overlayd.kernel.laying import Laid
from overlayd.kernel.overlaying import Overlay
from overlayd.kernel.rows import PAIR
from overlayd.kernel.shapes import column_of

HALF = 2**40  # twice an area of a half, in parts
NAMES = np.array(["p", 'a "b", c', "line\nbreak"], object)


def outlines() -> Column:
    """A triangle, and nothing."""
    return column_of(np.array([0.0, 2, 0]), np.array([0.0, 0, 2]), np.array([3]), np.array([-1]), np.array([1, 0]))


def rows(shapes: Column | None = None) -> Overlay:
    found = np.zeros(2, PAIR)
    found["relation"], found["is_proper"], found["fault"] = [2, 1], [0, 1], [0, 0]
    found["both"]["low"], found["both"]["high"] = [HALF, 0], [0, 1]
    found["a"]["low"], found["b"]["low"], found["bound"]["low"] = 4 * HALF, 6 * HALF, [0, 2]
    return Overlay(np.array([[0, 1], [2, 1]]), found, shapes, Laid([], Fraction(10), "", []))


def texts(path: Path) -> list[dict[str, str]]:
    with path.open(encoding="utf-8", newline="") as file:
        return [*csv.DictReader(file)]


@pytest.mark.parametrize("names", [None, NAMES])
def test_text_is_read_back(tmp_path: Path, names: Numbers | None) -> None:
    write_text(tmp_path / "t.csv", Named(rows(), names, names))
    found = texts(tmp_path / "t.csv")
    own = [*map(str, range(3))] if names is None else NAMES.tolist()
    assert [(row["a"], row["b"], row["relation"]) for row in found] == [(own[0], own[1], "overlaps"),
                                                                        (own[2], own[1], "touches")]
    assert tuple(found[0]) == HEADS
    areas = rows().areas()
    for name, wanted in (("area", areas.doubles()), ("bound", areas.bounds()), ("area_a", [0.02, 0.02])):
        assert [float(row[name]) for row in found] == [*wanted]
    assert [areas.exact(0), areas.exact(1), areas.bound(1)] == [Fraction(1, 200), Fraction(2**23, 100),
                                                                Fraction(1, 2**40 * 100)]


def test_an_array_has_what_rows_have(tmp_path: Path) -> None:
    write_array(tmp_path / "t.npy", rows())
    found = np.load(tmp_path / "t.npy")
    assert found[["a", "b", "relation", "is_proper", "fault"]].tolist() == [(0, 1, 2, False, 0), (2, 1, 1, True, 0)]
    assert found["both"].tolist() == [[HALF, 0], [0, 1]] and found["off"].tolist() == [[0, 0], [2, 0]]
    assert (found["area"] == rows().areas().doubles()).all() and (found["bound"] == rows().areas().bounds()).all()


@pytest.mark.parametrize("system", [None, "EPSG:25832"])
def test_a_package_has_rows_and_outlines(tmp_path: Path, system: str | None) -> None:
    path = tmp_path / "t.gpkg"
    for shapes in (None, outlines()):
        write_package(path, Named(rows(shapes), NAMES, None), system)
        file = gdal.OpenEx(str(path), gdal.OF_VECTOR)
        layer = file.GetLayer(0)
        found = [*layer]
        assert layer.GetFeatureCount() == 2 and [one.GetField("a") for one in found] == [NAMES[0], NAMES[2]]
        assert [one.GetField("area") for one in found] == rows().areas().doubles().tolist()
        kept = [None if one.GetGeometryRef() is None else one.GetGeometryRef().ExportToWkt() for one in found]
        wanted = [None, None] if shapes is None else ["POLYGON ((0 0,2 0,0 2,0 0))", "MULTIPOLYGON EMPTY"]
        assert kept == wanted
        assert system is None or layer.GetSpatialRef().GetAuthorityCode(None) == "25832"
        assert system is not None or not layer.GetSpatialRef().IsGeographic()
        if shapes is not None:
            layer.SetSpatialFilterRect(1, 0, 3, 3)
            assert [one.GetField("b") for one in layer] == ["1"] and layer.GetExtent() == (0, 2, 0, 2)
        del layer, file, found
    assert [one.name for one in tmp_path.iterdir()] == ["t.gpkg"]


@pytest.mark.parametrize("power", [*range(-44, 18), 308])
def test_numbers_are_spelled_as_python_spells_them(power: int) -> None:
    draw = np.random.default_rng(power + 44)
    parts = draw.random(500) * 10.0**power
    whole = np.rint(draw.random(500) * 10.0 ** (3 + power % 12)) / 10.0 ** (power % 7)
    steps = [np.nextafter(whole, 0), np.spacing(whole) * 4, 2.0 ** draw.integers(-140, 60, 500), -whole]
    ties = draw.integers(2**46, 2**53, 500) / 2.0 ** draw.integers(8, 20, 500)  # some half way between two decimals
    given = np.concatenate([parts, whole, *steps, ties, [0.0, -0.0, 10.0**power, 5e-324, np.inf, np.nan]])
    found = [column[column != PAD].tobytes().decode() for column in spelled(given).T]
    assert found == [*map(repr, given.tolist())]


def test_tables_of_no_rows(tmp_path: Path) -> None:
    none = rows(outlines()).part(np.zeros(0, np.int64))
    write_text(tmp_path / "t.csv", Named(none))
    write_array(tmp_path / "t.npy", none)
    write_package(tmp_path / "t.gpkg", Named(none))
    assert texts(tmp_path / "t.csv") == [] and len(np.load(tmp_path / "t.npy")) == 0
