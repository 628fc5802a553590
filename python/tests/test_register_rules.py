"""Rules of registers: violations beside fractions and shapely, kept as layers are edited, and accepted."""

import os
import random
import subprocess
import sys
from collections.abc import Iterable
from fractions import Fraction
from itertools import combinations, product
from pathlib import Path
from typing import Any

import pytest
from osgeo import gdal

from overlayd.register.auditing import audit
from overlayd.register.model import Must, Refused, Rule
from overlayd.register.ruling import accept, add_rule, drop_rule
from overlayd.register.violation_rows import Listed, listed

from . import register_works as works, slabs
from .common import HAS_QGIS, SECONDS
from .register_works import GRID, Land, land

pytestmark = pytest.mark.features
geometry: Any = pytest.importorskip("shapely.geometry")
ops: Any = pytest.importorskip("shapely.ops")
validation: Any = pytest.importorskip("shapely.validation")
wkb: Any = pytest.importorskip("shapely.wkb")
ALL_RULES = ((Must.NOT_OVERLAP, "parcels", None), (Must.NOT_OVERLAP_WITH, "parcels", "zones"),
             (Must.BE_COVERED, "zones", "parcels"), (Must.NOT_HAVE_GAPS, "parcels", None))


def ruled(path: Path, seed: int, **words: int) -> tuple[Land, list[Rule]]:
    """A register with rules of each kind; a gap may be of any size."""
    own = land(path, seed, (), **words)
    return own, [add_rule(own.register, must, a, b, own.program, reach=10**6) for must, a, b in ALL_RULES]


def found(own: Land, rule: Rule) -> list[Listed]:
    """The violations of a rule."""
    return listed(own.register.engine, " WHERE rule = ?", rule.number)


def expected(path: Path | str, rule: Rule) -> dict[tuple[int, int | None], Fraction]:
    """What breaks a rule, and its area in square units of the grid, by fractions alone."""
    a, b = (works.features_in(path, name) for name in (rule.a, rule.b or rule.a))
    if rule.must is Must.BE_COVERED:
        areas = {fid: slabs.area([own, *b.values()], lambda states: states[0] and not any(states[1:]))
                 for fid, own in a.items()}
        return {(fid, None): area for fid, area in areas.items() if area}
    of: Iterable[tuple[int, int]] = combinations(sorted(a), 2) if rule.b is None else product(a, b)
    shared = {(i, j): slabs.common(a[i], b[j]) for i, j in of if not any(
        works.boxes_apart(a[i], b[j], axis) for axis in (0, 1))}
    return {pair: area for pair, area in shared.items() if area}


def gaps_expected(path: Path | str, name: str) -> list[float]:
    """The areas of the holes in a layer, by shapely."""
    shapes = [validation.make_valid(geometry.Polygon(ring))
              for rings in works.features_in(path, name).values() for ring in rings]
    whole = ops.unary_union(shapes)
    holes = [geometry.Polygon(ring).area for one in getattr(whole, "geoms", [whole]) for ring in one.interiors]
    return sorted(area / GRID**2 for area in holes)


def check_rules(own: Land, rules: list[Rule]) -> None:
    """Looks whether violations are what fractions and shapely say, with outlines of their areas."""
    for rule in rules:
        have = found(own, rule)
        if rule.must is Must.NOT_HAVE_GAPS:
            areas = sorted(one.violation.area or 0 for one in have)
            assert areas == pytest.approx(gaps_expected(own.path, rule.a), abs=1e-5)
        else:
            want = expected(own.path, rule)
            assert sorted((one.violation.a or 0, one.violation.b or 0) for one in have) == sorted(
                (a, b or 0) for a, b in want), str(rule)
            for one in have:
                area = want[one.violation.a or 0, one.violation.b]
                assert abs(Fraction(one.violation.area or 0) - area / GRID**2) <= Fraction(one.violation.bound or 0)
        for one in have:
            shape = wkb.loads(one.violation.outline)
            assert shape.area == pytest.approx(one.violation.area, abs=1e-5)
            assert shape.bounds == pytest.approx(one.violation.box())
            assert one.violation.width == pytest.approx(shape.area / shape.length, rel=1e-6, abs=1e-9)


@pytest.mark.parametrize("seed", range(3))
def test_violations_are_listed_as_fractions_say(tmp_path: Path, seed: int) -> None:
    own, rules = ruled(tmp_path / "land.gpkg", seed, parcels=14)
    check_rules(own, rules)


@pytest.mark.parametrize("seed, writer", [(seed, name) for seed in range(2) for name in works.WRITERS])
def test_violations_follow_each_writer(tmp_path: Path, seed: int, writer: str) -> None:
    own, rules = ruled(tmp_path / "land.gpkg", seed, parcels=14)
    draw = random.Random(seed)
    for _ in range(4):
        works.WRITERS[writer](Path(own.path), draw, draw.randint(1, 6))
        assert own.refresh() > 0
        check_rules(own, rules)
    assert all(one.is_right() for one in audit(own.register, own.program))


def test_an_audit_finds_rows_that_are_wrong(tmp_path: Path) -> None:
    own, rules = ruled(tmp_path / "land.gpkg", 1, parcels=14)
    assert all(one.is_right() for one in audit(own.register, own.program))
    own.ask("UPDATE overlay_violation SET area = area + 1 WHERE id = (SELECT min(id) FROM overlay_violation)")
    own.ask("DELETE FROM overlay_violation WHERE id = (SELECT max(id) FROM overlay_violation)")
    found = audit(own.register, own.program)
    assert sum(len(one.wrong) for one in found) == 1 and sum(len(one.missing) for one in found) == 1


def square(x: float, y: float, side: float = 4) -> bytes:
    """A square of metres."""
    east, north = works.EAST + x, works.NORTH + y
    return works.polygon([(east, north), (east + side, north), (east + side, north + side), (east, north + side),
                          (east, north)])


def test_a_gap_is_no_larger_than_it_may_be(tmp_path: Path) -> None:
    own = land(tmp_path / "land.gpkg", 1, (), parcels=0, zones=0)
    rule = add_rule(own.register, Must.NOT_HAVE_GAPS, "parcels", None, own.program, reach=6000)
    engine = works.GeoPackage(str(own.path), writes_layers=True)
    for x, y in ((0, 0), (4, 0), (8, 0), (0, 4), (8, 4), (0, 8), (8, 8)):
        engine.ask("INSERT INTO parcels (geom) VALUES (?)", works.blob(square(x, y)))
    own.refresh()
    assert found(own, rule) == []  # a bay is none
    engine.ask("INSERT INTO parcels (geom) VALUES (?)", works.blob(square(4, 8)))
    own.refresh()
    (gap,) = found(own, rule)
    assert [*gap.violation][:7] == [None, None, None, None, 16, pytest.approx(0, abs=1e-6), 1]
    engine.ask("DELETE FROM parcels WHERE fid = 5")
    own.refresh()
    assert found(own, rule) == []
    for x, y in ((12, 4), (12, 0), (12, 8), (16, 0), (16, 4), (16, 8)):
        engine.ask("INSERT INTO parcels (geom) VALUES (?)", works.blob(square(x, y)))
    engine.ask("DELETE FROM parcels WHERE geom = ?", works.blob(square(12, 4)))
    own.refresh()
    assert found(own, rule) == []  # 12 m wide
    engine.ask("INSERT INTO parcels (geom) VALUES (?)", works.blob(square(8, 4)))
    own.refresh()
    assert sorted(one.violation.minx - works.EAST for one in found(own, rule)) == [4, 12]


def test_what_is_accepted_stays_so_until_it_grows(tmp_path: Path) -> None:
    own = land(tmp_path / "land.gpkg", 1, (), parcels=0, zones=0)
    engine = works.GeoPackage(str(own.path), writes_layers=True)
    for x in (0, 3):
        engine.ask("INSERT INTO parcels (geom) VALUES (?)", works.blob(square(x, 0)))
    rule = add_rule(own.register, Must.NOT_OVERLAP, "parcels", None, own.program)
    accept(own.register, found(own, rule)[0].number, "anna", "an old wall")
    for x, who in ((3.5, "anna"), (3.4, None)):
        engine.ask("UPDATE parcels SET geom = ? WHERE fid = 2", works.blob(square(x, 0)))
        own.refresh()
        (one,) = found(own, rule)
        assert (one.who, one.why is not None, one.accepted is not None) == (who, bool(who), bool(who))
    with pytest.raises(Refused, match="who accepts"):
        accept(own.register, one.number, "", "why")
    with pytest.raises(Refused, match="99: no violation"):
        accept(own.register, 99, "anna", "why")


def test_rules_that_are_none_are_refused_by_name(tmp_path: Path) -> None:
    own, rules = ruled(tmp_path / "land.gpkg", 1)
    for must, a, b, told in ((Must.NOT_OVERLAP, "parcels", "zones", "of one layer"), (
            Must.BE_COVERED, "parcels", None, "of two layers"), (Must.BE_COVERED, "zones", "zones", "of two layers"), (
            Must.NOT_OVERLAP, "fields", None, "no layer"), (Must.NOT_OVERLAP, "parcels", None, "a rule already")):
        with pytest.raises(Refused, match=told):
            add_rule(own.register, must, a, b, own.program)
    with pytest.raises(Refused, match="parcels has rules"):
        own.register.remove("parcels")
    with pytest.raises(Refused, match="7: no rule"):
        drop_rule(own.register, 7)
    for one in rules:
        drop_rule(own.register, one.number)
    assert own.ask("SELECT count(*) FROM overlay_violation") == [(0,)]
    own.register.remove("parcels")


def test_violations_are_a_layer_for_gdal(tmp_path: Path) -> None:
    """With their outlines and areas, in the system of the layers."""
    own, rules = ruled(tmp_path / "land.gpkg", 3)
    accept(own.register, found(own, rules[0])[0].number, "anna", "an old fence")
    wanted = {one.number: one.violation for rule in rules for one in found(own, rule) if one.violation.outline}

    def opened() -> None:
        store = gdal.OpenEx(str(own.path), gdal.OF_VECTOR | gdal.OF_UPDATE)
        layer = store.GetLayerByName("overlay_violation_map")
        assert layer.GetSpatialRef().GetAuthorityCode(None) == "25832"
        features = {one.GetFID(): one for one in layer}
        assert features.keys() == wanted.keys() and len(wanted) > 9
        for number, one in wanted.items():
            shape = features[number].GetGeometryRef()
            assert (shape.GetGeometryName(), features[number]["a"]) == ("MULTIPOLYGON", one.a)
            assert shape.Area() == pytest.approx(one.area, abs=1e-6) == features[number]["area"]

    assert works.warnings_of(opened) == []
    own.refresh(say=lambda text: pytest.fail(text))


IN_QGIS = """import sys
from qgis.core import QgsApplication, QgsVectorLayer
application = QgsApplication([], False)
application.initQgis()
layer = QgsVectorLayer(sys.argv[1] + "|layername=overlay_violation_map", "v", "ogr")
for one in layer.renderer().rootRule().children():
    print(one.label(), one.symbol().color().name(), len([*layer.getFeatures(one.filterExpression())]), sep=":")
"""


@pytest.mark.skipif(not HAS_QGIS, reason="no QGIS: apt-get install python3-qgis")
def test_qgis_opens_violations_in_their_colours(tmp_path: Path) -> None:
    own, rules = ruled(tmp_path / "land.gpkg", 3)
    accept(own.register, found(own, rules[0])[0].number, "anna", "an old fence")
    done = subprocess.run([sys.executable, "-c", IN_QGIS, str(own.path)], capture_output=True, text=True, check=True,
                          timeout=SECONDS, env={**os.environ, "QT_QPA_PLATFORM": "offscreen"})
    counts = [len(found(own, rule)) for rule in rules]
    assert done.stdout.split("\n")[:3] == [
        "accepted:#969696:1", f"gaps:#f0a020:{counts[3]}", f"overlaps, or not covered:#d03020:{sum(counts[:3]) - 1}"]
