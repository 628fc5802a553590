"""What a notebook's functions give is what the command's tables have: of the maps of examples/maps."""

import csv
from fractions import Fraction
from typing import Any

import geopandas
import pytest

import overlayd
from overlayd.api.pieces import HOWS
from overlayd.commands import check, derive, pairs, pieces

from .common import TOP, Programs, outcome

pytestmark = pytest.mark.features
PARCELS, ZONES = (str(TOP / "examples" / "maps" / f"{name}.geojson") for name in ("parcels", "zones"))
GRID = "0.001"
Rows = list[dict[str, str]]


@pytest.fixture
def frames() -> list[Any]:
    return [geopandas.read_file(path) for path in (PARCELS, ZONES)]


def table(question: Any, *words: object) -> Rows:
    """What the command writes."""
    status, output, errors = outcome(question, *words, "--grid", GRID, "--program", Programs.features)
    assert status == 0, errors
    return [*csv.DictReader(output.splitlines())]


def named(text: Any) -> str:
    """What calls a feature, in a table."""
    return text if isinstance(text, str) else ""


def test_pairs_are_the_rows_of_the_table(frames: list[Any]) -> None:
    found = overlayd.pairs(*frames, grid_size=GRID)
    ours = {(row.nr, row.kind, row.relation, repr(row.shared_area), repr(row.shared_area_bound))
            for row in found.itertuples()}
    theirs = table(pairs, PARCELS, ZONES, "--a-id", "nr", "--b-id", "kind")
    assert len(theirs) == len(found) == 12
    assert ours == {(row["a"], row["b"], row["relation"], row["area"], row["bound"]) for row in theirs}


def test_a_check_has_the_rows_of_the_table(frames: list[Any]) -> None:
    found = overlayd.check(frames[0].set_index("nr"), grid_size=GRID)
    theirs = table(check, PARCELS, "--a-id", "nr")
    assert [(row.index_left, row.index_right, repr(row.shared_area), repr(row.shared_area_bound)) for row in
            found.overlaps.itertuples()] == [(row["a"], row["b"], row["area"], row["bound"]) for row in theirs]
    assert found.closes and len(theirs) == 3 and found.overlaps.crs == frames[0].crs
    # The gaps of the page, which test_example_maps works out by shapely.
    assert len(found.gaps) == 2 and found.gaps.gap_area.sum() == pytest.approx(24.92545, abs=1e-5)
    assert found.gaps.area.sum() == pytest.approx(found.gaps.gap_area.sum(), rel=1e-9)


@pytest.mark.parametrize("expression", ["zones - parcels", "zones & parcels", "zones ^ parcels"])
def test_a_region_has_the_area_of_the_table(frames: list[Any], expression: str) -> None:
    layers = dict(zip(("parcels", "zones"), frames))
    area = overlayd.derive(expression, layers, grid_size=GRID).attrs["overlayd"]["area"]
    (row,) = table(derive, expression, f"parcels={PARCELS}", f"zones={ZONES}")
    assert 0 < abs(area) and abs(area - Fraction(float(row["area"]))) <= Fraction(float(row["bound"]))


@pytest.mark.parametrize("how", HOWS)
def test_pieces_are_the_rows_of_the_table(frames: list[Any], how: str) -> None:
    found = overlayd.overlay(*frames, how, exact="exact", grid_size=GRID)
    ours = {(named(row.get("nr")), named(row.get("kind"))): row["exact"] for _, row in found.iterrows()}
    theirs = {(row["a"], row["b"]): row for row in
              table(pieces, PARCELS, ZONES, "--a-id", "nr", "--b-id", "kind", "--how", how)}
    assert ours.keys() == theirs.keys() and len(found) == len(ours)
    for key, row in theirs.items():
        assert abs(ours[key] - Fraction(float(row["area"]))) <= Fraction(float(row["bound"]))
