"""The tables of ../../examples/maps.md, worked out a second time: by slabs of fractions, and gaps by shapely."""

import json
import re
from decimal import Decimal
from fractions import Fraction
from itertools import combinations, product

import pytest
from shapely.geometry import Polygon
from shapely.ops import unary_union

from . import slabs
from .common import TOP

FACTOR = 1000
Rings = list[slabs.Ring]
PAGE = TOP.joinpath("examples", "maps.md").read_text()


def features_of(name: str, called: str) -> dict[str, Rings]:
    """The features of a map of the page in millimetres, which they have exactly."""
    features = json.loads(TOP.joinpath("examples", "maps", name).read_text(), parse_float=Decimal)["features"]
    return {one["properties"][called]: [[(int(FACTOR * x), int(FACTOR * y)) for x, y in ring[:-1]]
                                        for ring in one["geometry"]["coordinates"]] for one in features}


PARCELS, ZONES = features_of("parcels.geojson", "nr"), features_of("zones.geojson", "kind")
OWN = {name: slabs.common(rings, rings) / FACTOR**2 for name, rings in (PARCELS | ZONES).items()}


def area(mine: list[Rings], others: list[Rings]) -> Fraction:
    """What some features have and others have not."""
    return slabs.area([*mine, *others], lambda states: any(states[: len(mine)]) and not any(states[len(mine) :])
                      ) / FACTOR**2


def table(question: str) -> list[list[str]]:
    """The rows below a command, without the names of columns."""
    block = re.search(rf"^\$ \./overlay {question} .*\n((?:.*,.*\n)+)", PAGE, re.M)
    assert block
    return [line.split(",") for line in block[1].splitlines()[1:]]


@pytest.mark.parametrize("question, pairs", [("pairs", product(PARCELS, ZONES)),
                                             ("check", combinations(sorted(PARCELS), 2))])
def test_a_table_has_each_pair_the_largest_first(question: str, pairs: list[tuple[str, str]]) -> None:
    areas = {(a, b): slabs.common((PARCELS | ZONES)[a], (PARCELS | ZONES)[b]) / FACTOR**2 for a, b in pairs}
    wanted = sorted((pair for pair, own in areas.items() if own), key=lambda pair: -areas[pair])
    found = table(question)
    assert [(row[0], row[1]) for row in found] == wanted
    for (a, b, relation, near, bound, *both), pair in zip(found, wanted):
        assert abs(Fraction(float(near)) - areas[pair]) <= Fraction(float(bound))
        assert [float(one) for one in both[:2]] == [float(OWN[a]), float(OWN[b])]
        assert relation == {(True, True): "equals", (True, False): "within", (False, True): "contains"}.get(
            (areas[pair] == OWN[a], areas[pair] == OWN[b]), "overlaps")


def test_gaps() -> None:
    whole = unary_union([Polygon(rings[0], rings[1:]) for rings in PARCELS.values()])
    gaps = sorted((Polygon(ring).area / FACTOR**2 for ring in whole.interiors), reverse=True)
    assert len(gaps) == 2 and f"sum to {round(sum(gaps), 6)}; the largest has {round(gaps[0], 6)}" in PAGE


def test_an_expression_and_all_pieces() -> None:
    parcels, zones = [*PARCELS.values()], [*ZONES.values()]
    assert f"\narea,bound\n{float(area(zones, parcels)):.12f}"[:26] + "\n" in PAGE
    alone = [area([one], others) for mine, others in ((parcels, zones), (zones, parcels)) for one in mine]
    assert f"Each of the {len(table('pairs')) + sum(own > 0 for own in alone)} pieces has" in PAGE


def test_what_eight_parcels_have_of_the_forest() -> None:
    forest = ZONES["forest"]
    whole = slabs.area([forest, *PARCELS.values()], lambda states: states[0] and any(states[1:]))
    assert f"area {float(whole):.6f}\n" in PAGE
    parts = sum((slabs.common(forest, parcel) for parcel in PARCELS.values()), Fraction(0))
    for number in (parts, parts - whole):
        assert f"{Decimal(round(number * 1000)) / 10**9}".rstrip("0") in PAGE
