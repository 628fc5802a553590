"""The grid that maps get where none is named, and the line that says so."""

from fractions import Fraction

import numpy as np
import pytest
from hypothesis import given, settings
from hypothesis import strategies as drawn

from overlayd.grid_pass.default_grid import Choice, Given, Reason, Unit, choose
from overlayd.grid_pass.onto_grid import Rings, onto_grid
from overlayd.grid_pass.telling import grid_line


def map_of(coordinates: object, unit: Unit = Unit.LENGTH) -> Given:
    """A map of one ring."""
    at = np.array(coordinates, float).reshape(-1, 2)
    return Given(at[:, 0].copy(), at[:, 1].copy(), np.array([len(at)], np.int64), unit)


SPREAD = np.sqrt(np.arange(1, 41)).reshape(-1, 2) / 7


@settings(deadline=None)
@given(drawn.lists(drawn.integers(-10**5, 10**5), min_size=1), drawn.integers(0, 4))
def test_the_datas_own_digits_are_the_grid(numbers: list[int], digits: int) -> None:
    numbers = [10 * numbers[0] + 1, *numbers]  # one that needs all digits
    choice = choose([map_of([(one / 10**digits, 0) for one in numbers])])
    assert choice.digits == digits and choice.reason is Reason.OWN and not choice.is_coarser()


@pytest.mark.parametrize("coordinates, unit, digits, reason", [
    (SPREAD * 1000, Unit.LENGTH, 3, Reason.USUAL),
    (SPREAD / 100, Unit.DEGREE, 8, Reason.USUAL),
    (SPREAD / 100, Unit.UNKNOWN, 8, Reason.USUAL),
    (SPREAD * 1000, Unit.UNKNOWN, 3, Reason.USUAL),
    (np.round(SPREAD, 4), Unit.LENGTH, 4, Reason.OWN),
    (np.round(SPREAD * 10, 5), Unit.LENGTH, 3, Reason.USUAL),
    (np.round(SPREAD * 10, 5) * 3 / 3, Unit.DEGREE, 5, Reason.OWN),
    (np.nextafter(np.round(SPREAD * 10, 5), 99), Unit.DEGREE, 5, Reason.OWN),
    (np.round(SPREAD / 10, 6).astype(np.float32), Unit.DEGREE, 6, Reason.FLOATS)])
def test_the_grid_by_digits_and_units(coordinates: object, unit: Unit, digits: int, reason: Reason) -> None:
    choice = choose([map_of(coordinates, unit)])
    assert (choice.digits, choice.asked, choice.reason) == (digits, digits, reason)


def test_it_is_coarser_while_bends_exceed_the_corners_four_times_on_the_datas_own() -> None:
    for east, digits, asked, reason, bends in ((3145.729, 3, 3, Reason.OWN, 12), (3670.017, 2, 3, Reason.OWN, 0),
                                               (3100 / 3, 3, 3, Reason.USUAL, 2), (3200 / 3, 2, 3, Reason.USUAL, 0)):
        choice = choose([map_of([(0, 0), (east, 0.5), (0, 1)])])
        assert choice == Choice(digits, asked, reason, bends) and choice.is_coarser() == (digits < asked)


def test_it_is_coarser_where_a_coordinate_would_be_beyond_the_range() -> None:
    assert choose([map_of([(2.0**41, 0.5), (2.0**41, 1), (2.0**41 - 1, 1)])]).digits == 0
    assert choose([map_of([(1e15, 0), (1e15, 1e3), (1e15 + 1e3, 0)])]).factor() == Fraction(1, 1000)


def test_two_maps_have_one_grid_the_finer_of_theirs() -> None:
    coarse, fine = map_of([(0.1, 0), (1, 0), (0, 1)]), map_of([(0.12, 0), (1, 0), (0, 1)])
    assert choose([coarse]).digits == 1 and choose([coarse, fine]).digits == choose([fine, coarse]).digits == 2
    sparse = map_of([(0, 0), (3200 / 3, 0.5), (0, 1)])
    assert choose([sparse]).digits == 2 and choose([sparse, map_of(SPREAD)]).digits == 3


@pytest.mark.parametrize("coordinates, factor, choice, line", [
    ([(0, 0), (9, 0), (0, 9)], 1, None, "nothing is rounded: all coordinates lie on the grid of 1 metres"),
    ([(0, 0), (9.25, 0), (0, 9)], 10, None, "rounded to 0.1 metres: no border moves by more than 0.05 an axis"),
    ([(0, 0), (0.1, 0), (0, 0.1)], 1, Choice(0, 3, Reason.USUAL, 1),
     "rounded to 1 metres: no border moves by more than 0.1 an axis; 1 rings collapsed; 1e-3 would bend more edges "
     "than there are corners; --grid 1e-3 has it")])
def test_what_is_said(coordinates: object, factor: int, choice: Choice | None, line: str) -> None:
    one = map_of(coordinates)
    done = onto_grid([Rings(one.x, one.y, one.sizes)], Fraction(factor))
    assert grid_line(done, Fraction(factor), "metres", choice) == line
