"""Snap rounding: each step becomes the hot points whose pixels it meets, as fractions say; and what follows from it."""

import random
from fractions import Fraction

import numpy as np
import pytest
from hypothesis import given, settings
from hypothesis import strategies as drawn

from overlayd import grid
from overlayd.grid_pass import onto_grid as passing
from overlayd.grid_pass.chains import chains
from overlayd.grid_pass.onto_grid import Noding, Rings, onto_grid
from overlayd.grid_pass.pixels import alone, hot_of
from overlayd.grid_pass.places import FINE, HALF, UNIT, BeyondRange, places, whole
from overlayd.grid_pass.rings import WholeRings, unspiked
from overlayd.grid_pass.steps import LONG, Points, Steps, bends, quotients, steps_of, unique

from . import partitions

Place = tuple[int, int]

some = settings(deadline=None, max_examples=40)
many = settings(deadline=None)
factors = drawn.sampled_from([Fraction(*one) for one in ((1, 1), (1000, 1), (10**8, 1), (1, 10), (7, 3), (64, 1))])


def one_place(x: int) -> int:
    """A place near x units."""
    return x | 1


def as_steps(steps: list[tuple[Place, Place]]) -> Steps:
    """Steps of rings of two corners, which run there and back."""
    at = np.array(steps, np.int64).reshape(-1, 2)
    return steps_of(at[:, 0].copy(), at[:, 1].copy(), np.full(len(steps), 2, np.int64))


def corner(place: Place) -> Place:
    return (place[0] + HALF) // UNIT, (place[1] + HALF) // UNIT


# Places


@many
@given(drawn.lists(drawn.floats(-2e4, 2e4) | drawn.integers(-2**27, 2**27).map(lambda one: one / 2**13)), factors)
def test_a_place_is_that_of_the_decimal_and_lies_in_its_own_pixel(doubles: list[float], factor: Fraction) -> None:
    got = places(np.array(doubles, float), factor)
    spelled = [grid.spelled(one) * factor for one in doubles]
    assert got.tolist() == [2 * (one * FINE // 1) + 1 for one in spelled]
    assert whole(got).tolist() == [grid.nearest(one) for one in spelled]


@many
@given(drawn.lists(drawn.integers(-10**7, 10**7)), drawn.integers(1, 6), drawn.sampled_from([-1, 0, 1]))
def test_a_decimal_that_ends_in_a_half_is_rounded_up_and_lies_there(numbers: list[int], digits: int, off: int) -> None:
    """Coordinates of one digit more than the grid, a last digit of 5, as doubles and one last place beside."""
    doubles = np.array([(10 * one + 5) / 10 ** (digits + 1) for one in numbers], float)
    doubles = np.nextafter(doubles, off * np.inf) if off else doubles
    got = places(doubles, Fraction(10**digits))
    assert whole(got).tolist() == [grid.nearest(grid.spelled(one) * 10**digits) for one in doubles.tolist()]
    assert whole(got).tolist() == [grid.nearest(grid.spelled(one) * 10**digits) for one in doubles.tolist()]
    assert (np.abs(got - whole(got) * UNIT) < HALF).all()


@pytest.mark.parametrize("coordinate, would_do", [
    (2.0**41, 1), (2.2e12, Fraction(1, 10)), (np.inf, None), (np.nan, None)])
def test_a_coordinate_beyond_the_range_is_named_with_a_factor_that_does(coordinate: float, would_do: object) -> None:
    with pytest.raises(BeyondRange) as refused:
        places(np.array([0.0, coordinate]), Fraction(10))
    assert (refused.value.at, refused.value.would_do) == (1, would_do)
    assert whole(places(np.array([2.0**41, -(2.0**41)]), Fraction(1))).tolist() == [2**41, -(2**41)]


# Bends


@many
@given(drawn.lists(drawn.tuples(drawn.integers(0, 2**59), drawn.integers(-2**59, 2**59), drawn.integers(1, 2**59))))
def test_quotients_of_long_products_are_exact(numbers: list[tuple[int, int, int]]) -> None:
    rows = [(factor % (run + 1), max(-run, min(run, rise)), run) for factor, rise, run in numbers]
    columns = np.array(rows, np.int64).reshape(-1, 3).T
    assert quotients(*columns).tolist() == [factor * rise // run for factor, rise, run in rows]


places_of_long = drawn.integers(-12 * UNIT, 12 * UNIT).map(one_place) | drawn.integers(-5, 5).flatmap(
    lambda line: drawn.sampled_from([-HALF - 1, -1, 1, HALF - 1]).map(lambda off: line * 2 * UNIT + off | 1))


@many
@given(places_of_long, places_of_long, places_of_long, places_of_long)
def test_a_long_step_is_bent_by_its_exact_height_the_same_from_either_end(a: int, b: int, c: int, d: int) -> None:
    steps = as_steps([((a, b), (c, d))])
    found = bends(steps, 2)
    assert sorted(zip(found.at.x.tolist(), found.at.y.tolist())) == sorted(bends_by_fractions((a, b), (c, d), 2))
    back = bends(as_steps([((c, d), (a, b))]), 2)
    assert (found.at.x.tolist(), found.at.y.tolist()) == (back.at.x.tolist(), back.at.y.tolist())
    if len(steps):
        inner = zip(found.at.x.tolist(), found.at.y.tolist())
        chain = sorted([corner((a, b)), *inner, corner((c, d))], key=lambda point: along(point, (a, b), (c, d)))
        assert all(max(abs(p[0] - q[0]), abs(p[1] - q[1])) <= 2 for p, q in zip(chain, chain[1:]))
        assert is_monotone(chain)


def along(p: Place, a: Place, b: Place) -> int:
    return (p[0] * UNIT - a[0]) * (b[0] - a[0]) + (p[1] * UNIT - a[1]) * (b[1] - a[1])


def bends_by_fractions(a: Place, b: Place, long: int) -> list[Place]:
    p, q = corner(a), corner(b)
    if max(abs(p[0] - q[0]), abs(p[1] - q[1])) <= long:
        return []
    if abs(b[1] - a[1]) > abs(b[0] - a[0]):
        return [(x, y) for y, x in bends_by_fractions(a[::-1], b[::-1], long)]
    low, high = sorted((a[0], b[0]))
    lines = [line for line in range(low // UNIT, high // UNIT + 2) if line % long == 0 and low < line * UNIT < high]
    heights = [Fraction(a[1]) + Fraction((line * UNIT - a[0]) * (b[1] - a[1]), b[0] - a[0]) for line in lines]
    return [(line, int((height / UNIT + Fraction(1, 2)) // 1)) for line, height in zip(lines, heights)]


def is_monotone(chain: list[Place]) -> bool:
    ways = [[q[axis] - p[axis] for p, q in zip(chain, chain[1:])] for axis in (0, 1)]
    return not any(any(way > 0 for way in own) and any(way < 0 for way in own) for own in ways)


# Chains


def plane(seed: int) -> list[tuple[Place, Place]]:
    """Steps on a small plane: anywhere, at halves and quarters, with ends on others, or whole."""
    draw = random.Random(seed)
    width, kind = draw.choice([4, 6, 12, 25, 60]), draw.randrange(4)

    def one() -> float:
        if kind == 1:
            return draw.randrange(width) + draw.choice([0.0, 0.5, 0.25])
        return float(draw.randrange(width)) if kind == 3 else draw.random() * width

    steps = [((one(), one()), (one(), one())) for _ in range(draw.randrange(3, 20))]
    for number in range(1, len(steps), 2):
        if kind == 2:
            (a, b), (c, d), share = *steps[number - 1], draw.random()
            steps[number] = (a + (c - a) * share, b + (d - b) * share), steps[number][1]
    return [(fine(one), fine(other)) for one, other in steps]


def fine(place: tuple[float, float]) -> Place:
    x, y = places(np.array(place), Fraction(1)).tolist()
    return x, y


def by_fractions(a: Place, b: Place, points: list[tuple[Place, int]]) -> list[Place]:
    """The chain of a step: the points whose squares of so large half sides it meets, by where they begin."""
    found = []
    for point, half in points:
        begin, end = Fraction(0), Fraction(1)
        for axis in (0, 1):
            run, off = b[axis] - a[axis], point[axis] * UNIT - a[axis]
            if run:
                shares = sorted((Fraction(off - half, run), Fraction(off + half, run)))
                begin, end = max(begin, shares[0]), min(end, shares[1])
            elif abs(off) >= half:
                end = Fraction(-1)
        if begin < end:
            found.append((begin, point))
    inner = [point for _, point in sorted(found) if point not in (corner(a), corner(b))]
    return [corner(a), *inner, corner(b)]


def passed(given: list[tuple[Place, Place]], long: int, wide: bool = False) -> dict[tuple[Place, Place], list[Place]]:
    """The chain of each step, by its ends in places, the lower one first."""
    steps = as_steps(given)
    bent = bends(steps, long)
    ends = [place for step in given for place in step]
    x, y = (np.array([corner(place)[axis] for place in ends], np.int64) for axis in (0, 1))
    points = unique(np.concatenate([x, bent.at.x]), np.concatenate([y, bent.at.y]))
    found = chains(steps, bent, hot_of(points, wide))
    table = {}
    for number, (ax, ay, bx, by) in enumerate(zip(*(own.tolist() for own in (steps.ax, steps.ay, steps.bx, steps.by)))):
        own = found.step == number
        inner = list(zip(found.at.x[own].tolist(), found.at.y[own].tolist()))
        table[(ax, ay), (bx, by)] = [corner((ax, ay)), *inner, corner((bx, by))]
    return table


def hot_places(given: list[tuple[Place, Place]], long: int) -> list[Place]:
    found = {corner(place) for step in given for place in step}
    for step in given:
        found |= set(bends_by_fractions(*step, long))
    return sorted(found)


@pytest.mark.parametrize("long", [LONG, 4])
@some
@given(drawn.integers(0, 10**9))
def test_a_chain_is_the_hot_points_whose_pixels_its_step_meets(long: int, seed: int) -> None:
    steps = plane(seed)
    hot = [(point, HALF) for point in hot_places(steps, long)]
    for (a, b), chain in passed(steps, long).items():
        assert chain == by_fractions(a, b, hot)


@some
@given(drawn.integers(0, 10**9))
def test_a_chain_with_wide_pixels_is_met_in_the_order_in_which_squares_begin(seed: int) -> None:
    steps = plane(seed)
    points = hot_places(steps, LONG)
    near = [any((x + dx, y + dy) in points for dx in (-1, 0, 1) for dy in (-1, 0, 1) if dx or dy) for x, y in points]
    hot = [(point, HALF if is_near else UNIT) for point, is_near in zip(points, near)]
    at = Points(*(np.array([point[axis] for point in points], np.int64) for axis in (0, 1)))
    assert alone(at).tolist() == [not one for one in near]
    for (a, b), chain in passed(steps, LONG, True).items():
        assert chain == by_fractions(a, b, hot)


def test_a_wide_pixel_that_begins_later_comes_later_though_its_centre_is_nearer() -> None:
    steps = [((-9 * UNIT + 1, 1 + UNIT // 200), (11 * UNIT + 1, 2 * UNIT + 1 + UNIT // 200)),
             ((UNIT + 1, 1), (UNIT + 1, 1)), ((1, 2 * UNIT + 1), (1, 2 * UNIT + 1))]
    (chain,) = passed(steps, LONG, True).values()
    assert chain[1:-1] == [(1, 0), (0, 2)]


@pytest.mark.parametrize("long", [LONG, 4])
@some
@given(drawn.integers(0, 10**9))
def test_no_chain_is_off_its_step_by_more_than_half_a_unit_an_axis(long: int, seed: int) -> None:
    for (a, b), chain in passed(plane(seed), long).items():
        dx, dy = b[0] - a[0], b[1] - a[1]
        assert all(abs(dx * (y * UNIT - a[1]) - dy * (x * UNIT - a[0])) <= HALF * (abs(dx) + abs(dy)) for x, y in chain)
        assert is_monotone(chain)


@pytest.mark.parametrize("long", [LONG, 4])
@some
@given(drawn.integers(0, 10**9))
def test_steps_that_do_not_cross_do_not_cross_afterwards(long: int, seed: int) -> None:
    done = list(passed(plane(seed), long).items())
    for number, ((a, b), chain) in enumerate(done):
        for (c, d), other in done[:number]:
            crossings = sum(cross(*p, *q) for p in zip(chain, chain[1:]) for q in zip(other, other[1:]))
            assert crossings <= cross(a, b, c, d)


def side(a: Place, b: Place, c: Place) -> int:
    turn = (b[0] - a[0]) * (c[1] - a[1]) - (b[1] - a[1]) * (c[0] - a[0])
    return (turn > 0) - (turn < 0)


def cross(a: Place, b: Place, c: Place, d: Place) -> bool:
    """Whether two steps have one inner point of both in common."""
    return side(a, b, c) * side(a, b, d) < 0 and side(c, d, a) * side(c, d, b) < 0


def test_tests_of_pixels_far_apart_are_exact() -> None:
    """Steps of 2^41 units through the corner of a pixel, which does not count, and one 2^-16 of a unit beside."""
    far = 2**41 * UNIT + 1
    for off, is_met in ((0, False), (2, True)):
        steps = [((-far, -far + UNIT - off), (far, far + UNIT - off)), ((1, 1), (1, 1))]
        chain = passed(steps, 2**43)[steps[0]]
        assert (chain[1:-1] == [(0, 0)]) == is_met


# Rings


@many
@given(drawn.lists(drawn.integers(0, 3), max_size=30), drawn.integers(0, 29))
def test_a_ring_without_spikes_has_none_and_does_not_depend_on_where_it_begins(numbers: list[int], begin: int) -> None:
    way = [(one % 2, one // 2) for one in numbers]
    found = unspiked(way)
    if len(found) > 2:
        assert all(found[k] != found[k - 1] and found[k] != found[k - 2] for k in range(len(found)))
    turned = unspiked(way[begin:] + way[:begin])
    assert least(found) == least(turned) and odd(way) == odd(found)
    assert least(unspiked(way[::-1])[::-1]) == least(found)


def least(way: list[Place]) -> list[Place]:
    """A ring from the corner from which it is least; of less than three corners nothing."""
    return min((way[k:] + way[:k] for k in range(len(way))), default=[]) if len(way) > 2 else []


def odd(way: list[Place]) -> set[frozenset[Place]]:
    """The edges that a ring has an odd number of times."""
    found: set[frozenset[Place]] = set()
    for one, other in zip(way, way[1:] + way[:1]):
        found ^= {frozenset((one, other))} if one != other else set()
    return found


@pytest.mark.parametrize("map_of, factor, bent", [
    (lambda: partitions.halved(1500), 1000, False), (lambda: partitions.halved(1500), 1, False),
    (lambda: partitions.bricks(30), 1000, False), (lambda: partitions.road(400, 8000.0), 1000, True)])
def test_a_partition_of_doubles_becomes_an_exact_one(map_of: object, factor: int, bent: bool) -> None:
    """Each edge is in two rings, once either way, or in one on the outer border: no overlap, no gap."""
    given = map_of()  # type: ignore[operator]
    (done,) = onto_grid([given], Fraction(factor))
    (rounded,) = onto_grid([given], Fraction(factor), Noding.NEVER)
    assert (done.bends > 0) == bent and not len(done.collapsed) and done.taken > 800
    border = partitions.edges(done.rings)
    corners = [len([edge for edge in border if point in edge]) for point in {p for edge in border for p in edge}]
    assert set(border.values()) <= {1, -1} and set(corners) == {2}
    assert len(border) < 1000 < len(partitions.edges(rounded.rings)) and done.moved <= 0.5


def test_two_maps_have_one_border_where_both_are_in_one_pass() -> None:
    parcels, zones = partitions.lattice(60, 1), partitions.lattice(60, 6)
    together = onto_grid([parcels, zones], Fraction(1000))
    assert is_cover(*(one.rings for one in together))
    assert not is_cover(*(onto_grid([one], Fraction(1000))[0].rings for one in (parcels, zones)))


def is_cover(parcels: WholeRings, zones: WholeRings) -> bool:
    """Whether six parcels together have the edges of their zone."""
    own, whole_zones = partitions.ways(parcels), partitions.ways(zones)
    return all(edges_of(own[6 * k : 6 * k + 6]) == edges_of([zone]) for k, zone in enumerate(whole_zones))


def edges_of(ways: list[list[Place]]) -> object:
    corners = np.array([corner for way in ways for corner in way], np.int64)
    return partitions.edges(WholeRings(corners[:, 0], corners[:, 1], np.array([len(way) for way in ways], np.int64)))


def test_shards_and_rings_run_the_other_way_give_the_same_rings() -> None:
    given = partitions.halved(1500)
    own = passing.of_rings(given, Fraction(10))
    hot = hot_of(own.corners(), False)
    full = [least(way) for way in partitions.ways(passing.snapped(own, hot).rings)]
    ends = np.cumsum(given.sizes)
    for shard in range(4):
        some = range(shard, len(given.sizes), 4)
        at = np.concatenate([np.arange(ends[k] - given.sizes[k], ends[k])[::-1] for k in some])
        part = passing.of_rings(Rings(given.x[at], given.y[at], given.sizes[shard::4]), Fraction(10))
        ways = [least(way[::-1]) for way in partitions.ways(passing.snapped(part, hot).rings)]
        assert ways == [full[k] for k in some]


@pytest.mark.parametrize("noding", [Noding.WHERE_MOVED, Noding.NEVER])
def test_what_is_on_the_grid_stays_as_it_is(noding: Noding) -> None:
    """A second run does nothing, and a sliver that somebody made is still there, though a pass would close it."""
    (once,) = onto_grid([partitions.halved(300)], Fraction(10))
    given = Rings(once.rings.x / 10, once.rings.y / 10, once.rings.sizes)
    (again,) = onto_grid([given], Fraction(10), noding)
    assert (again.rings.x.tolist(), again.rings.y.tolist()) == (once.rings.x.tolist(), once.rings.y.tolist())
    assert (again.moved, again.taken, again.bends, len(again.collapsed)) == (0, 0, 0, 0)
    sliver = Rings(np.array([0.0, 8, 0, 0, 3, 8]), np.array([0.0, 3, 9, 0, 1, 3]), np.array([3, 3]))
    assert partitions.ways(onto_grid([sliver], Fraction(1), noding)[0].rings) == [
        [(0, 0), (8, 3), (0, 9)], [(0, 0), (3, 1), (8, 3)]]
    assert onto_grid([sliver], Fraction(1), Noding.ASKED)[0].collapsed.tolist() == [1]


def test_noding_that_is_asked_for_takes_corners_a_unit_away_into_a_border() -> None:
    given = Rings(np.array([0.0, 90, 90, 0, 0, 90, 44]), np.array([0.0, 0, 50, 50, 80, 80, 51]), np.array([4, 3]))
    (done,) = onto_grid([given], Fraction(1), Noding.ASKED)
    assert done.taken == 1 and (44, 51) in partitions.ways(done.rings)[0]


def test_rings_that_the_grid_leaves_nothing_of_are_named() -> None:
    given = Rings(np.array([0.1, 0.2, 0.3, 0, 9, 4.5, 0, 9, 9]), np.array([0.1, 0.2, 0.1, 0, 0, 0.2, 0, 0, 9]),
                  np.array([3, 3, 3]))
    (done,) = onto_grid([given], Fraction(1))
    assert done.collapsed.tolist() == [0, 1] and done.rings.sizes.tolist() == [0, 0, 4]


def test_a_map_without_features_is_one() -> None:
    empty = np.zeros(0)
    for noding in Noding:
        (done,) = onto_grid([Rings(empty, empty, np.zeros(0, np.int64))], Fraction(1000), noding)
        assert len(done.rings.x) == 0
