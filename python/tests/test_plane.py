"""Points, rings and boxes beside another way by fractions, over values that hypothesis draws."""

from fractions import Fraction

from hypothesis import given, settings, strategies as st
from overlayd.geometry import plane
from overlayd.geometry.plane import Box
from overlayd.program import Point

from .test_shapes import Place, inside, meets

settings.register_profile("gate", deadline=None, derandomize=True)
settings.load_profile("gate")
POINTS = st.builds(lambda x, y, w: (x, y, w), st.integers(-12, 12), st.integers(-12, 12), st.integers(1, 4))
RINGS = st.lists(st.lists(POINTS, min_size=3, max_size=5), min_size=1, max_size=3)
SIDES = st.tuples(*[st.fractions(-8, 8, max_denominator=3)] * 4)


def placed(point: Point) -> Place:
    return Fraction(point[0], point[2]), Fraction(point[1], point[2])


def is_on(a: Place, b: Place, c: Place) -> bool:
    level = (b[0] - a[0]) * (c[1] - a[1]) == (b[1] - a[1]) * (c[0] - a[0])
    return level and min(a[0], b[0]) <= c[0] <= max(a[0], b[0]) and min(a[1], b[1]) <= c[1] <= max(a[1], b[1])


@given(RINGS, POINTS)
def test_where_a_point_lies(rings: list[list[Point]], point: Point) -> None:
    places, there = [[placed(corner) for corner in ring] for ring in rings], placed(point)
    is_edge = any(is_on(a, b, there) for ring in places for a, b in zip(ring, ring[1:] + ring[:1]))
    assert plane.place(rings, point) == ("edge" if is_edge else "in" if inside(places, there) else "out")


@given(RINGS, POINTS)
def test_the_first_corner_may_stand_twice(rings: list[list[Point]], point: Point) -> None:
    closed = [[*ring, ring[0]] for ring in rings]
    assert plane.place(closed, point) == plane.place(rings, point)
    assert sum(Fraction(*term) for term in plane.terms(closed)) == sum(Fraction(*term) for term in plane.terms(rings))


@given(RINGS, SIDES)
def test_what_meets_a_box(rings: list[list[Point]], sides: tuple[Fraction, ...]) -> None:
    (left, right), (low, high) = sorted(sides[:2]), sorted(sides[2:])
    box = Box(left, low, right, high)
    assert plane.meets(rings, box) == meets([[placed(corner) for corner in ring] for ring in rings], box)


@given(POINTS, POINTS, POINTS)
def test_turns_are_areas_of_triangles(a: Point, b: Point, c: Point) -> None:
    assert Fraction(plane.turn(a, b, c), a[2] * b[2] * c[2]) == sum(Fraction(*one) for one in plane.terms([[a, b, c]]))
    assert plane.turn(a, b, c) == plane.turn(b, c, a) == -plane.turn(b, a, c)


@given(st.lists(st.lists(POINTS, min_size=1, max_size=4), min_size=1, max_size=3))
def test_boxes(groups: list[list[Point]]) -> None:
    boxes = [Box.of(points) for points in groups]
    everywhere = Box.of(point for points in groups for point in points)
    assert Box.round(boxes) == everywhere and Box.round([]) is None
    assert all(everywhere.has(point) and one.has(point) for one, points in zip(boxes, groups) for point in points)
    assert [plane.homogeneous(*placed(corner)) for corner in everywhere.corners()] == everywhere.corners()
    xs, ys = zip(*(placed(point) for points in groups for point in points))
    assert everywhere == (min(xs), min(ys), max(xs), max(ys))
    assert Box.of_whole([(3, 1), (2, 5)]) == Box.of(plane.whole([(3, 1), (2, 5)])) == (2, 1, 3, 5)
